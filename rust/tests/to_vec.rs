//! The feature `alloc`: answers as lists, as the calls with lent memory give them.

use spot_reference::{make, some_spots, Random};
use spot_table::*;

const ROOM: usize = 2000;

#[test]
fn as_the_calls_with_lent_memory() {
    let mut random = Random(47);
    for round in 0..40 {
        let made = make(160, &some_spots(1 + random.below(1500), 3000, 200, &mut random), round % 2 == 0, &mut random);
        let table = Table::new(&made.table[..]);
        let (mut output, mut map) = (vec![0; SPOT * ROOM * 4], ReadMap::new());
        let mut place = || random.below(6400) as i32 - 3200;
        let ranges: [Range; 4] = std::array::from_fn(|i| Range { x1: place(), x2: place(), y: i as i32 * 40 });
        for range in ranges.into_iter().chain([Range::ALL]) {
            let due: Vec<Spot> = table.report(range, &mut output, &mut map).unwrap().collect();
            assert_eq!(table.report_to_vec(range), Ok(due));
            let places = Places { x1: range.x1, x2: range.x2 };
            for k in [0, 1, 20, 127, 128, 129, 700, u32::MAX] {
                let due: Vec<Spot> = table.top(places, k, &mut output, &mut map).unwrap().collect();
                assert_eq!(table.top_to_vec(places, k), Ok(due));
                let due = table.top_within(places, k, 3, &mut output, &mut map).unwrap();
                assert_eq!(table.top_within_to_vec(places, k, 3), Ok((due.spots.collect(), due.ceiling)));
            }
        }
        let due = table.report_many(&ranges, &mut [0; 4], &mut output, &mut map).unwrap().map(|spots| spots.collect()).collect();
        assert_eq!(table.report_many_to_vecs(&ranges), Ok(due));
        assert_eq!(table.report_many_to_vecs(&[]), Ok(vec![]));
        assert_eq!(table.report_many_to_vecs(&[Range::ALL; 64]).unwrap(), vec![table.report_to_vec(Range::ALL).unwrap(); 64]);
    }
}

#[test]
fn refused_as_they_are() {
    let table = Table::new([9; 9 * BLOCK]);
    assert_eq!(table.report_to_vec(Range::ALL), Err(Refusal::Broken));
    assert_eq!(table.top_to_vec(.., 5), Err(Refusal::Broken));
    assert_eq!(table.top_within_to_vec(.., 5, 5), Err(Refusal::Broken));
    assert_eq!(table.report_many_to_vecs(&[Range::ALL; 65]), Err(Refusal::TooManyRanges));
    assert_eq!(Table::new([0; 7]).top_to_vec(.., u32::MAX), Err(Refusal::TableLength));
    assert_eq!(Tour::new([0; BLOCK]).report_to_vec(Range::ALL), Err(Refusal::Broken));
}

#[test]
fn messages_and_tours() {
    for n in [0, 1, 700, 4096] {
        let change = |i: i32| match i % 3 {
            0 => Change::Withdraw { place: i, rank: 1 },
            _ => Change::Add(Spot { place: i, rank: 2, track: 3 }),
        };
        let changes: Vec<Change> = (0..n).map(change).collect();
        let (mut lent, message) = (vec![0; MESSAGE], Message::write_to_vec(&changes).unwrap());
        assert_eq!(message.bytes(), Message::write(&changes, &mut lent).unwrap().bytes());
        assert_eq!(message.read_to_vec(), Ok(changes));
    }
    let one = Change::Withdraw { place: 0, rank: 0 };
    assert_eq!(Message::write_to_vec(&[one; 4097]).unwrap_err().refusal, Refusal::NotAMessage);
    let beyond = Message::write_to_vec(&[one, Change::Withdraw { place: HIGHEST_PLACE + 1, rank: 0 }]).unwrap_err();
    assert_eq!((beyond.refusal, beyond.position), (Refusal::PlaceOutside, Some(1)));
    for bytes in [&[][..], &[0, 0, 0, 7, 1, 255, 255], &[255; 30]] {
        assert_eq!(Message::new(bytes).read_to_vec().unwrap_err().refusal, Refusal::NotAMessage);
    }

    let spots: Vec<Spot> = (0..513).map(|place| Spot { place, rank: place % 7, track: 1 }).collect();
    let mut lent = [0; TOUR];
    for n in [0, 1, 128, 129, 512] {
        let tour = Tour::press_to_vec(&spots[..n]).unwrap();
        assert_eq!(tour.bytes(), Tour::press(&spots[..n], &mut lent).unwrap().bytes());
        assert_eq!(tour.report_to_vec(Range::ALL).unwrap(), spots[..n]);
    }
    assert_eq!(Tour::press_to_vec(&spots).unwrap_err(), Refusal::NotPressable);
}
