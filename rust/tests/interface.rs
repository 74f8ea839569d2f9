//! What the crate adds to the raw calls: refusals, iterators, tables over owned and borrowed bytes.

use spot_table::*;

#[test]
fn refusals() {
    for number in 1..=9 {
        let r = Refusal::new(number, 7).unwrap();
        assert_eq!((r.number(), r.detail()), (number, if number == 5 { 7 } else { 0 }));
        assert_eq!(Answer::new(number, 7).result(), Err(r));
        let e: &dyn std::error::Error = &r;
        assert!(!e.to_string().is_empty());
    }
    assert_eq!(Refusal::new(0, 7), None);
    let unknown = Answer::new(10, 7).result().unwrap_err();
    assert_eq!((unknown, unknown.number(), unknown.detail()), (Refusal::Unknown { number: 10, detail: 7 }, 10, 7));
    assert_eq!(Answer::new(0, 9).result(), Ok(9));
    assert_eq!(Table::format(vec![0; 8 * BLOCK]).unwrap_err(), Refusal::TableLength);
    let mut table = Table::format(vec![0; 9 * BLOCK]).unwrap();
    assert_eq!(table.rebuild(&mut [0; 9]), Err(Refusal::LentLength));
    assert_eq!(Table::new([9; 9 * BLOCK]).count(), Err(Refusal::Broken));
    let (mut output, mut map, one) = ([0; 12], ReadMap::new(), Range { x1: 0, x2: 9, y: 0 });
    assert_eq!(table.report_many(&[one; 65], &mut [0; 65], &mut output, &mut map).unwrap_err(), Refusal::TooManyRanges);
    assert_eq!(table.report_many(&[one; 65], &mut [0; 64], &mut output, &mut map).unwrap_err(), Refusal::LentLength);
    let (mut work, beyond) = (vec![0; 9 * BLOCK], Spot { place: HIGHEST_PLACE + 1, rank: 7, track: 1 });
    assert_eq!(table.add(beyond, &mut work), Err(Refusal::PlaceOutside));
    assert_eq!(table.withdraw(LOWEST_PLACE - 1, 7, &mut work), Err(Refusal::PlaceOutside));
    assert_eq!(table.add(beyond, &mut work[1..]), Err(Refusal::LentLength));
}

#[test]
fn messages() {
    let spot = |place| Spot { place, rank: 7, track: 1 };
    let changes = [Change::Add(spot(0)), Change::Withdraw { place: 240, rank: -1 }, Change::Add(spot(HIGHEST_PLACE))];
    assert_eq!(changes.map(Change::identity), [(0, 7), (240, -1), (HIGHEST_PLACE, 7)]);
    assert!(changes.iter().all(|c| Change::read(&c.to_bytes()) == Some(*c)));
    assert_eq!([[0; CHANGE], [2; CHANGE], [3; CHANGE]].map(|row| Change::read(&row)), [None; 3]);
    let mut lent = [9; 50];
    let message = Message::write(&changes, &mut lent).unwrap().bytes().to_vec();
    assert_eq!((message.len(), message_len(&lent), &lent[42..]), (42, Some(42), &[9; 8][..]));
    let (message, mut list) = (Message::new(message), [9; 3 * CHANGE + 1]);
    let read = message.read(&mut list).unwrap();
    assert_eq!((read.len(), read.clone().collect::<Vec<_>>()), (3, changes.to_vec()));
    assert_eq!((list[3 * CHANGE], message.clone().into_bytes().len()), (9, 42));
    let why = |refused: MessageRefusal| (refused.refusal, refused.position);
    assert_eq!(why(message.read(&mut list[..38]).unwrap_err()), (Refusal::LentLength, None));
    assert_eq!(why(Message::new(&message.bytes()[..41]).read(&mut list).unwrap_err()), (Refusal::NotAMessage, None));
    assert_eq!((message.said_changes(), Message::new(&message.bytes()[..6]).said_changes()), (Some(3), None));
    let mut work = vec![0; 9 * BLOCK];
    let mut table = Table::format(vec![0; 9 * BLOCK]).unwrap();
    assert_eq!((table.apply(&message, &mut work), table.count()), (Ok(()), Ok(2)));
    assert_eq!(table.apply(&message, &mut work[1..]).map_err(why), Err((Refusal::LentLength, None)));
    let broken = Table::new([9; 9 * BLOCK]).apply(&message, &mut work).unwrap_err();
    assert_eq!((why(broken), broken.to_string()), ((Refusal::Broken, None), Refusal::Broken.to_string()));
    let beyond = [changes[0], Change::Add(spot(HIGHEST_PLACE + 1))];
    let outside = Message::write(&beyond, &mut lent).unwrap_err();
    assert_eq!(why(outside), (Refusal::PlaceOutside, Some(1)));
    assert_eq!(outside.to_string(), std::format!("the change at position 1, from 0: {}", Refusal::PlaceOutside));
    assert_eq!(Refusal::from(outside), Refusal::PlaceOutside);
}

#[test]
fn iterators() {
    let mut work = vec![0; 12 * BLOCK];
    let mut table = Table::format(vec![0; 12 * BLOCK]).unwrap();
    let due: Vec<Spot> = (0..176).map(|i| Spot { place: 10 * i, rank: i % 7, track: i as u32 }).collect();
    for s in &due {
        table.add(*s, &mut work).unwrap();
    }
    assert_eq!((table.capacity(), table.count(), table.check()), (176, Ok(176), Ok(true)));
    let (mut output, mut map) = (vec![0; 176 * SPOT], ReadMap::new());
    let spots = table.report(Range::ALL, &mut output, &mut map).unwrap();
    assert_eq!((spots.len(), spots.bytes().len()), (176, 176 * SPOT));
    assert_eq!(spots.clone().collect::<Vec<_>>(), due);
    assert_eq!(spots.rev().collect::<Vec<_>>(), due.iter().copied().rev().collect::<Vec<_>>());
    let blocks: Vec<usize> = map.blocks().collect();
    assert_eq!((blocks.len() as u32, &blocks[..2]), (map.ones(), &[0, 1][..]));
    assert!((0..5000).all(|b| map.marks(b) == blocks.contains(&b)));
    assert_eq!(marked(&[]).next(), None);
    assert_eq!(marked(&[255; MAP]).collect::<Vec<_>>(), (0..4096).collect::<Vec<_>>());
    let best = table.top(0..=1760, 3, &mut output, &mut map).unwrap();
    assert_eq!(best.map(|s| (s.rank, s.place)).collect::<Vec<_>>(), [(6, 60), (6, 130), (6, 200)]);
}

#[test]
fn spots_of_each_range() {
    let mut work = vec![0; 9 * BLOCK];
    let mut table = Table::format(vec![0; 9 * BLOCK]).unwrap();
    for i in 0..10 {
        table.add(Spot { place: 10 * i, rank: i, track: i as u32 }, &mut work).unwrap();
    }
    let ranges = [(0, 20, 1), (95, 99, 0), (80, 10, 0), (20, 20, 2)].map(|(x1, x2, y)| Range { x1, x2, y });
    let (mut counts, mut output, mut map) = ([9; 4], [0; 20 * SPOT], ReadMap::new());
    let reports = table.report_many(&ranges, &mut counts, &mut output, &mut map).unwrap();
    let places = |spots: Spots| spots.map(|s| s.place).collect::<Vec<_>>();
    let due: [&[i32]; 4] = [&[10, 20], &[], &[80, 90, 0, 10], &[20]];
    assert_eq!((reports.len(), reports.counts(), map.blocks().collect::<Vec<_>>()), (4, &[2, 0, 4, 1][..], vec![0, 1]));
    assert_eq!(places(reports.all()), due.concat());
    assert_eq!(reports.clone().map(places).collect::<Vec<_>>(), due);
    assert_eq!(reports.clone().rev().map(places).collect::<Vec<_>>(), due.into_iter().rev().collect::<Vec<_>>());
    let mut left = reports.clone();
    assert_eq!((left.next().map(places), left.next_back().map(places)), (Some(vec![10, 20]), Some(vec![20])));
    assert_eq!((left.len(), left.counts(), places(left.all())), (2, &[0, 4][..], due[2].to_vec()));
    assert_eq!(left.map(|spots| spots.len()).collect::<Vec<_>>(), [0, 4]);
    let none = table.report_many(&[], &mut [], &mut output, &mut map).unwrap();
    assert_eq!((none.len(), none.all().len(), map.blocks().collect::<Vec<_>>()), (0, 0, vec![0]));
}

#[test]
fn spots_and_ceiling() {
    let mut work = vec![0; 9 * BLOCK];
    let mut table = Table::format(vec![0; 9 * BLOCK]).unwrap();
    for i in 0..10 {
        table.add(Spot { place: 10 * i, rank: i, track: i as u32 }, &mut work).unwrap();
    }
    let (mut output, mut map) = ([0; 10 * SPOT], ReadMap::new());
    for (x1, x2, k, allowance, ranks, ceiling) in [
        (0, 90, 3, 1, &[9, 8, 7][..], 6),
        (0, 90, 10, 1, &[9, 8, 7, 6, 5, 4, 3, 2, 1, 0], i32::MIN),
        (80, 10, 2, u32::MAX, &[9, 8], 1),
        (41, 49, 2, 1, &[], i32::MIN),
        (0, 90, 3, 0, &[], i32::MAX),
        (0, 90, 0, 1, &[], i32::MAX),
    ] {
        let best = table.top_within(Places { x1, x2 }, k, allowance, &mut output, &mut map).unwrap();
        assert_eq!((best.spots.clone().map(|s| s.rank).collect::<Vec<_>>(), best.ceiling), (ranks.to_vec(), ceiling));
        assert_eq!(map.ones(), if k == 0 || allowance == 0 { 1 } else { 2 });
    }
    assert_eq!(table.top_within(0..=90, 3, 1, &mut [0; 35], &mut map).unwrap_err(), Refusal::Output { spots: 3 });
}

fn read(path: &str) -> String {
    std::fs::read_to_string(std::format!("{}/../{path}", env!("CARGO_MANIFEST_DIR"))).unwrap()
}

/// What the header says is the version of the crate, of the tool and of the topmost heading of the changes; where one differs, `make version` carries the header's number to the first two.
#[test]
fn version() {
    let header = read("include/spot_table.h");
    let part =
        |name: &str| header.split(&std::format!("#define SPOT_VERSION_{name} ")).nth(1).and_then(|rest| rest.lines().next()).unwrap();
    let due = ["MAJOR", "MINOR", "PATCH"].map(part).join(".");
    let after = |path: &str, before: &str| {
        let text = read(path);
        text.lines().find_map(|line| line.strip_prefix(before)).unwrap().trim_end_matches('"').to_string()
    };
    assert_eq!(env!("CARGO_PKG_VERSION"), due);
    assert_eq!(after("tool/Cargo.toml", "version = \""), due);
    assert_eq!(after("CHANGELOG.md", "## "), due);
}

/// The C header says the same: sizes, and the words of each number.
#[test]
fn header() {
    let header = read("include/spot_table.h");
    let has = |text: &str| assert!(header.contains(text), "{text}");
    for (name, value) in [
        ("BLOCK_BYTES", BLOCK),
        ("FEWEST_BLOCKS", FEWEST_BLOCKS),
        ("MOST_BLOCKS", MOST_BLOCKS),
        ("BYTES", SPOT),
        ("MAP_BYTES", MAP),
        ("MOST_RANGES", MOST_RANGES),
        ("TOUR_BYTES", TOUR),
        ("TOUR_BLOCKS", TOUR_BLOCKS),
        ("TOUR_SPOTS", TOUR_SPOTS),
        ("MOST_CHANGES", MOST_CHANGES),
        ("CHANGE_BYTES", CHANGE),
        ("MESSAGE_BYTES", MESSAGE),
    ] {
        has(&std::format!("#define SPOT_{name} {value}\n"));
    }
    has(&std::format!("#define SPOT_LOWEST_PLACE ({LOWEST_PLACE})\n#define SPOT_HIGHEST_PLACE {HIGHEST_PLACE}\n"));
    has(&std::format!("SPOT_NOT_PRESSABLE = {},\n", Refusal::NotPressable.number()));
    has(&std::format!("SPOT_NOT_A_MESSAGE = {},\n", Refusal::NotAMessage.number()));
    has(&std::format!("SPOT_PLACE_OUTSIDE = {}\n", Refusal::PlaceOutside.number()));
    for number in [1, 2, 3, 4, 6, 7, 8, 9] {
        has(&std::format!("return \"{}\";", Refusal::new(number, 0).unwrap()));
    }
}

/// Every call runs on a thread whose stack has the figure and what a thread itself takes.
#[test]
fn stack() {
    let run = || {
        let mut work = vec![0; 4096 * BLOCK];
        let mut table = Table::format(vec![0; 4096 * BLOCK]).unwrap();
        for i in 0..3000 {
            table.add(Spot { place: i, rank: i.wrapping_mul(7919) % 4001, track: 0 }, &mut work).unwrap();
        }
        table.withdraw(5, 5 * 7919 % 4001, &mut work).unwrap();
        table.rebuild(&mut work).unwrap();
        assert_eq!((table.count(), table.check()), (Ok(2999), Ok(true)));
        let (mut output, mut map, past_the_door) = (vec![0; 65_520 * SPOT], ReadMap::new(), Range { x1: 1, x2: 0, y: i32::MIN });
        assert_eq!(table.report(Range::ALL, &mut output, &mut map).unwrap().len(), 2999);
        assert_eq!(table.report(past_the_door, &mut output, &mut map).unwrap().len(), 2999);
        assert_eq!(table.top(.., u32::MAX, &mut output, &mut map).unwrap().len(), 2999);
        assert_eq!(table.top(Places { x1: 1, x2: 0 }, u32::MAX, &mut output, &mut map).unwrap().len(), 2999);
        assert_eq!(table.top_within(Places { x1: 1, x2: 0 }, u32::MAX, u32::MAX, &mut output, &mut map).unwrap().spots.len(), 2999);
        let (ranges, mut counts, mut output) = ([past_the_door; 64], [0; 64], vec![0; 64 * 2999 * SPOT]);
        assert_eq!(table.report_many(&ranges, &mut counts, &mut output, &mut map).unwrap().all().len(), 64 * 2999);
        let changes: Vec<Change> = (0..4096).map(|i| Change::Add(Spot { place: 7919 * i % 4096, rank: i, track: 0 })).collect();
        let (mut lent, mut list) = (vec![0; MESSAGE], vec![0; CHANGE * MOST_CHANGES]);
        let message = Message::write(&changes, &mut lent).unwrap();
        assert_eq!(message.read(&mut list).unwrap().len(), 4096);
        table.apply(&message, &mut work).unwrap();
        table.apply(&Message::write(&changes[..1], &mut vec![0; MESSAGE]).unwrap(), &mut work).unwrap();
        let spots: Vec<Spot> = (0..512).map(|i| Spot { place: i, rank: 37 * i % 512, track: 0 }).collect();
        let mut lent = vec![0; TOUR];
        let tour = Tour::press(&spots, &mut lent).unwrap();
        assert_eq!(tour.report(past_the_door, &mut output, &mut map).unwrap().len(), 512);
    };
    std::thread::Builder::new().stack_size(STACK + 16384).spawn(run).unwrap().join().unwrap();
}
