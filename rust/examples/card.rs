//! The C example in Rust, line by line the same (`../examples/card.c`): a card with four spots made, filled, asked, printed; a tour pressed from what is left; a message applied.
//! Nothing is allocated. `cargo run --example card`
use spot_table::*;
use std::io::{self, Write};

const SPOTS: [Spot; 4] = [
    Spot { place: 0, rank: 5, track: 1 },
    Spot { place: 240, rank: 7, track: 2 },
    Spot { place: -120, rank: 7, track: 3 },
    Spot { place: 600, rank: -3, track: 4 },
];

fn print(out: &mut impl Write, spots: Spots) -> io::Result<()> {
    for Spot { place, rank, track } in spots {
        writeln!(out, "  place {place} cm, rank {rank}, track {track}")?;
    }
    Ok(())
}

fn ask(out: &mut impl Write, table: &Table<&mut [u8]>) -> Result<(), Box<dyn std::error::Error>> {
    let (mut output, mut map) = ([0; 128 * SPOT], ReadMap::new());
    let found = table.report(Range::new(-200..=700, 0), &mut output, &mut map)?;
    writeln!(out, "{} spots from -200 to 700 cm with rank 0 or more:", found.len())?;
    print(out, found)?;
    write!(out, "blocks read:")?;
    for block in map.blocks() {
        write!(out, " {block}")?;
    }
    writeln!(out)?;

    let past_the_door = Range { x1: 240, x2: -120, y: 0 };
    let found = table.report(past_the_door, &mut output, &mut map)?;
    writeln!(out, "{} spots from 240 cm on past the door to -120 cm with rank 0 or more:", found.len())?;
    print(out, found)?;

    let (ranges, mut counts) = ([Range::new(-200..=300, 0), Range::new(100..=700, -5)], [0; 2]);
    let reports = table.report_many(&ranges, &mut counts, &mut output, &mut map)?;
    writeln!(out, "{} ranges in one call, {} spots:", ranges.len(), reports.all().len())?;
    for (Range { x1, x2, y }, found) in ranges.into_iter().zip(reports) {
        writeln!(out, " {} from {x1} to {x2} cm with rank {y} or more:", found.len())?;
        print(out, found)?;
    }

    writeln!(out, "the best of all:")?;
    print(out, table.top(.., 1, &mut output, &mut map)?)?;
    let best = table.top_within(.., 2, 1, &mut output, &mut map)?;
    let (n, ceiling) = (best.spots.len(), best.ceiling);
    writeln!(out, "of the best two, {n} are certain once one node block is read; no other spot has a rank above {ceiling}:")?;
    print(out, best.spots)?;

    let refused = table.report(Range::new(-200..=700, 0), &mut output[..SPOT], &mut map).unwrap_err();
    let words = "there are more spots than the output has room for";
    writeln!(out, "with room for one: {}, {words} ({})", refused.number(), refused.detail())?;
    Ok(())
}

fn press(out: &mut impl Write, table: &Table<&mut [u8]>) -> Result<(), Box<dyn std::error::Error>> {
    let (mut output, mut map, mut lent) = ([0; 3 * SPOT], ReadMap::new(), [0; TOUR]);
    let mut listed = [SPOTS[0]; 3];
    for (own, spot) in listed.iter_mut().zip(table.report(Range::ALL, &mut output, &mut map)?) {
        *own = spot;
    }
    let tour = Tour::press(&listed, &mut lent)?;
    writeln!(out, "a tour of the 3 spots of the table: {} blocks", tour.bytes().len() / BLOCK)?;
    let found = tour.report(Range { x1: 200, x2: -100, y: -5 }, &mut output, &mut map)?;
    writeln!(out, "{} of them from 200 cm on past the door to -100 cm with rank -5 or more:", found.len())?;
    print(out, found)?;
    listed[0] = SPOTS[3];
    let refused = Tour::press(&listed, &mut lent).unwrap_err();
    writeln!(out, "with the last spot first: {}, {refused}", refused.number())?;
    Ok(())
}

fn apply(out: &mut impl Write, table: &mut Table<&mut [u8]>, work: &mut [u8]) -> Result<(), Box<dyn std::error::Error>> {
    let (mut output, mut map, mut lent, mut list) = ([0; 128 * SPOT], ReadMap::new(), [0; MESSAGE], [0; 2 * CHANGE]);
    let changes = [Change::Withdraw { place: 600, rank: -3 }, Change::Add(Spot { place: 0, rank: 5, track: 9 })];
    let sent = Message::write(&changes, &mut lent)?;
    writeln!(out, "a message of {} changes, {} bytes, is sent", changes.len(), sent.bytes().len())?;
    // Whoever receives it takes the bytes that came, not the length that stands in them.
    let cut = Message::new(&sent.bytes()[..sent.bytes().len() - 1]);
    let refused = table.apply(&cut, work).unwrap_err().refusal;
    writeln!(out, "with its last byte lost: {}, {refused}", refused.number())?;
    table.apply(&sent, work)?;
    writeln!(out, "whole; after it:")?;
    print(out, table.report(Range::ALL, &mut output, &mut map)?)?;
    match sent.read(&mut list)?.next() {
        Some(Change::Add(spot)) => writeln!(out, "its first change adds rank {}", spot.rank)?,
        Some(Change::Withdraw { rank, .. }) => writeln!(out, "its first change withdraws rank {rank}")?,
        _ => writeln!(out, "its first change is of another kind")?,
    }
    let too_far = [changes[0], Change::Add(Spot { place: HIGHEST_PLACE + 1, rank: 5, track: 9 })];
    let refused = Message::write(&too_far, &mut lent).unwrap_err();
    let (number, position) = (refused.refusal.number(), refused.position.unwrap_or(0));
    writeln!(out, "with its second one centimetre too far: {number} ({position}), {}", refused.refusal)?;
    Ok(())
}

/// What `../examples/card.c` does.
pub fn run(out: &mut impl Write) -> Result<(), Box<dyn std::error::Error>> {
    let (mut card, mut work) = ([0; 9 * BLOCK], [0; 9 * BLOCK]);
    let mut table = Table::format(&mut card[..])?;
    for spot in SPOTS {
        table.add(spot, &mut work)?;
    }
    table.withdraw(0, 5, &mut work)?;
    ask(out, &table)?;
    let refused = table.add(Spot { place: HIGHEST_PLACE + 1, rank: 5, track: 5 }, &mut work).unwrap_err();
    writeln!(out, "a spot one centimetre too far: {}, {refused}", refused.number())?;
    press(out, &table)?;
    apply(out, &mut table, &mut work)?;
    writeln!(out, "{} live spots, {}", table.count()?, if table.check()? { "sound" } else { "not sound" })?;
    Ok(())
}

#[allow(dead_code)]
fn main() -> Result<(), Box<dyn std::error::Error>> {
    run(&mut io::stdout())
}
