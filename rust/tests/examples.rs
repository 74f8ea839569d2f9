//! The examples print what they should; that of the card what the C example prints.

#[path = "../examples/card.rs"]
mod card;
#[path = "../examples/room.rs"]
mod room;

#[test]
fn the_card() {
    let mut printed = vec![];
    card::run(&mut printed).unwrap();
    assert_eq!(String::from_utf8(printed).unwrap(), include_str!("../../examples/card.expected"));
}

#[test]
fn the_room() {
    let due = [
        "wall 1: 12 spots, the first is track 1004",
        "wall 2: 8 spots, the first is track 1064",
        "wall 3: 6 spots, the first is track 1107",
        "wall 4: 3 spots, the first is track 1387",
        "the best from 20 to 25 m: tracks 1087 and 1097",
        "after the rehang: track 1084, of 398 spots",
    ];
    assert_eq!(room::run().unwrap(), due);
}
