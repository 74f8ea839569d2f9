//! The guide says what the program does: each of its commands is run, and what it prints is what stands there.

mod common;
use common::Folder;

const GUIDE: &str = include_str!("../../docs/CARDS.md");

#[test]
fn the_guide_prints_what_the_program_prints() {
    let f = Folder::new();
    f.write("route.csv", include_str!("../sample/route.csv"));
    f.write("monday.csv", include_str!("../sample/monday.csv"));
    let mut lines = GUIDE.lines().peekable();
    let mut commands = 0;
    while let Some(line) = lines.next() {
        let Some(command) = line.strip_prefix("    $ spotcard ") else {
            continue;
        };
        // Behind some spaces stands what the command is for.
        let command = command.split("   ").next().unwrap();
        let args: Vec<&str> = command.split(' ').collect();
        let ran = f.run(&args).exit(0);
        commands += 1;
        let mut printed = vec![];
        while let Some(line) = lines.next_if(|l| l.starts_with("    ") && !l.starts_with("    $")) {
            printed.push(&line[4..]);
        }
        if !printed.is_empty() {
            assert_eq!(ran.out.lines().collect::<Vec<_>>(), printed, "{command}");
        }
    }
    assert!(commands >= 17, "{commands} commands");
}
