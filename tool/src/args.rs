//! The command line.

use crate::sheet::Names;
use crate::spot::Spot;
use crate::store::{HIGHEST_PLACE, LEAST_BLOCKS, LOWEST_PLACE, MOST_BLOCKS};
use clap::error::ErrorKind;
use clap::{Args, CommandFactory, Parser, Subcommand};
use std::fmt::Display;
use std::path::PathBuf;
use std::str::FromStr;

const ABOUT: &str = "Makes, changes, shows and checks cards of spots for audio guides";

const LONG_ABOUT: &str = "\
Makes, changes, shows and checks cards of spots for audio guides.

A spot is a commentary: a place along the route in centimetres (from -1000000 to 1000000), a rank and a track number. Place and rank together \
say which spot it is; there is never a second one of the same place and rank on a card.

The spots usually stand in a spreadsheet with columns named place, rank and track. Save it as CSV, then:

  spotcard new show.card                   an empty card
  spotcard import sheet.csv show.card      all rows of the sheet, or none
  spotcard report show.card 0 2400 5       what is heard from 0 to 2400 cm with rank 5 or more
  spotcard picture show.card -o show.svg   a picture to look at
  spotcard check show.card                 whether the card is sound
  spotcard undo show.card                  the card before the last change
  spotcard send old.csv new.csv -o monday  the changes from one sheet to the next, to be sent to the guides
  spotcard apply show.card monday          all of these changes, or none
  spotcard press sheet.csv -o show.tour    a small card that is never changed, of up to 512 spots

A card is changed as one: whatever happens in between, the file is the old card or the new one. Beside it stand show.card.sha256, by which \
`check` finds changes that spotcard did not make, show.card.before, which `undo` puts back, and show.card.lock, which keeps two people from changing it at once.";

const EXIT_CODES: &str = "\
Exit codes: 0 done; 1 refused, not sound, or not the same; 2 the command line is wrong; 3 a file or a lock is in the way.
`spotcard help COMMAND` says more of a command.";

const IMPORT_EXAMPLES: &str = "\
Examples:
  spotcard import sheet.csv show.card             add all rows
  spotcard import sheet.csv show.card --replace   exactly the rows of the sheet
  spotcard import liste.csv show.card --columns place=Ort,rank=Rang,track=Spur
  spotcard export old.card | spotcard import - show.card";

const ADD_EXAMPLES: &str = "\
Examples:
  spotcard add show.card 2400 7 51         at 24 metres, rank 7, track 51
  spotcard add show.card 2400 7 51 2600 5 52
                                           two spots";

const SEND_EXAMPLES: &str = "\
Examples:
  spotcard send old.csv new.csv -o monday.changes
  spotcard apply show.card monday.changes      on every card that holds the spots of old.csv";

const REPORT_EXAMPLES: &str = "\
Examples:
  spotcard report show.card 0 2400 5       the first 24 metres, rank 5 or more
  spotcard report show.card 9000 300 5     from 90 metres on, past the door, to 3 metres
  spotcard report show.card 0 800 5 800 1600 3 2000 2400 5
                                           three ranges, each with its own lowest rank";

const PRESS_EXAMPLES: &str = "\
Examples:
  spotcard press sheet.csv -o show.tour
  spotcard report show.tour 0 2400 5       the first 24 metres of the tour, rank 5 or more";

const TOP_EXAMPLES: &str = "\
Examples:
  spotcard top show.card 0 2400 3          the three best of the first 24 metres
  spotcard top show.card 9000 300 3        the three best from 90 metres on, past the door, to 3 metres
  spotcard top show.card 0 2400 3 --allow 4
                                           as many of them as are certain once four nodes are read";

#[derive(Parser)]
#[command(name = "spotcard", version, about = ABOUT, long_about = LONG_ABOUT, after_help = EXIT_CODES)]
pub struct Cli {
    #[command(subcommand)]
    pub command: Command,
}

#[derive(Subcommand)]
pub enum Command {
    /// Make an empty card
    ///
    /// A card of N blocks of 2,048 bytes has room for 16 spots for each block after the first: the default, 4,096 blocks, for 65,520 spots.
    #[command(after_help = "Example: spotcard new show.card --blocks 64      room for 1,008 spots")]
    New {
        /// The card file to make
        card: PathBuf,
        /// Number of blocks, 9 to 4096
        #[arg(long, value_name = "N", default_value = "4096", value_parser = blocks)]
        blocks: usize,
        /// Replace an existing card
        #[arg(long)]
        force: bool,
        #[command(flatten)]
        wait: Wait,
    },
    /// Put the rows of a sheet on a card: all of them or none
    ///
    /// The sheet is a CSV file, its columns parted by commas, semicolons or tabs. Its first line names the columns; place, rank and track are used, in any order, and all others are
    /// ignored. A place lies from -1000000 to 1000000. Every row is judged before the card is touched: if one is wrong, all that is wrong is listed with line numbers, and the card
    /// stays as it is.
    ///
    /// Without --replace the rows join the spots on the card. A row that gives another track to a spot on the card is an error then. With --replace and an empty sheet, or one that
    /// takes more than half of the spots off the card, those that would go are named, and --yes is asked for.
    #[command(after_help = IMPORT_EXAMPLES)]
    Import {
        /// The sheet, a CSV file; - reads it from standard input
        #[arg(value_name = "SHEET.csv")]
        sheet: PathBuf,
        /// The card
        card: PathBuf,
        /// Let the card hold exactly the rows of the sheet afterwards: spots that the sheet does not have go
        #[arg(long)]
        replace: bool,
        /// With --replace: also if the sheet is empty, or more than half of the card's spots go
        #[arg(long, requires = "replace")]
        yes: bool,
        /// Say what would happen, and change nothing
        #[arg(long)]
        dry_run: bool,
        #[command(flatten)]
        columns: Columns,
        #[command(flatten)]
        wait: Wait,
    },
    /// Write all spots of a card as CSV, in place order
    #[command(after_help = "Example: spotcard export show.card -o sheet.csv")]
    Export {
        /// The card
        card: PathBuf,
        /// Write to this file instead of the screen
        #[arg(short, long, value_name = "F")]
        output: Option<PathBuf>,
        /// Replace the sheet if it exists
        #[arg(long, requires = "output")]
        force: bool,
    },
    /// Show the spots that only one of two files has, each of them a card, a tour or a sheet
    ///
    /// With a file of changes as the second one: the spots of the first that they would take off or put on.
    ///
    /// Exit code 0 where both have the same spots, 1 where they differ.
    #[command(
        after_help = "Examples:\n  spotcard diff show.card sheet.csv\n  spotcard diff old.csv new.csv\n  spotcard diff show.card monday.changes"
    )]
    Diff {
        /// A card, a tour or a sheet
        #[arg(value_name = "FILE")]
        one: PathBuf,
        /// Another one, or a file of changes
        #[arg(value_name = "OTHER")]
        other: PathBuf,
        /// As CSV: only_in, place, rank, track, line
        #[arg(long)]
        csv: bool,
        #[command(flatten)]
        columns: Columns,
    },
    /// Write the changes that turn one sheet into another, as they are sent to the guides
    ///
    /// First stand the withdrawals of the spots that only the old sheet has, then the additions of those that are new or have another track. Both sheets are judged as `import`
    /// judges them.
    ///
    /// The file is a message of up to 4,096 changes, or several one behind the other if there are more. It says neither who sent it nor whether it was changed on the way: whoever sends
    /// it signs it.
    #[command(after_help = SEND_EXAMPLES)]
    Send {
        /// The sheet of the spots that the cards hold now
        #[arg(value_name = "OLD.csv")]
        old: PathBuf,
        /// The sheet of those that they shall hold
        #[arg(value_name = "NEW.csv")]
        new: PathBuf,
        /// The file of changes
        #[arg(short, long, value_name = "CHANGES")]
        output: PathBuf,
        #[command(flatten)]
        columns: Columns,
        /// Replace the file of changes if it exists
        #[arg(long)]
        force: bool,
    },
    /// Carry out a file of changes on a card: all of them or none
    ///
    /// The changes are carried out in their order: an addition puts its spot in the place of one of the same place and rank, and a withdrawal of a spot that is not there changes nothing. If
    /// one finds no room, it is named, and the card stays as it is.
    #[command(after_help = "Example: spotcard apply show.card monday.changes")]
    Apply {
        /// The card
        card: PathBuf,
        /// The file of changes, as `send` writes it
        changes: PathBuf,
        /// Say what would happen, and change nothing
        #[arg(long)]
        dry_run: bool,
        #[command(flatten)]
        wait: Wait,
    },
    /// Put one or more spots on a card; one of the same place and rank is replaced
    ///
    /// Several spots, each with its place, rank and track, go onto the card as one: all of them or none.
    #[command(after_help = ADD_EXAMPLES)]
    Add {
        /// The card
        card: PathBuf,
        #[command(flatten)]
        spot: PlaceAndRank,
        /// Track number
        #[arg(value_parser = unsigned)]
        track: u32,
        /// More spots, each with its place, rank and track
        #[arg(value_name = "PLACE RANK TRACK", allow_negative_numbers = true, value_parser = wide)]
        more: Vec<i64>,
        #[command(flatten)]
        wait: Wait,
    },
    /// Take one spot off a card
    ///
    /// Where the card has no spot of this place and rank it stays as it is, and that is no error.
    #[command(after_help = "Example: spotcard withdraw show.card 2400 7")]
    Withdraw {
        /// The card
        card: PathBuf,
        #[command(flatten)]
        spot: PlaceAndRank,
        /// Take it off only if this is its track
        #[arg(value_parser = unsigned)]
        track: Option<u32>,
        #[command(flatten)]
        wait: Wait,
    },
    /// Show the spots between two places with at least a given rank, in place order
    ///
    /// If the first place is greater than the last, the range runs on past the door: all places from the first up, followed by all places up to the last.
    ///
    /// Up to 64 ranges can be asked for at once. They are shown one after the other in the order given, each with its number; as CSV a first column, range, has that number. A
    /// spot that lies in several of them is shown with each.
    #[command(after_help = REPORT_EXAMPLES)]
    Report {
        /// The card, or a pressed tour
        card: PathBuf,
        #[command(flatten)]
        wanted: Wanted,
        /// More ranges, each with its two places and its lowest rank
        #[arg(value_name = "X1 X2 Y", allow_negative_numbers = true, value_parser = signed)]
        more: Vec<i32>,
        #[command(flatten)]
        shape: Shape,
        #[command(flatten)]
        beside: Beside,
    },
    /// Show the spots of highest rank between two places, best first
    ///
    /// Of equal ranks the lower place comes first: a guide takes the cases of a row from the entrance on.
    ///
    /// If the first place is greater than the last, the range runs on past the door: all places from the first up, and all places up to the last.
    ///
    /// With --allow at most so many nodes of the tree are read, the most promising first. The spots that are certain by then are shown, always the first of those that are shown
    /// without it, and a line below them says up to which rank others may still stand there.
    #[command(after_help = TOP_EXAMPLES)]
    Top {
        /// The card
        card: PathBuf,
        #[command(flatten)]
        range: Range,
        /// How many
        #[arg(value_parser = unsigned)]
        k: u32,
        /// Read at most so many nodes, and show what is certain by then
        #[arg(long, value_name = "N", value_parser = unsigned)]
        allow: Option<u32>,
        #[command(flatten)]
        shape: Shape,
        #[command(flatten)]
        beside: Beside,
    },
    /// Press the rows of a sheet into a tour: a small card that is never changed
    ///
    /// A tour is for a show that is hung once: up to 512 spots in a file of 1 to 16 blocks of 2,048 bytes. `report` and `info` read it as they read a card. When the show changes,
    /// the changed sheet is pressed anew.
    ///
    /// The sheet is judged as `import` judges it, and its rows may stand in any order. If one is wrong, or there are more than 512, nothing is written.
    #[command(after_help = PRESS_EXAMPLES)]
    Press {
        /// The sheet, a CSV file
        #[arg(value_name = "SHEET.csv")]
        sheet: PathBuf,
        /// The file of the tour
        #[arg(short, long, value_name = "TOUR")]
        output: PathBuf,
        #[command(flatten)]
        columns: Columns,
        /// Replace an existing tour
        #[arg(long)]
        force: bool,
        #[command(flatten)]
        wait: Wait,
    },
    /// Show how large and how full a card or a pressed tour is, or how many changes a file has
    #[command(after_help = "Example: spotcard info show.card")]
    Info {
        /// The card, a pressed tour or a file of changes
        card: PathBuf,
    },
    /// Say whether a card is sound, and if not, why
    ///
    /// Exit code 0 where it is sound and as spotcard left it, else 1. Each fault is named with the block, the bytes in it, the rule of the paper that is
    /// broken, and the entry by which a reader comes to the block.
    #[command(after_help = "Example: spotcard check show.card")]
    Check {
        /// The card, a pressed tour or a file of changes
        card: PathBuf,
    },
    /// Put back the card before the last change
    ///
    /// Each change keeps the card before it beside the card, as show.card.before. `undo` puts that one in the place of the card, and keeps the card in turn: a second `undo` takes
    /// the first one back.
    #[command(after_help = "Example: spotcard undo show.card")]
    Undo {
        /// The card, or a pressed tour
        card: PathBuf,
        #[command(flatten)]
        wait: Wait,
    },
    /// Write the spots that are left of a broken card as CSV, and say what is lost
    ///
    /// The spots of all blocks that are in order are written. The blocks that are not are named: what stood in them is missing, and what they had withdrawn or given another track
    /// stands there as it was before. The card itself is left as it is, also one that was cut short.
    #[command(after_help = "Example: spotcard salvage broken.card -o rest.csv")]
    Salvage {
        /// The broken card
        card: PathBuf,
        /// The sheet to write
        #[arg(short, long, value_name = "REST.csv")]
        output: PathBuf,
        /// Replace the sheet if it exists
        #[arg(long)]
        force: bool,
    },
    /// Lay the spots of a card out anew: the spots stay the same, and no change waits
    #[command(after_help = "Example: spotcard rebuild show.card")]
    Rebuild {
        /// The card
        card: PathBuf,
        #[command(flatten)]
        wait: Wait,
    },
    /// Draw a card: places to the right, ranks upwards
    ///
    /// A dot is a spot, its colour the level of the node that holds it. Below, each node of the tree is a bar over its range of places. With --report or
    /// --top the query is outlined and the nodes that it reads are filled. The picture is an SVG file: every browser shows it.
    #[command(
        after_help = "Examples:\n  spotcard picture show.card -o show.svg\n  spotcard picture show.card --report 0 2400 5 -o report.svg"
    )]
    Picture {
        /// The card
        card: PathBuf,
        /// Show this report: X1 X2 Y; can be given several times
        #[arg(long, num_args = 3, value_names = ["X1", "X2", "Y"], allow_negative_numbers = true, value_parser = signed, conflicts_with = "top")]
        report: Option<Vec<i32>>,
        /// Show this top: X1 X2 K
        #[arg(long, num_args = 3, value_names = ["X1", "X2", "K"], allow_negative_numbers = true, value_parser = wide)]
        top: Option<Vec<i64>>,
        #[command(flatten)]
        beside: Beside,
        /// The file to write
        #[arg(short, long, value_name = "F.svg")]
        output: PathBuf,
        /// Replace the picture even if it is not spotcard's
        #[arg(long)]
        force: bool,
    },
}

#[derive(Args)]
pub struct PlaceAndRank {
    /// Place in centimetres, -1000000 to 1000000
    #[arg(allow_negative_numbers = true, value_parser = place)]
    pub place: i32,
    /// Rank
    #[arg(allow_negative_numbers = true, value_parser = signed)]
    pub rank: i32,
}

#[derive(Args)]
pub struct Range {
    /// First place in centimetres
    #[arg(allow_negative_numbers = true, value_parser = signed)]
    pub x1: i32,
    /// Last place in centimetres; if it is less than the first, the range runs on past the door
    #[arg(allow_negative_numbers = true, value_parser = signed)]
    pub x2: i32,
}

impl Range {
    pub fn words(&self) -> String {
        let Range { x1, x2 } = *self;
        if x1 <= x2 {
            format!("from {x1} to {x2} cm")
        } else {
            format!("from {x1} cm on past the door to {x2} cm")
        }
    }
}

#[derive(Args)]
pub struct Wanted {
    #[command(flatten)]
    pub range: Range,
    /// Lowest rank
    #[arg(allow_negative_numbers = true, value_parser = signed)]
    pub y: i32,
}

impl Wanted {
    /// This range, and those that the further numbers give.
    pub fn and_more(self, more: &[i32]) -> Vec<Wanted> {
        let others = more.chunks_exact(3).map(|r| Wanted { range: Range { x1: r[0], x2: r[1] }, y: r[2] });
        std::iter::once(self).chain(others).collect()
    }
}

#[derive(Args)]
pub struct Shape {
    /// As CSV: place, rank, track
    #[arg(long)]
    pub csv: bool,
    /// Name the blocks of the file that were read
    #[arg(long)]
    pub blocks: bool,
}

#[derive(Args)]
pub struct Columns {
    /// What the columns are called in the sheet, for any of place, rank, track, title and room
    #[arg(long, value_name = "place=Ort,rank=Rang,...")]
    columns: Option<Names>,
}

impl Columns {
    pub fn names(&self) -> Names {
        self.columns.clone().unwrap_or_default()
    }
}

/// The sheet of a card, which has what the card hasn't.
#[derive(Args)]
pub struct Beside {
    /// Show the titles and rooms that this sheet has for the spots
    #[arg(long, value_name = "SHEET.csv")]
    pub sheet: Option<PathBuf>,
    #[command(flatten)]
    pub columns: Columns,
}

#[derive(Args)]
pub struct Wait {
    /// How long to wait while another spotcard changes the card
    #[arg(long, value_name = "SECONDS", default_value = "30")]
    pub wait: u32,
}

impl Wait {
    pub fn time(&self) -> std::time::Duration {
        std::time::Duration::from_secs(self.wait.into())
    }
}

impl Cli {
    /// The command line, or the end of the program with what is wrong in it.
    pub fn read() -> Cli {
        let cli = Cli::parse();
        let wrong = match &cli.command {
            Command::Picture { top: Some(top), .. } if top.len() > 3 => Some("--top can be given once".into()),
            Command::Picture { top: Some(top), .. } => top_query(top).err().map(|what| format!("--top X1 X2 K: {what}")),
            Command::Add { more, .. } => more_spots(more).err(),
            Command::Report { more, .. } if more.len() % 3 != 0 => {
                Some(format!("each range has three numbers, X1 X2 Y; the last one here has {}", more.len() % 3))
            }
            _ => None,
        };
        if let Some(words) = wrong {
            Cli::command().error(ErrorKind::ValueValidation, words).exit();
        }
        cli
    }
}

/// The further spots of an `add`.
pub fn more_spots(numbers: &[i64]) -> Result<Vec<Spot>, String> {
    if !numbers.len().is_multiple_of(3) {
        return Err(format!("each spot has three numbers, PLACE RANK TRACK; the last one here has {}", numbers.len() % 3));
    }
    let named = |name: &'static str, n: i64| move |what: String| format!("{name} {n}: {what}");
    let spot = |three: &[i64]| {
        let (at, rank, track) = (three[0], three[1], three[2]);
        Ok(Spot {
            place: place(&at.to_string()).map_err(named("place", at))?,
            rank: signed(&rank.to_string()).map_err(named("rank", rank))?,
            track: unsigned(&track.to_string()).map_err(named("track", track))?,
        })
    };
    numbers.chunks_exact(3).map(spot).collect()
}

/// The two places and the number of a `--top`.
pub fn top_query(top: &[i64]) -> Result<(i32, i32, u32), String> {
    let text = |i: usize| top[i].to_string();
    Ok((signed(&text(0))?, signed(&text(1))?, unsigned(&text(2))?))
}

fn blocks(text: &str) -> Result<usize, String> {
    let (least, most) = (LEAST_BLOCKS, MOST_BLOCKS);
    let n = text.parse().ok().filter(|n| (least..=most).contains(n));
    n.ok_or_else(|| format!("a card has {least} to {most} blocks"))
}

fn whole<T: FromStr + PartialOrd + Display>(text: &str, least: T, most: T) -> Result<T, String> {
    let number = text.parse().ok().filter(|n| least <= *n && *n <= most);
    number.ok_or_else(|| format!("not a whole number from {least} to {most}"))
}

/// Where a spot can be; the ends of a range are any numbers.
fn place(text: &str) -> Result<i32, String> {
    whole(text, LOWEST_PLACE, HIGHEST_PLACE)
}

fn signed(text: &str) -> Result<i32, String> {
    whole(text, i32::MIN, i32::MAX)
}

fn unsigned(text: &str) -> Result<u32, String> {
    whole(text, u32::MIN, u32::MAX)
}

/// The end of a range or a number of spots.
fn wide(text: &str) -> Result<i64, String> {
    whole(text, i32::MIN.into(), u32::MAX.into())
}
