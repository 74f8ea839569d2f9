//! Whole numbers as spreadsheets show them: plain, with signs between thousands, or with decimals that are all zero. What can be read in two ways is turned down.

/// Which of point and comma the sheet's numbers show to stand before decimals.
#[derive(Default)]
pub struct Marks {
    point: bool,
    comma: bool,
    /// German spreadsheets part columns by semicolons, since their decimals begin with a comma.
    is_semicolon: bool,
}

/// How digits with points and commas among them can be read.
#[derive(Debug, PartialEq, Eq)]
enum Reading {
    Plain,
    /// Thousands are parted by this sign.
    Thousands(char, String),
    /// This sign stands before decimals; without them if they are all zero.
    Decimals(char, Option<String>),
    /// 1.000 is 1000 or 1.
    Either(char, String, String),
    No,
}

impl Marks {
    pub fn of(separator: u8) -> Marks {
        Marks { is_semicolon: separator == b';', ..Marks::default() }
    }

    /// Learns from a number of the sheet.
    pub fn learn(&mut self, field: &str) {
        let decimal = match reading(split_sign(field).1) {
            Reading::Thousands(mark, _) => other(mark),
            Reading::Decimals(mark, _) => mark,
            _ => return,
        };
        self.point |= decimal == '.';
        self.comma |= decimal == ',';
    }

    /// Whether this sign, which may stand before thousands or decimals, stands before thousands.
    fn is_for_thousands(&self, mark: char) -> Option<bool> {
        match (self.point, self.comma) {
            (true, false) => Some(mark == ','),
            (false, true) => Some(mark == '.'),
            (false, false) if self.is_semicolon && mark == '.' => Some(true),
            _ => None,
        }
    }
}

fn other(mark: char) -> char {
    if mark == '.' {
        ','
    } else {
        '.'
    }
}

fn split_sign(field: &str) -> (&str, &str) {
    field.split_at(field.starts_with(['-', '+']) as usize)
}

fn reading(digits: &str) -> Reading {
    let marks: Vec<char> = digits.chars().filter(|c| !c.is_ascii_digit()).collect();
    match marks[..] {
        [] => Reading::Plain,
        _ if marks.iter().any(|m| !matches!(m, '.' | ',')) => Reading::No,
        [mark] => with_one(digits, mark),
        [.., last] if marks.iter().all(|m| *m == last) => grouped(digits, last).map_or(Reading::No, |n| Reading::Thousands(last, n)),
        [.., last] => {
            let (head, tail) = digits.rsplit_once(last).unwrap_or_default();
            match grouped(head, other(last)) {
                Some(head) if !tail.is_empty() => Reading::Decimals(last, is_zero(tail).then_some(head)),
                _ => Reading::No,
            }
        }
    }
}

fn with_one(digits: &str, mark: char) -> Reading {
    let (head, tail) = digits.split_once(mark).unwrap_or_default();
    match (head.len(), tail.len()) {
        (0, _) | (_, 0) => Reading::No,
        (1..=3, 3) if !head.starts_with('0') => Reading::Either(mark, head.into(), tail.into()),
        _ => Reading::Decimals(mark, is_zero(tail).then(|| head.into())),
    }
}

fn is_zero(digits: &str) -> bool {
    digits.bytes().all(|b| b == b'0')
}

/// The digits without the signs between thousands, if they stand where they belong.
fn grouped(digits: &str, mark: char) -> Option<String> {
    let parts: Vec<&str> = digits.split(mark).collect();
    let is_right = (1..=3).contains(&parts[0].len()) && parts[1..].iter().all(|part| part.len() == 3);
    is_right.then(|| parts.concat())
}

/// A whole number in its limits, or the words that say why not.
pub fn whole<T>(field: &str, name: &str, (least, most): (T, T), marks: &Marks) -> Result<T, String>
where
    T: std::str::FromStr + PartialOrd + std::fmt::Display,
{
    let (sign, digits) = split_sign(field);
    let plain = match reading(digits) {
        Reading::Plain => Some(digits.to_string()),
        Reading::Thousands(_, n) | Reading::Decimals(_, Some(n)) => Some(n),
        Reading::Either(mark, head, tail) => match marks.is_for_thousands(mark) {
            Some(true) => Some(head + &tail),
            Some(false) => is_zero(&tail).then_some(head),
            None => return Err(two_ways(field, name, mark, &head, &tail)),
        },
        _ => None,
    };
    let number = plain.and_then(|n| format!("{sign}{n}").parse().ok());
    if let Some(number) = number.filter(|n| least <= *n && *n <= most) {
        return Ok(number);
    }
    if field.is_empty() {
        return Err(format!("{name} is empty"));
    }
    Err(format!("{name} \"{}\" is not a whole number from {least} to {most}{}", super::shown(field), hint(field)))
}

fn two_ways(field: &str, name: &str, mark: char, head: &str, tail: &str) -> String {
    let sign = if mark == '.' { "point" } else { "comma" };
    let short = if is_zero(tail) { head.into() } else { format!("{head} and a fraction") };
    format!("{name} \"{field}\" can be {head}{tail} or {short}: write whole numbers without the {sign}")
}

fn hint(field: &str) -> &'static str {
    if field.starts_with(['\u{2212}', '\u{2013}']) {
        ": its minus sign has to be the plain -"
    } else if field.contains(['\u{A0}', '\u{202F}', '\u{2007}']) {
        ": there is a no-break space in it"
    } else {
        ""
    }
}

#[cfg(test)]
mod tests {
    use super::*;

    fn read(field: &str, marks: &Marks) -> Result<i32, String> {
        whole(field, "place", (i32::MIN, i32::MAX), marks)
    }

    #[test]
    fn what_can_be_read_in_one_way_only() {
        let rows = [
            ("1000,00", 1000),
            ("1000.0", 1000),
            ("-1.000,00", -1000),
            ("1,000.00", 1000),
            ("1.000.000", 1_000_000),
            ("+12,345,678", 12_345_678),
            ("1000,000", 1000),
            ("0,000", 0),
            ("7,0", 7),
            ("0051", 51),
        ];
        for (field, n) in rows {
            assert_eq!(read(field, &Marks::default()), Ok(n), "{field}");
        }
        let not = ["24.5", "12,5", "1.00.000", "1,000,00", "1000.", ",5", ".", "1'000", "1 000", "1.000,5", "1,000.000,00", "--5", ""];
        for field in not {
            assert!(read(field, &Marks::default()).is_err(), "{field}");
        }
    }

    #[test]
    fn what_can_be_read_in_two_ways() {
        let words = |field: &str| format!("place \"{field}\" can be 1000 or 1: write whole numbers without the ");
        let none = Marks::default();
        assert_eq!(read("1.000", &none), Err(words("1.000") + "point"));
        assert_eq!(read("1,000", &none), Err(words("1,000") + "comma"));
        assert_eq!(
            read("2.400", &none),
            Err("place \"2.400\" can be 2400 or 2 and a fraction: write whole numbers without the point".into())
        );
        let german = Marks { is_semicolon: true, ..Marks::default() };
        assert_eq!(read("2.400", &german), Ok(2400));
        assert!(read("1,000", &german).is_err());
    }

    #[test]
    fn the_other_numbers_show_which_it_is() {
        let learnt = |fields: &[&str]| {
            let mut marks = Marks { is_semicolon: true, ..Marks::default() };
            fields.iter().for_each(|field| marks.learn(field));
            marks
        };
        assert_eq!(read("2.400", &learnt(&["7,00"])), Ok(2400));
        assert_eq!(read("7,000", &learnt(&["-12,5"])), Ok(7));
        assert_eq!(read("2.000", &learnt(&["7.0"])), Ok(2));
        assert_eq!(read("2,400", &learnt(&["7.0", "51"])), Ok(2400));
        assert_eq!(read("2,400", &learnt(&["1,000,000"])), Ok(2400));
        assert!(read("2.400", &learnt(&["7.0"])).is_err());
        assert!(read("2.400", &learnt(&["7.0", "7,0"])).unwrap_err().contains("can be 2400 or 2 and a fraction"));
    }
}
