//! Seats, counts, lines and pictures as a person writes them.

use crate::reference::seats::{contains, list, size};

/// Seats as a person lists them: `0 and 4 to 6`.
pub fn seats(seats: &[u32]) -> String {
    let mut runs: Vec<(u32, u32)> = Vec::new();
    for &seat in seats {
        match runs.last_mut() {
            Some((_, last)) if *last + 1 == seat => *last = seat,
            _ => runs.push((seat, seat)),
        }
    }
    and(&runs.into_iter().flat_map(run).collect::<Vec<_>>())
}

fn run((first, last): (u32, u32)) -> Vec<String> {
    match last - first {
        0 => vec![first.to_string()],
        1 => vec![first.to_string(), last.to_string()],
        _ => vec![format!("{first} to {last}")],
    }
}

/// `no boat`, `boat 3`, `boats 3 and 4`.
pub fn boats(of: &[u32]) -> String {
    match of.len() {
        0 => "no boat".to_string(),
        1 => format!("boat {}", seats(of)),
        _ => format!("boats {}", seats(of)),
    }
}

/// The same at the start of a sentence.
pub fn capital(words: &str) -> String {
    words.chars().take(1).flat_map(char::to_uppercase).chain(words.chars().skip(1)).collect()
}

/// `1 boat`, `2 boats`.
pub fn count(number: u32, what: &str) -> String {
    format!("{number} {what}{}", if number == 1 { "" } else { "s" })
}

/// `8,786`.
pub fn thousands(number: usize) -> String {
    let digits = number.to_string();
    let parts = digits.as_bytes().rchunks(3).rev().map(String::from_utf8_lossy);
    parts.collect::<Vec<_>>().join(",")
}

/// `NOTICE, FULL and EVIDENCE`.
pub fn and(words: &[impl AsRef<str>]) -> String {
    let words: Vec<&str> = words.iter().map(AsRef::as_ref).collect();
    match words.split_last() {
        Some((last, rest)) if !rest.is_empty() => format!("{} and {last}", rest.join(", ")),
        _ => words.concat(),
    }
}

/// Columns of a line of prose.
pub const WIDTH: usize = 79;

/// Words in lines of at most a width.
pub fn lines(words: &str, width: usize) -> Vec<String> {
    let mut lines: Vec<String> = Vec::new();
    for word in words.split_whitespace() {
        match lines.last_mut() {
            Some(line) if line.len() + 1 + word.len() <= width => *line += &format!(" {word}"),
            _ => lines.push(word.to_string()),
        }
    }
    lines
}

/// Columns of a second column at least, whatever stands in the first.
const NARROWEST: usize = 40;

/// Rows of two columns. One that is too wide goes on in the next line.
pub fn rows(rows: &[(String, String)]) -> String {
    let width = rows.iter().map(|(left, _)| left.len()).max().unwrap_or_default();
    let room = WIDTH.saturating_sub(width + 4).max(NARROWEST);
    let mut text = String::new();
    for (left, right) in rows {
        let right = if right.len() <= room { vec![right.clone()] } else { lines(right, room) };
        for (number, part) in right.iter().enumerate() {
            let left = if number == 0 { left.as_str() } else { "" };
            text += format!("  {left:width$}  {part}").trim_end();
            text.push('\n');
        }
    }
    text
}

/// A row of a picture: a letter for each boat of a set, and words at its end.
pub struct Row {
    title: String,
    boats: u32,
    letters: [char; 2],
    end: String,
}

/// The boats that signed a layout.
pub fn signers(title: String, layout: char, boats: u32) -> Row {
    Row { title, boats, letters: [layout, '.'], end: count(size(boats), "boat") }
}

/// Boats of the rows above.
pub fn pointed_at(title: String, boats: u32, end: String) -> Row {
    Row { title, boats, letters: ['^', ' '], end }
}

/// Rows over n boats, with the seats above them.
pub fn picture(n: u32, rows: &[Row]) -> String {
    let wide = n <= 16;
    let longest = rows.iter().map(|row| row.title.len()).max().unwrap_or_default();
    let line = |title: &str, cell: &dyn Fn(u32) -> String, end: &str| {
        let cells: String = (0..n).map(|seat| format!("{:>1$}", cell(seat), if wide { 3 } else { 1 })).collect();
        format!("    {title:longest$}  {cells}   {end}").trim_end().to_string() + "\n"
    };
    let ones = |seat: u32| if wide { seat.to_string() } else { (seat % 10).to_string() };
    let tens = |seat: u32| if seat.is_multiple_of(10) { (seat / 10).to_string() } else { " ".to_string() };
    let letters = |row: &Row| {
        let [signs, not] = row.letters;
        line(&row.title, &|seat| (if contains(row.boats, seat) { signs } else { not }).to_string(), &row.end)
    };
    let above = if wide { String::new() } else { line("", &tens, "") };
    above + &line("boat", &ones, "") + &rows.iter().map(letters).collect::<String>()
}

/// The seats of a mask, as [`boats`] lists them.
pub fn boats_of(mask: u32) -> String {
    boats(&list(mask))
}

#[cfg(test)]
mod tests {
    use super::*;

    #[test]
    fn seats_stand_in_runs() {
        for (given, told) in [
            (vec![], ""),
            (vec![3], "3"),
            (vec![0, 1], "0 and 1"),
            (vec![4, 5, 6], "4 to 6"),
            (vec![0, 2, 4, 5, 6, 9], "0, 2, 4 to 6 and 9"),
        ] {
            assert_eq!(seats(&given), told);
        }
        assert_eq!([boats(&[]), boats(&[3]), boats(&[3, 4])], ["no boat", "boat 3", "boats 3 and 4"]);
        assert_eq!(capital("boat 3"), "Boat 3");
        assert_eq!([count(1, "boat"), count(0, "boat")], ["1 boat", "0 boats"]);
        assert_eq!([and(&["A"]), and(&["A", "B", "C"])], ["A", "A, B and C"]);
    }

    #[test]
    fn rows_go_on_in_the_next_line() {
        let told = |left: &str, right: &str| rows(&[(left.to_string(), right.to_string())]);
        assert_eq!(told("a", "b c"), "  a  b c\n");
        let [word, long] = ["x".repeat(36), "y".repeat(100)];
        assert_eq!(told("a", &format!("{word} {word} {word}")), format!("  a  {word} {word}\n     {word}\n"));
        assert_eq!(told(&long, &format!("{word} {word}")), format!("  {long}  {word}\n{:104}{word}\n", ""));
    }

    #[test]
    fn pictures() {
        let rows = |rows: &[&str]| rows.iter().map(|row| format!("{row}\n")).collect::<String>();
        let both = |a: u32, b: u32| {
            let both = pointed_at("both".to_string(), a & b, count(size(a & b), "boat"));
            [signers("for A".to_string(), 'A', a), signers("for B".to_string(), 'B', b), both]
        };
        let four = [
            "    boat     0  1  2  3",
            "    for A    A  A  A  .   3 boats",
            "    for B    .  B  B  B   3 boats",
            "    both        ^  ^      2 boats",
        ];
        assert_eq!(picture(4, &both(7, 14)), rows(&four));
        let seventeen = [
            "           0         1",
            "    boat   01234567890123456",
            "    for A  AAA..............   3 boats",
            "    for B  ..BBBBBBBBBBBBBBB   15 boats",
            "    both     ^                 1 boat",
        ];
        assert_eq!(picture(17, &both(7, 0x1fffc)), rows(&seventeen));
    }

    #[test]
    fn thousands_are_parted() {
        assert_eq!([36, 8786, 93_060, 1_000_000].map(thousands), ["36", "8,786", "93,060", "1,000,000"]);
    }
}
