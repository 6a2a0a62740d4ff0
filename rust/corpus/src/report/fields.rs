//! The fields of an answer that cannot be drawn, beside ours.

use super::counted;
use super::division::Division;
use std::fmt::Write;
use velejume::Verdict;

/// How many marks are named at most.
const NAMED: usize = 6;

/// A number of so many bytes; None where the answer ends before.
fn number(answer: &[u8], at: usize, bytes: usize) -> Option<u32> {
    let bytes = answer.get(at..at + bytes)?;
    Some(bytes.iter().fold(0, |number, &byte| number << 8 | u32::from(byte)))
}

/// The head of the answer, field by field, beside the head of ours.
fn head(answer: &[u8], ours: &Division) -> String {
    let (n, m) = (ours.sides.len() as u32, ours.letters[0].len() as u32);
    let rows = [
        ("bytes", Some(answer.len() as u32), 17 + n + 2 * m),
        ("version", number(answer, 0, 1), 2),
        ("length field", number(answer, 1, 4), 12 + n + 2 * m),
        ("cost", number(answer, 5, 4), ours.cost),
        ("reads n", number(answer, 13, 2), n),
        ("columns m", number(answer, 15, 2), m),
    ];
    let mut table = String::from("<table class=\"fields\">\n<tr><th>field<th>answer<th>ours\n");
    for (name, stated, ours) in rows {
        let class = if stated == Some(ours) { "" } else { " class=\"wrong\"" };
        let stated = stated.map_or("cut off".to_string(), |number| number.to_string());
        let _ = writeln!(table, "<tr><th>{name}<td{class}>{stated}<td>{ours}");
    }
    table + "</table>\n"
}

/// The first sides above 1 and letters above 2 of an answer that has our n and m.
fn unknown_marks(answer: &[u8], ours: &Division) -> String {
    let (n, m) = (ours.sides.len(), ours.letters[0].len());
    let mark = |(i, &byte): (usize, &u8)| match i.checked_sub(n) {
        None => (byte > 1).then(|| format!("side {byte} of read {i}")),
        Some(i) => (byte > 2).then(|| format!("letter {byte} of haplotype {} at column {}", i / m + 1, i % m)),
    };
    let marks: Vec<String> = answer[17..].iter().enumerate().filter_map(mark).collect();
    let more = if marks.len() > NAMED { format!(" and {} more", marks.len() - NAMED) } else { String::new() };
    let named: Vec<&str> = marks.iter().take(NAMED).map(String::as_str).collect();
    format!("<p>{}: {}{more}.</p>\n", counted(marks.len(), "unknown mark"), named.join(", "))
}

/// What stands in place of a drawing for an answer that got 50, 51 or 52; nothing for others.
pub fn fields(verdict: &Verdict, answer: &[u8], ours: &Division) -> String {
    match verdict {
        Verdict::Malformed | Verdict::OtherCounts => head(answer, ours),
        Verdict::UnknownMark => unknown_marks(answer, ours),
        _ => String::new(),
    }
}
