//! The cells of a drawing. Letter, weight and mark stand one behind the other, however many digits the weight has.

/// The mark of what disagrees.
const MARK: &str = "<i>≠</i>";

fn class(names: &[(&'static str, bool)]) -> String {
    names.iter().filter(|(_, is)| *is).map(|(name, _)| *name).collect::<Vec<_>>().join(" ")
}

/// An entry, marked if it disagrees with its haplotype's letter.
pub fn entry(letter: u8, weight: impl std::fmt::Display, wrong: bool) -> String {
    let class = class(&[(["l0", "l1"][usize::from(letter)], true), ("wrong", wrong)]);
    format!("<td class=\"{class}\">{letter}<small>:{weight}</small>{}", if wrong { MARK } else { "" })
}

/// A haplotype's letter, marked if another stands beside, and if it is a `-` where it may not be.
pub fn letter(letter: u8, other: bool, wrong: bool) -> String {
    let class = class(&[(["l0", "l1", "tie"][usize::from(letter)], true), ("other", other), ("wrong", wrong)]);
    format!("<td class=\"{class}\">{}{}", ["0", "1", "-"][usize::from(letter)], if wrong { MARK } else { "" })
}

/// The margin of a letter, marked if it is weak.
pub fn margin(margin: u32, weak: bool) -> String {
    match weak {
        true => format!("<td class=\"weak\">{margin}<i>?</i>"),
        false => format!("<td>{margin}"),
    }
}

/// A hole inside a read.
pub fn hole() -> String {
    "<td class=\"hole\">".to_string()
}

/// No cell.
pub fn nothing() -> String {
    "<td>".to_string()
}

/// Columns that are left out; the read may be active in them.
pub fn left_out(active: bool) -> String {
    format!("<td class=\"{}\">", if active { "out on" } else { "out" })
}
