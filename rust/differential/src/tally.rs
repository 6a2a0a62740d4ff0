//! How many cases of each sort were compared, so that none is missing unseen.

use crate::{Case, Conversion, Judging};
use blocks::{Field, Kind};
use solver::{Mode, Numbers};
use std::collections::BTreeMap;
use std::fmt;

#[derive(Default)]
pub struct Tally {
    counts: BTreeMap<(&'static str, String), u64>,
    passed: u64,
    faults: Vec<String>,
}

impl Tally {
    fn count(&mut self, sort: &'static str, name: impl fmt::Debug) {
        *self.counts.entry((sort, format!("{name:4?}"))).or_default() += 1;
    }

    /// Counts what a block is like.
    fn count_block(&mut self, kind: Kind, version: u8, field: Option<Field>) {
        self.count("kind", kind);
        self.count("version", version);
        if let Some(field) = field {
            self.count("damaged", field);
        }
    }

    /// Notes a case in a mode and what came of it: the numbers and whether every division was tried, or what differs.
    pub fn note(&mut self, mode: Mode, case: &Case, checked: Result<(Numbers, bool), String>) {
        self.count("mode", mode);
        self.note_phased(case, checked);
    }

    /// Notes a case with margins and what came of it.
    pub fn note_margins(&mut self, case: &Case, checked: Result<(Numbers, bool), String>) {
        self.count("run", case.run.0);
        self.note_phased(case, checked);
    }

    fn note_phased(&mut self, case: &Case, checked: Result<(Numbers, bool), String>) {
        self.count_block(case.kind, case.version, case.field);
        self.count("work room", case.work.0);
        self.count("output", case.out.0);
        if self.checked(checked) == Some(0) {
            self.count("T", case.width());
        }
    }

    /// Notes a judged answer and what came of it.
    pub fn note_judging(&mut self, case: &Judging, checked: Result<(Numbers, bool), String>) {
        self.count_block(case.kind, case.version, case.field);
        self.count("work room", case.work.0);
        self.count("answer", case.builder);
        case.faults.iter().for_each(|fault| self.count("fault", fault));
        self.checked(checked);
    }

    /// Notes a conversion and what came of it.
    pub fn note_conversion(&mut self, case: &Conversion, checked: Result<Numbers, String>) {
        self.count_block(case.kind, case.version, case.field);
        self.count("output", case.out.0);
        self.agreed(checked);
    }

    /// Notes what came of a case; gives the number, if all agree on it.
    fn checked(&mut self, checked: Result<(Numbers, bool), String>) -> Option<u32> {
        if let Ok((_, searched)) = checked {
            self.count("every division tried", searched);
        }
        self.agreed(checked.map(|(numbers, _)| numbers))
    }

    /// Notes the numbers that all agree on, or what differs; gives the number.
    fn agreed(&mut self, checked: Result<Numbers, String>) -> Option<u32> {
        match checked {
            Ok((number, _)) => {
                self.passed += 1;
                self.count("number", number);
                Some(number)
            }
            Err(fault) => {
                self.faults.push(fault);
                None
            }
        }
    }

    /// Whether no case failed, and there was one.
    pub fn good(&self) -> bool {
        self.faults.is_empty() && self.passed > 0
    }

    /// Panics if a case failed, and if one of these was not among the cases.
    pub fn require<T: fmt::Debug>(&self, sort: &'static str, names: impl IntoIterator<Item = T>) {
        assert!(self.good(), "{self}");
        for name in names {
            let met = self.counts.contains_key(&(sort, format!("{name:4?}")));
            assert!(met, "no case with {sort} {name:?}:\n{self}");
        }
    }
}

impl fmt::Display for Tally {
    fn fmt(&self, f: &mut fmt::Formatter) -> fmt::Result {
        let mut sort = "";
        for ((of, name), count) in &self.counts {
            let start = if sort == *of { ",".to_string() } else { format!("\n{of}:") };
            write!(f, "{start} {} {count}", name.trim())?;
            sort = of;
        }
        writeln!(f)?;
        self.faults.iter().take(5).try_for_each(|fault| writeln!(f, "{fault}"))?;
        write!(f, "{} passed, {} failed", self.passed, self.faults.len())
    }
}
