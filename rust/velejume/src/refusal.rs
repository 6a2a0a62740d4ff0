//! Why a block is refused, in the words of documents 01 and 02.

use crate::Numbers;
use std::fmt;

/// A refusal, with its second number where documents 01 and 02 name one.
#[derive(Clone, Copy, Debug, PartialEq, Eq, Hash)]
pub enum Refusal {
    /// 1: fewer than 9 bytes.
    Short,
    /// 2: version neither 1 nor 2.
    Version,
    /// 2 of a converting: version not 1.
    NotVersion1,
    /// 3: length field differs from bytes present after byte 4.
    Length,
    /// 4: m = 0, m > 1,024 or n > 1,024.
    Size,
    /// 5: a read's length field is cut off, L < 2, L is odd (in version 2: L − 2 is no multiple of 3), or L runs past the block.
    ReadLength { read: u32 },
    /// 38, looked for between 5 and 6: c = 0 in version 2.
    NoCells { read: u32 },
    /// 6: c = 0 with first column not 0 (in version 1), or first + c > m.
    Columns { read: u32 },
    /// 7: letter above 2, a hole with weight, first or last cell a hole.
    Cell { read: u32 },
    /// 8: bytes remain after the last read.
    Remain,
    /// 9: a column has more than 12 active reads; the first such column.
    Active { column: u32 },
    /// 10: work room below m × T entries.
    WorkRoom { need: u32 },
    /// 11: output below 17 + n + 2m bytes.
    OutputRoom { need: u32 },
    /// 13, of a phasing with margins: margin room below 2m numbers.
    MarginRoom { need: u32 },
    /// 39: output below the bytes of the converted block.
    ConvertRoom { need: u32 },
}

impl Refusal {
    /// The refusal of a call that was not accepted.
    pub(crate) fn read(numbers: Numbers) -> Self {
        let Numbers { number, second } = numbers;
        match number {
            1 => Refusal::Short,
            2 => Refusal::Version,
            3 => Refusal::Length,
            4 => Refusal::Size,
            5 => Refusal::ReadLength { read: second },
            6 => Refusal::Columns { read: second },
            7 => Refusal::Cell { read: second },
            8 => Refusal::Remain,
            9 => Refusal::Active { column: second },
            10 => Refusal::WorkRoom { need: second },
            11 => Refusal::OutputRoom { need: second },
            13 => Refusal::MarginRoom { need: second },
            38 => Refusal::NoCells { read: second },
            39 => Refusal::ConvertRoom { need: second },
            _ => panic!("the library gives {number}, which is no refusal"),
        }
    }

    /// The number in the tables of documents 01 and 02.
    pub fn number(&self) -> u32 {
        match self {
            Refusal::Short => 1,
            Refusal::Version | Refusal::NotVersion1 => 2,
            Refusal::Length => 3,
            Refusal::Size => 4,
            Refusal::ReadLength { .. } => 5,
            Refusal::Columns { .. } => 6,
            Refusal::Cell { .. } => 7,
            Refusal::Remain => 8,
            Refusal::Active { .. } => 9,
            Refusal::WorkRoom { .. } => 10,
            Refusal::OutputRoom { .. } => 11,
            Refusal::MarginRoom { .. } => 13,
            Refusal::NoCells { .. } => 38,
            Refusal::ConvertRoom { .. } => 39,
        }
    }

    /// The second number: a read, a column or a size, 0 where there is none.
    pub fn second(&self) -> u32 {
        match *self {
            Refusal::ReadLength { read }
            | Refusal::NoCells { read }
            | Refusal::Columns { read }
            | Refusal::Cell { read } => read,
            Refusal::Active { column } => column,
            Refusal::WorkRoom { need }
            | Refusal::OutputRoom { need }
            | Refusal::MarginRoom { need }
            | Refusal::ConvertRoom { need } => need,
            _ => 0,
        }
    }
}

impl fmt::Display for Refusal {
    fn fmt(&self, f: &mut fmt::Formatter) -> fmt::Result {
        match self {
            Refusal::Short => write!(f, "fewer than 9 bytes"),
            Refusal::Version => write!(f, "version neither 1 nor 2"),
            Refusal::NotVersion1 => write!(f, "version not 1"),
            Refusal::Length => write!(f, "length field differs from bytes present after byte 4"),
            Refusal::Size => write!(f, "m = 0, m > 1,024 or n > 1,024"),
            Refusal::ReadLength { read } => write!(
                f,
                "read {read}: length field is cut off, L < 2, L is odd (in version 2: L − 2 is no multiple of 3), \
                 or L runs past the block"
            ),
            Refusal::NoCells { read } => write!(f, "read {read}: c = 0 in version 2"),
            Refusal::Columns { read } => write!(f, "read {read}: c = 0 with first column not 0, or first + c > m"),
            Refusal::Cell { read } => {
                write!(f, "read {read}: letter above 2, a hole with weight, first or last cell a hole")
            }
            Refusal::Remain => write!(f, "bytes remain after the last read"),
            Refusal::Active { column } => write!(f, "column {column} has more than 12 active reads"),
            Refusal::WorkRoom { need } => write!(f, "work room below m × T = {need} entries"),
            Refusal::OutputRoom { need } => write!(f, "output below 17 + n + 2m = {need} bytes"),
            Refusal::MarginRoom { need } => write!(f, "margin room below 2m = {need} numbers"),
            Refusal::ConvertRoom { need } => write!(f, "output below the {need} bytes of the converted block"),
        }
    }
}

impl std::error::Error for Refusal {}
