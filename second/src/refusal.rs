//! What is turned away: the numbered reasons and the places they name.

use std::fmt;

/// Why something is refused. The discriminants are the specification's numbers.
#[derive(Clone, Copy, Debug, PartialEq, Eq, PartialOrd, Ord)]
#[repr(u8)]
pub enum Reason {
    Overlong = 1,
    Knot = 2,
    Misplaced = 3,
    Unknown = 4,
    Twice = 5,
    Oversize = 6,
    Crowded = 7,
    LongRun = 8,
    Impossible = 9,
    Hollow = 10,
    OpenEnd = 11,
    Fork = 12,
    Torn = 13,
    IdleByte = 14,
    Stray = 15,
    Stopped = 16,
    Full = 17,
    ShortBin = 18,
    /// The numbers of a limit: too large, or a window not above the ticks
    /// allowed in it.
    LimitRange = 21,
    /// A production to be limited that is not one letter.
    NotOneLetter = 22,
}

/// What a refusal points at.
#[derive(Clone, Copy, Debug, PartialEq, Eq)]
pub enum Place {
    /// A byte of the rule text or of a trace.
    Byte(usize),
    /// A letter within a monitor.
    Letter { monitor: usize, letter: usize },
    /// A tick.
    Tick(u32),
    /// No place is named; it prints as 0.
    Nowhere,
}

/// A refusal: its reason and its place.
#[derive(Clone, Copy, Debug, PartialEq, Eq)]
pub struct Refusal {
    pub reason: Reason,
    pub place: Place,
}

impl Refusal {
    pub fn at_byte(reason: Reason, byte: usize) -> Self {
        Refusal {
            reason,
            place: Place::Byte(byte),
        }
    }

    pub fn at_letter(reason: Reason, monitor: usize, letter: usize) -> Self {
        Refusal {
            reason,
            place: Place::Letter { monitor, letter },
        }
    }

    pub fn at_tick(reason: Reason, tick: u32) -> Self {
        Refusal {
            reason,
            place: Place::Tick(tick),
        }
    }

    pub fn nowhere(reason: Reason) -> Self {
        Refusal {
            reason,
            place: Place::Nowhere,
        }
    }

    /// The specification's number of the reason.
    pub fn number(&self) -> u8 {
        self.reason as u8
    }
}

/// Prints the line of the sheet, without its line feed.
impl fmt::Display for Refusal {
    fn fmt(&self, f: &mut fmt::Formatter<'_>) -> fmt::Result {
        write!(f, "refused {} ", self.number())?;
        match self.place {
            Place::Byte(byte) => write!(f, "{byte}"),
            Place::Letter { monitor, letter } => write!(f, "{monitor} {letter}"),
            Place::Tick(tick) => write!(f, "{tick}"),
            Place::Nowhere => write!(f, "0"),
        }
    }
}
