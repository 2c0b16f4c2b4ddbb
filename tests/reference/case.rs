//! One run of the program: its plan, its input, and how that reaches it.

use crate::draft::Draft;

#[derive(Clone, Debug)]
pub enum PlanFile {
    Stored(Vec<u8>),
    Missing,
    /// A folder of that name: there, but no file to read.
    Folder,
}

impl PlanFile {
    pub fn of(draft: &Draft) -> PlanFile {
        PlanFile::Stored(draft.store())
    }

    pub fn bytes(&self) -> Option<&[u8]> {
        match self {
            PlanFile::Stored(bytes) => Some(bytes),
            _ => None,
        }
    }
}

/// How the input reaches the program.
#[derive(Clone, Copy, Debug, PartialEq)]
pub enum Feed {
    /// All at once, then the end of input.
    Whole,
    /// In pieces with pauses, then the end of input.
    Pieces,
    /// All at once, and no end of input until the program has gone.
    Held,
    /// Not at all: standard input is closed, and reading it fails.
    Closed,
    /// Not at all: reading a folder fails.
    Folder,
    /// Not at all: reading what can only be written fails.
    WriteOnly,
    /// All at once; then reading fails, as the sender has reset the connection.
    Reset,
}

#[derive(Clone, Debug)]
pub struct Case {
    pub kind: &'static str,
    pub plan: PlanFile,
    pub input: Vec<u8>,
    pub feed: Feed,
}
