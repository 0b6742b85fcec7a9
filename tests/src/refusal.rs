//! The numbers with which a call says no.

/// Why a call is refused; the discriminant is document 01's number.
#[derive(Clone, Copy, Debug, PartialEq, Eq)]
pub enum Reason {
    TooLong = 1,
    BadByte = 2,
    MissingLineEnd = 3,
    LineKind = 4,
    FieldCount = 5,
    Malformed = 6,
    OutOfRange = 7,
    RecordCount = 8,
    RepeatedName = 9,
    NoSuch = 10,
    Capacity = 11,
    MergeStop = 12,
    Budget = 13,
    TooFewWords = 14,
    ListingSpace = 15,
    ChartForm = 20,
    AnalysisForm = 21,
    Finished = 22,
    IterationLimit = 23,
    NoAlarm = 24,
    SearchBound = 30,
    SearchSize = 31,
}

/// A reason and the line it applies to, counted from 1; 0 where none does.
#[derive(Clone, Copy, Debug, PartialEq, Eq)]
pub struct Refusal {
    pub reason: Reason,
    pub line: u32,
}

impl Refusal {
    pub fn at(line: u32, reason: Reason) -> Self {
        Refusal { reason, line }
    }
}

/// Most refusals apply to no line, so `?` on a bare reason gives line 0.
impl From<Reason> for Refusal {
    fn from(reason: Reason) -> Self {
        Refusal { reason, line: 0 }
    }
}
