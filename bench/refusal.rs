//! Why a call is refused, with the number that is printed for it.

#[derive(Clone, Copy, Debug, PartialEq, Eq)]
#[repr(u8)]
pub enum Refusal {
    Incomplete = 1,
    Trailing = 2,
    RouterCount = 3,
    UnknownRouter = 4,
    SelfLink = 5,
    Metric = 6,
    Repeated = 7,
    TableSize = 8,
    TooMany = 9,
    NoChange = 10,
    SameMetric = 11,
    Mixed = 12,
    NoCommonRouter = 13,
    Record = 20,
    Kind = 21,
    State = 23,
    Waiting = 24,
    NotDue = 25,
    Unwritten = 26,
    NotDone = 27,
    NotTold = 28,
    DeadLink = 30,
    PastList = 31,
    LongSubTlvs = 32,
    UnknownIdentity = 33,
    TooEarly = 34,
    ClockEnd = 35,
    NoStepTime = 36,
}

impl Refusal {
    pub fn number(self) -> u8 {
        self as u8
    }
}
