//! Mistakes that can be put into the model on purpose, to show that the comparison sees them.

use crate::ofib::{Set, WIDTH};
use crate::plan::MOST_CHANGES;

#[derive(Clone, Copy, Debug, PartialEq, Eq)]
pub enum Flaw {
    None,
    /// Read answers 2 where the file ends too early.
    ReadTwoForOne,
    /// Read leaves the links it has read in the table when it refuses.
    ReadKeepsLinks,
    /// 30 is tested after 7.
    DeadAfterRepeated,
    /// A change to the metric of a dead link is refused with 30.
    DeadChangeRefused,
    /// The old reader refuses a dead link with 30.
    OldReaderDead,
    /// The rewritten file has the link count of the stored one.
    CountNotCorrected,
    /// Only the dead links behind the last live one are dropped.
    DeadAtEndOnly,
    /// The largest metric counts as a used link.
    MaximumUsed,
    /// A link is used whatever its reverse is.
    ReverseNotRead,
    /// One next hop is kept where several cost the same.
    OneNextHop,
    /// The metric of the link back is added for each link.
    LinksTurnedRound,
    /// The column of the last destination stays blank.
    LastDestinationLeftOut,
    /// A search writes the column behind its own too, where that is the first beyond n.
    ColumnBehindWritten,
    /// A router's next hops are those of the routers next to it, but for the destination.
    HopsHandedOn,
    /// A fall is ordered like a rise.
    FallAsRise,
    /// The root is the higher of two common routers.
    RootHigher,
    /// Of two common routers the far end of the first change is the root.
    RootFarEnd,
    /// The lower end of the first change is the root, though it is not common.
    RootLowerEnd,
    /// Rise and fall are judged by the metrics of the entries, used or not.
    RawDirection,
    /// An entry without effect is refused, though another one has some.
    EqualEntry,
    /// 12 is given where no usable metric differs, neither to rise nor to fall.
    MixedFirst,
    /// 13 is given before 11.
    CommonRouterFirst,
    /// The common router is sought only among the changes that have an effect.
    RootByEffect,
    /// The new metrics leave out the links that are up at one end only.
    NewMetricsUsable,
    /// The rank is the length of the shortest chain of waiting routers.
    ShortestRank,
    /// The rank is one too large: the routers of the chain are counted, not its links.
    RankOffByOne,
    /// A router with nothing due finishes without waiting.
    FinishUnordered,
    /// Write answers ok and moves nothing.
    WriteMovesNothing,
    /// An idle router takes a completion message.
    IdleReceives,
    /// A write of a destination that is already written is answered ok.
    WriteTwice,
    /// The text says ok for an ignored message.
    IgnoredAsOk,
    /// The routes leave out a pair that has a walk in only one of the two topologies.
    RouteNeedsBoth,
    /// The rehearsal leaves the distances of the two topologies in each other's tables.
    RehearsalExchanges,
    /// The routes change a cell of the new metrics where the file is refused.
    RoutesTouchRefused,
    /// Of the routers that could come next on the sheet, the highest number is taken.
    SheetHighestFirst,
    /// The sheet goes by rank.
    SheetByRank,
    /// A refusal leaves the sheet as it was.
    SheetKeptIfRefused,
    /// 3 is tested before 8 for link-state data, as Paths has it.
    CountBeforeSize,
    /// The rows of the identity table are judged before n.
    RowsBeforeCount,
    /// That the last row is cut short is seen before the numbers of the rows.
    CutRowFirst,
    /// A row that an earlier one with its identity shadows is not judged.
    ShadowedRowPasses,
    /// The last row with an identity counts.
    LastRowCounts,
    /// Identities are told apart by their first six bytes.
    SixByteIdentity,
    /// A list that is not all there is judged by the entries that are.
    PartOfList,
    /// All lengths are judged before the first entry, and the bytes after the last list too.
    LengthsFirst,
    /// An entry that runs past its list by one byte passes.
    EntryOneByteLonger,
    /// Sub-TLVs of 244 bytes are refused.
    MostSubTlvs243,
    /// 32 is tested before 31.
    LongBeforePast,
    /// 32 is tested after 33, 5 and 6.
    LongLast,
    /// 33 is tested after 5 and 6.
    UnknownLast,
    /// An entry with an identity in no row is left out.
    UnknownSkipped,
    /// 6 is tested before 5 in an entry.
    ZeroBeforeOwn,
    /// An entry's metric begins with the last byte of the identity.
    MetricByteEarly,
    /// An entry with the metric of a dead link is refused with 30.
    DeadEntryRefused,
    /// Of several entries for a router the highest metric is kept.
    HighestKept,
    /// Of several entries for a router the last one is kept.
    LastEntryKept,
    /// The lowest metric is kept of each identity, not of each router.
    LowestByIdentity,
    /// Link-state data that is refused leaves its links in the table.
    IsisKeepsLinks,
    /// Link-state data that is refused leaves the table as it was.
    TableAsItWas,
    /// The program that prints an area takes a list that is not all there for bytes after the last one.
    WholeListsCounted,
    /// It takes lists that are one byte too long.
    OneByteMoreTaken,
    /// It does not list a link with the largest metric that is used.
    LargestNotListed,
    /// Paths and Plan refuse more than 32 routers.
    PathsUpTo32,
    /// Paths and Plan refuse 64 routers.
    PathsUpTo63,
    /// Read refuses more than 32 routers.
    ReadUpTo32,
    /// Read refuses 64 routers.
    ReadUpTo63,
    /// Step refuses the record of more than 32 routers.
    StepUpTo32,
    /// Step refuses the record of 64 routers.
    StepUpTo63,
    /// Link-state data of more than 32 routers is refused.
    IsisUpTo32,
    /// Link-state data of 64 routers is refused.
    IsisUpTo63,
    /// Plan refuses more than 62 changes.
    PlanUpTo62,
    /// Read refuses more than 62 changes.
    ReadUpTo62,
    /// Next-hop sets are cut to 32 bits.
    HopsOf32Bits,
    /// Due sets are cut to 32 bits.
    DueOf32Bits,
    /// What is written is cut to 32 bits.
    WrittenOf32Bits,
    /// A message strikes the router whose number is the sender's modulo 32.
    StruckModulo32,
    /// The row of the last router that an area can have is left blank.
    LastRowLeftOut,
    /// A sheet is printed, however many steps it has.
    AnySheetPrinted,
    /// A router with nothing due has no message to deliver.
    NothingDueNothingTold,
    /// A plan needs two calls of each router beside writes and messages.
    NeedsTwoEach,
    /// A destination that is due at several routers counts once.
    DueOnceForAll,
    /// Members from 32 on are not counted.
    SizeOf32Bits,
    /// The sets of routers from n on count too.
    NeedsBeyondN,
    /// Of routers that have no entry in the tables, none is counted.
    NeedsUpTo64,
    /// The line `needs` counts the destinations with another distance.
    NeedsByDistances,
    /// The line `needs` is of the record after the steps.
    NeedsOfLast,
    /// The line `needs` stands after the steps.
    NeedsAfterSteps,
    /// A refused file has a line `needs` too.
    NeedsThoughRefused,
    /// What is missing is counted without the waiting sets.
    MissingWithoutWaiting,
    /// From a state above done, the states back to done are missing.
    StatesBackToDone,
    /// The size of the written set is taken off that of the due set, whatever was written.
    WrittenTakenOff,
    /// Every call makes one less missing, whatever its answer.
    MissingByCalls,
    /// An ignored call makes one less missing.
    MissingByIgnored,
    /// Where nothing is missing, no line says so.
    MissingLineLeftOut,
    /// What is printed as unwritten is all that is due.
    UnwrittenAsDue,
    /// Those that a router waits for are printed as they were before the first step.
    WaitsOfFresh,
    /// Routers that are done are printed too.
    DonePrinted,
    /// Sets are printed as numbers.
    SetsAsNumbers,
    /// The set of four has five members where the full set has.
    FiveTaken,
    /// The four highest members are taken.
    HighestTaken,
    /// No member is taken of a full set that has more than four.
    LargeDropped,
    /// The four lowest members below 32 are taken.
    FourOf32Bits,
    /// The sets of four beyond n are left as they were.
    FoursKeptBeyondN,
    /// Waiting comes from the sets of four.
    WaitingByFours,
    /// Due are the destinations whose full sets differ.
    DueByFullSets,
    /// The routes have the sets of four.
    RoutesOfFours,
    /// The routes do not say that their sets are the full ones.
    HeadingLeftOut,
    /// They do so also where the file is refused.
    HeadingThoughRefused,
    /// A step time of 0 is taken.
    NoStepTimeTaken,
    /// 36 is tested before 3.
    NoStepTimeFirst,
    /// 36 is tested after 8.
    NoStepTimeAfterSizes,
    /// The record has the hold time and the step time in each other's place.
    TimesExchanged,
    /// There is no kind 6.
    TickUnknown,
    /// A tick refuses an a that is no router.
    TickReadsA,
    /// A tick refuses a b that is no router.
    TickReadsB,
    /// A tick at the end of the clock is answered ok and starts it anew.
    ClockStartsAnew,
    /// Learn does not note the clock.
    LearnTimeNotNoted,
    /// The learn time is noted at the release, so that the due time is counted from there.
    LearnTimeAtRelease,
    /// 34 is tested before 23.
    EarlyBeforeState,
    /// A router may be released one tick before its hold time is over.
    ReleaseTickEarly,
    /// A router may be released only one tick after its hold time is over.
    ReleaseTickLate,
    /// A router's due time comes one tick before.
    DueTickEarly,
    /// A router's due time has come only one tick after it.
    DueTickLate,
    /// The due time is counted without the hold time.
    DueWithoutHold,
    /// The due time is counted without the step time, as if that were 1.
    RankWithoutStepTime,
    /// The hold time is added in 32 bits.
    HeldOf32Bits,
    /// The due time is counted in 32 bits.
    DueTimeOf32Bits,
    /// A router may write by its timer, but not finish.
    TimerForWritesOnly,
    /// A router that writes or finishes by its timer waits for none from then on.
    TimerEndsWaiting,
    /// A router whose due time has come takes no message.
    TimerEndsListening,
    /// A tick's ok is counted.
    TickCounted,
    /// As many calls as are needed must have been answered ok where all routers are done, though some still wait.
    ExactThoughWaiting,
    /// A time of a file has its low byte first.
    TimesLowByteFirst,
    /// A file has the step time before the hold time.
    FileTimesExchanged,
    /// Read refuses a step time of 0.
    NoStepTimeInRead,
    /// Read hands back a step time with a refusal.
    TimesThoughRefused,
    /// A file is planned without its times.
    FileTimesNotUsed,
    /// The old reader takes files with times.
    OldReaderTimed,
    /// A rewritten file has no times.
    RewrittenWithoutTimes,
    /// The step time of a rewritten file is 0.
    RewrittenNoStepTime,
    /// The steps of a sheet have no ticks.
    SheetWithoutTicks,
    /// The ticks of a sheet come after the releases.
    SheetTicksLate,
    /// What is printed as unfinished has no times.
    TimesNotPrinted,
    /// An ongoing router is printed with the time until which it was held.
    HoldsThoughOngoing,
    /// An idle router is printed with times.
    IdleWithTimes,
    /// A router that waits for none is printed with its due time.
    WaitsUntilThoughNone,
    /// A holding router is printed with its learn time, without the hold time.
    HoldsWithoutHold,
}

impl Flaw {
    /// How many routers a part takes, which has two mistakes of this sort.
    pub fn most_routers(self, up_to_32: Flaw, up_to_63: Flaw) -> usize {
        if self == up_to_32 {
            32
        } else if self == up_to_63 {
            63
        } else {
            WIDTH
        }
    }

    /// How many changes a part takes, which has this mistake.
    pub fn most_changes(self, up_to_62: Flaw) -> usize {
        if self == up_to_62 { 62 } else { MOST_CHANGES }
    }

    /// The set, cut to 32 bits by this mistake.
    pub fn cut_by(self, cut: Flaw, set: Set) -> Set {
        if self == cut { set & Set::from(u32::MAX) } else { set }
    }
}

/// Those that areas, files, wrong input and arbitrary records show.
pub const FLAWS: [Flaw; 105] = [
    Flaw::ReadTwoForOne,
    Flaw::ReadKeepsLinks,
    Flaw::DeadAfterRepeated,
    Flaw::DeadChangeRefused,
    Flaw::OldReaderDead,
    Flaw::CountNotCorrected,
    Flaw::DeadAtEndOnly,
    Flaw::MaximumUsed,
    Flaw::ReverseNotRead,
    Flaw::OneNextHop,
    Flaw::LinksTurnedRound,
    Flaw::LastDestinationLeftOut,
    Flaw::ColumnBehindWritten,
    Flaw::HopsHandedOn,
    Flaw::FallAsRise,
    Flaw::RootHigher,
    Flaw::RootFarEnd,
    Flaw::RootLowerEnd,
    Flaw::RawDirection,
    Flaw::EqualEntry,
    Flaw::MixedFirst,
    Flaw::CommonRouterFirst,
    Flaw::RootByEffect,
    Flaw::NewMetricsUsable,
    Flaw::ShortestRank,
    Flaw::RankOffByOne,
    Flaw::FinishUnordered,
    Flaw::WriteMovesNothing,
    Flaw::IdleReceives,
    Flaw::WriteTwice,
    Flaw::IgnoredAsOk,
    Flaw::RouteNeedsBoth,
    Flaw::RehearsalExchanges,
    Flaw::RoutesTouchRefused,
    Flaw::SheetHighestFirst,
    Flaw::SheetByRank,
    Flaw::SheetKeptIfRefused,
    Flaw::PathsUpTo32,
    Flaw::PathsUpTo63,
    Flaw::ReadUpTo32,
    Flaw::ReadUpTo63,
    Flaw::StepUpTo32,
    Flaw::StepUpTo63,
    Flaw::PlanUpTo62,
    Flaw::ReadUpTo62,
    Flaw::HopsOf32Bits,
    Flaw::DueOf32Bits,
    Flaw::WrittenOf32Bits,
    Flaw::StruckModulo32,
    Flaw::LastRowLeftOut,
    Flaw::NothingDueNothingTold,
    Flaw::NeedsTwoEach,
    Flaw::DueOnceForAll,
    Flaw::SizeOf32Bits,
    Flaw::NeedsBeyondN,
    Flaw::NeedsUpTo64,
    Flaw::NeedsByDistances,
    Flaw::NeedsOfLast,
    Flaw::NeedsAfterSteps,
    Flaw::NeedsThoughRefused,
    Flaw::MissingWithoutWaiting,
    Flaw::StatesBackToDone,
    Flaw::WrittenTakenOff,
    Flaw::FiveTaken,
    Flaw::HighestTaken,
    Flaw::LargeDropped,
    Flaw::FourOf32Bits,
    Flaw::FoursKeptBeyondN,
    Flaw::WaitingByFours,
    Flaw::DueByFullSets,
    Flaw::RoutesOfFours,
    Flaw::HeadingLeftOut,
    Flaw::HeadingThoughRefused,
    Flaw::NoStepTimeTaken,
    Flaw::NoStepTimeFirst,
    Flaw::NoStepTimeAfterSizes,
    Flaw::TimesExchanged,
    Flaw::TickUnknown,
    Flaw::TickReadsA,
    Flaw::TickReadsB,
    Flaw::ClockStartsAnew,
    Flaw::LearnTimeNotNoted,
    Flaw::LearnTimeAtRelease,
    Flaw::EarlyBeforeState,
    Flaw::ReleaseTickEarly,
    Flaw::ReleaseTickLate,
    Flaw::DueTickEarly,
    Flaw::DueTickLate,
    Flaw::DueWithoutHold,
    Flaw::RankWithoutStepTime,
    Flaw::HeldOf32Bits,
    Flaw::DueTimeOf32Bits,
    Flaw::TimerForWritesOnly,
    Flaw::TimerEndsWaiting,
    Flaw::TimerEndsListening,
    Flaw::TickCounted,
    Flaw::ExactThoughWaiting,
    Flaw::TimesLowByteFirst,
    Flaw::FileTimesExchanged,
    Flaw::NoStepTimeInRead,
    Flaw::TimesThoughRefused,
    Flaw::FileTimesNotUsed,
    Flaw::OldReaderTimed,
    Flaw::RewrittenWithoutTimes,
    Flaw::RewrittenNoStepTime,
];

/// Those that link-state data shows.
pub const ISIS_FLAWS: [Flaw; 24] = [
    Flaw::CountBeforeSize,
    Flaw::RowsBeforeCount,
    Flaw::CutRowFirst,
    Flaw::ShadowedRowPasses,
    Flaw::LastRowCounts,
    Flaw::SixByteIdentity,
    Flaw::PartOfList,
    Flaw::LengthsFirst,
    Flaw::EntryOneByteLonger,
    Flaw::MostSubTlvs243,
    Flaw::LongBeforePast,
    Flaw::LongLast,
    Flaw::UnknownLast,
    Flaw::UnknownSkipped,
    Flaw::ZeroBeforeOwn,
    Flaw::MetricByteEarly,
    Flaw::DeadEntryRefused,
    Flaw::HighestKept,
    Flaw::LastEntryKept,
    Flaw::LowestByIdentity,
    Flaw::IsisKeepsLinks,
    Flaw::TableAsItWas,
    Flaw::IsisUpTo32,
    Flaw::IsisUpTo63,
];

/// Those that what is printed for link-state data shows.
pub const PRINTED_FLAWS: [Flaw; 3] = [Flaw::WholeListsCounted, Flaw::OneByteMoreTaken, Flaw::LargestNotListed];

/// Those that what is printed as unfinished shows.
pub const UNFINISHED_FLAWS: [Flaw; 15] = [
    Flaw::NeedsTwoEach,
    Flaw::DueOnceForAll,
    Flaw::MissingByCalls,
    Flaw::MissingByIgnored,
    Flaw::TickCounted,
    Flaw::MissingLineLeftOut,
    Flaw::UnwrittenAsDue,
    Flaw::WaitsOfFresh,
    Flaw::DonePrinted,
    Flaw::SetsAsNumbers,
    Flaw::TimesNotPrinted,
    Flaw::HoldsThoughOngoing,
    Flaw::IdleWithTimes,
    Flaw::WaitsUntilThoughNone,
    Flaw::HoldsWithoutHold,
];

/// Those that what is printed of the steps of sheets shows.
pub const SHEET_FLAWS: [Flaw; 3] = [Flaw::AnySheetPrinted, Flaw::SheetWithoutTicks, Flaw::SheetTicksLate];

/// Those that the calls answered ok show, on the records that small plans can get to.
pub const COURSE_FLAWS: [Flaw; 3] = [Flaw::NothingDueNothingTold, Flaw::FinishUnordered, Flaw::WriteTwice];

/// Those by which a loop forms though the record is timely.
pub const TIMER_FLAWS: [Flaw; 3] = [Flaw::DueTickEarly, Flaw::DueWithoutHold, Flaw::RankWithoutStepTime];

/// Those that what is written for a stored file shows.
pub const REWRITING_FLAWS: [Flaw; 6] = [
    Flaw::OldReaderDead,
    Flaw::OldReaderTimed,
    Flaw::CountNotCorrected,
    Flaw::DeadAtEndOnly,
    Flaw::RewrittenWithoutTimes,
    Flaw::RewrittenNoStepTime,
];
