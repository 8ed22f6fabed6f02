//! The rules of the papers that can be broken on purpose, so that a comparison of programs can be
//! shown to notice it.

/// Lists the flaws as an enum and as an array.
macro_rules! flaws {
    ($($(#[$words:meta])* $name:ident,)*) => {
        /// A rule of the paper, broken on purpose.
        #[derive(Clone, Copy, Debug, PartialEq, Eq)]
        pub enum Flaw {
            $($(#[$words])* $name,)*
        }

        impl Flaw {
            pub const ALL: &'static [Flaw] = &[$(Flaw::$name,)*];
        }
    };
}

flaws! {
    /// A number may have leading zeros.
    LeadingZeros,
    /// A number above 2^64 - 1 is read as 0.
    LargeNumberIsZero,
    /// A line of 1,024 bytes is too long.
    LineLimitCountsItsEnd,
    /// Updates after the fourth are forgotten.
    FifthUpdateForgotten,
    /// `unk` is a word of a log.
    UnkInTheLog,
    /// The last refusal that applies is given, not the first.
    RefusalsFalling,
    /// U < C is asked for "already executed", not U ≤ C.
    EqualVersionIsNew,
    /// `set` may run at the version that the history has.
    SetRunsAgain,
    /// `set` at the version that the history has waits.
    EqualSetWaits,
    /// `inc` follows 2^64 - 1 by 0.
    IncAfterTheLastVersion,
    /// `unk` may run at version 2^64 - 1.
    UnkAtTheLastVersion,
    /// `unk` waits at version 2^64 - 1.
    UnkWaitsAtTheLastVersion,
    /// An added `unk` is not refused at version 2^64 - 1.
    UnkAddedAtTheLastVersion,
    /// Readers block each other.
    ReadersBlockReaders,
    /// A reader in progress does not block a writer.
    WritersPassReaders,
    /// Part 0 is the byte worth most.
    PartsFromTheTop,
    /// A part above 3 is out of range, as it was before 02 (c).
    FourParts,
    /// The parts above 3 stay as they are when a profile is set.
    SetKeepsUpperParts,
    /// Only strong updates raise the place.
    PlaceForStrongOnly,
    /// 64 live operations are one too many.
    TableFullOneEarly,
    /// The log is full one byte early.
    LogFullOneByteEarly,
    /// A refused finish leaves its line in the log buffer.
    WritesWhenRefused,
    /// A logged line changes the byte behind it.
    WritesPastTheLine,
    /// An operation in progress can be withdrawn.
    WithdrawsRunning,
    /// An overtaken operation waits until it is withdrawn, as it did before 02 (b).
    KeepsOvertaken,
    /// A finish drops operations in progress too.
    DropsRunning,
    /// A finish names the operations that it drops by their ids.
    OvertakenById,
    /// A finish without room in the log drops what it would have overtaken.
    DropsWhenRefused,
    /// A waiting redo line that can never run is dropped.
    DropsWaiting,
    /// A volatile update keeps no history from being dry.
    DryWhileVolatile,
    /// All dry histories are named, not only those that became dry.
    NamesAllDry,
    /// A `not` keeps no history from being dry.
    DryWhileRead,
    /// A waiting redo keeps its histories from being dry.
    WetWhileWaiting,
    /// A poll of a history that is not there calls it dry.
    PollsPastTheLast,
    /// A poll is refused while restoring.
    PollsAfterRestoring,
    /// A history counts as risen when it was only read.
    ReadingRaises,
    /// "Stable n" stays below what is persistent.
    StableBelowPersistent,
    /// Restart counts a torn last line.
    TornLineCounted,
    /// Restart does not look at the places.
    RestartIgnoresPlaces,
    /// After a restart the persistent and stable versions are 0.
    RestartForgetsMarks,
    /// A stable operation leaves the table at the stable call.
    StableLeavesAtOnce,
    /// A stable line is covered by a report of the did line before it too.
    CoveredByTheLineBefore,
    /// Only a report of a did line after it covers a stable line.
    CoveredByLaterLinesOnly,
    /// A report of a number that was reached before covers nothing.
    CoveredByNewReportsOnly,
    /// A stable call is accepted while restoring.
    StableWhileRestoring,
    /// A stable call that is not above the mark is refused while restoring.
    ReachedStableRefused,
    /// A stable call at the mark writes its line again.
    ReachedStableWritten,
    /// A stable call without room in the log is refused 13 before 12.
    StableLimitBeforeRoom,
    /// Restart calls every kept line stable, as it did before 02 (g).
    RestartAllStable,
    /// Restart takes a first stable line of 0.
    StableZeroKept,
    /// Restart takes a stable line that says what the last one says.
    StableTwiceKept,
    /// Restart takes a stable line above the did lines before it.
    StableAboveDidsKept,
    /// Restart takes 65 live lines.
    KeepsOneLiveMore,
    /// Restart refuses 64 live lines.
    KeepsOneLiveLess,
    /// Restart takes two live lines of one id.
    KeepsIdsTwice,
    /// Restart asks for room in the table before it knows the last stable line.
    TableAskedEarly,
    /// The changeover writes its stable line behind a torn rest.
    UpgradesBehindTheRest,
    /// The changeover gives a log without did lines a stable line.
    UpgradesBareLogs,
    /// The changeover reads stable lines.
    UpgradesNewLogs,
    /// The changeover refuses what restart would have no table for.
    UpgradesSmallLogsOnly,
    /// The changeover of an older log reads a base line.
    UpgradesLogsWithBase,
    /// A base line above 1,024 bytes is unreadable.
    BaseHeldToLineLimit,
    /// Restart takes a base line behind the second line.
    BaseAnywhere,
    /// Restart takes a base line that lacks a history.
    BaseLacksHistories,
    /// Restart takes a base line whose histories do not rise.
    BaseInAnyOrder,
    /// Restart takes a base line of 2^63 + 1 operations.
    BaseOneAboveTop,
    /// Restart refuses a base line of 2^63 operations.
    BaseOneBelowTop,
    /// Restart takes a base line with a place one above its N.
    BasePlacesOneAbove,
    /// The histories start from nothing behind a base line.
    BaseForgotten,
    /// With a base line and no stable line the mark is 0.
    BaseNotStable,
    /// The operations of a base line do not count in a cut's reply.
    BaseNotCounted,
    /// The site's own cut takes a torn base line.
    CutsInsideBase,
    /// A report of fewer operations than the base line has is refused.
    ReportsBelowBaseRefused,
    /// A log is not copied while restoring.
    TrimsAfterRestoring,
    /// A log is copied from a number above the stable mark.
    TrimsAboveStable,
    /// A log is copied from a number above 2^63.
    TrimsAboveTop,
    /// A log is copied from a number below its own base.
    TrimsBelowBase,
    /// A log is copied into a fresh buffer above 65,536 bytes.
    TrimsIntoAnyBuffer,
    /// A copy that does not fit is refused 12 before 13.
    TrimRoomBeforeLimit,
    /// The base line of a copy has what the histories are now.
    TrimsToNow,
    /// Older stable lines are copied.
    TrimCopiesStableLines,
    /// A copy ends with a stable line at its own base too.
    TrimAlwaysCloses,
    /// A copy ends with no stable line.
    TrimNeverCloses,
    /// A refused copy is written as far as it fits.
    TrimWritesWhenRefused,
    /// A copy changes the byte behind it.
    TrimWritesPastTheCopy,
    /// The greatest number of kept bytes is named that leaves the places, not the smallest.
    FindsGreatestCut,
    /// Places that are not asked for are 0.
    FindsPaddedPlaces,
    /// Places asked for behind those of the histories are not looked at.
    FindsFirstPlaces,
    /// A cut is named that restart refuses for its live lines.
    FindsWithoutTable,
    /// A cut is named that loses the base line.
    FindsInsideBase,
    /// Redo goes by the version alone.
    RedoByVersionAlone,
    /// Only one waiting line runs after a delivery.
    DrainsOnce,
    /// Of the waiting lines that can run, the latest delivered goes first.
    DrainsLatestFirst,
    /// Redo counts the lines that waited, not how often it looked at them.
    ExaminesEachLineOnce,
    /// Redo counts its examinations from the new line back.
    ExaminesTheNewLineFirst,
    /// Redo counts an examination where no line waits any more.
    ExaminesWhenNoneWaits,
    /// Waiting lines hold their room in the log twice.
    WaitingHoldsTwice,
    /// `end` names the waiting lines in the order of their ids.
    EndNamesById,
    /// An unended rest of input gets no reply.
    RestIgnored,
    /// The keeper takes a line that it holds.
    KeeperTakesCopies,
    /// The keeper takes a line in conflict with one that it holds.
    KeeperTakesConflicts,
    /// Lines whose updates stand in another order are in no conflict.
    ConflictsInOrderOnly,
    /// Lines of one id are in conflict at other places too.
    ConflictsById,
    /// Lines that differ in a rule, version or operand are in no conflict.
    ConflictsByOrderOnly,
    /// A full keeper refuses a line in conflict with 12.
    ConflictsAfterFull,
    /// The keeper is full one byte early.
    KeeperFullOneByteEarly,
    /// The keeper does not drop the line at the place that it is told.
    KeeperDropsBelowOnly,
    /// The keeper clears the bytes of dropped lines.
    KeeperClearsDropped,
    /// The keeper hands out the line at the kept place too.
    KeeperHandsOutKept,
    /// The keeper hands out the latest arrival first.
    KeeperHandsOutBackwards,
    /// The keeper takes bytes for its own that end in the middle of a line.
    KeeperKeepsTornLine,
    /// Reports of copies without details count too.
    BareCopiesCount,
    /// A report that comes twice takes the first one back.
    ReportsTakenBack,
    /// More full copies than the threshold says must report.
    AboveTheThreshold,
    /// A 65th record is accepted.
    RecordsOneMore,
    /// A new record has the reports of the forgotten one in whose place it stands.
    ReportsOutliveRecords,
    /// A full copy at a site not sent to is asked about before the threshold.
    ThresholdAskedLast,
    /// A removed `not` leaves the later `not` of its history standing.
    ReadersStand,
    /// The lines of a removed line's transactions remove no others in their turn.
    TransactionsOneLevel,
    /// Earlier lines with a shared history fall too.
    EarlierLinesFall,
    /// A report whose answer has no room is refused 12 before 16.
    RemovalRoomFirst,
    /// The line of a pair need not be there.
    PairsNotAsked,
    /// The numbers of a base line's operations are among the lines.
    BaseNumbersNamed,
    /// A last number without a partner is a pair with transaction 0.
    LastNumberIsPair,
    /// The report names the lines falling.
    NamesFalling,
    /// A report changes the number behind its answer.
    WritesPastTheNames,
    /// A card has one line more than its W.
    CardOfOneMore,
    /// A cut only takes lines off a card: those that left it do not come back.
    CardSubtractsAtCut,
    /// Of the lines that a call wrote, one comes into a card.
    CardTakesOneLine,
    /// A card has any W.
    CardOfAnyWindow,
    /// A card has at most 1,023 lines.
    CardBelowTop,
    /// The numbers past those of the site's histories become 0.
    CardClearsAll,
    /// A cut does not raise what a site is promised.
    PromiseNotRaised,
    /// The last cut's number is promised, not the largest.
    PromiseOfTheLastCut,
    /// A slot that is not opened is promised nothing.
    UnopenedNotPromised,
    /// The module's table has 129 entries.
    EntriesOneMore,
    /// A cut that keeps too many lines is refused 10 before its log is read.
    TenBeforeFifteen,
    /// An added id is looked up in all sites of the module.
    IdsOverAllSites,
}

impl Flaw {
    /// The rules that only sites which share a table ask for.
    pub const OF_SHARED_TABLES: &'static [Flaw] = &[
        Flaw::PromiseNotRaised,
        Flaw::PromiseOfTheLastCut,
        Flaw::UnopenedNotPromised,
        Flaw::EntriesOneMore,
        Flaw::TenBeforeFifteen,
        Flaw::IdsOverAllSites,
    ];
}
