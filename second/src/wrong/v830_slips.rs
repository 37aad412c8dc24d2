//! What a V830 can get wrong, each by itself.

/// Declares the slips, and the list of them, from one list of names.
macro_rules! slips {
    ($($slip:ident,)*) => {
        /// The one thing that a wrong V830 does wrong.
        #[derive(Clone, Copy, Debug, PartialEq)]
        pub enum Slip830 {
            Nothing,
            $($slip,)*
        }

        /// Every slip but `Nothing`.
        pub const SLIPS_830: &[Slip830] = &[$(Slip830::$slip,)*];
    };
}

slips! {
    // The start and the record.
    RefusedStartAnswers0,
    RefusedStartKeepsGeo,
    RefusedStartKeepsCapacity,
    StartTakesGeo32,
    StartCutsGeo,
    StartTakes32769,
    StartTakesNoWords,
    LengthBeforeGeo,
    StartEnablesNone,
    StartZeroesMemory,
    // Counting.
    DisabledDoNotCount,
    VetoStopsTest,
    VetoIgnored,
    VetoStopsTriggers,
    VetoToggles,
    FirstPulseOnly,
    Width26,
    CountStops,
    TestOfEnabledOnly,
    TestWithout31,
    CountsInRandomOnly,
    // Control.
    RefusedControlClears,
    RefusedControlResets,
    Mode3Accepted,
    SetReplaces,
    ClearReplaces,
    ClearKeepsBits,
    SetLooksAtData,
    ClearLooksAtData,
    ControlKeepsCounters,
    ControlKeepsTriggers,
    ControlKeepsWords,
    SetKeepsEverything,
    ClearBitsKeepsWords,
    SameControlKeeps,
    ControlOf16Bits,
    Bits3And4Lost,
    ModesSwapped,
    PeriodicalTriggers,
    ControlResetsEnable,
    ControlLiftsVeto,
    // Emptying, CLEAR and reset.
    EmptyingKeepsFirst,
    EmptyingZeroesWords,
    ClearEmptiesAlways,
    ClearEmptiesNever,
    LineEmptiesOnly,
    RegisterEmptiesAlways,
    ClearZeroesTriggers,
    RegisterClearsTriggers,
    ClearKeepsCounters,
    ClearOfEnabledOnly,
    VetoStopsClear,
    ResetKeepsEnable,
    ResetEnablesNone,
    ResetLiftsVeto,
    ResetKeepsControl,
    ResetKeepsTriggers,
    ResetKeepsWords,
    ResetKeepsCounters,
    ResetKeepsFirst,
    ResetClearsGeo,
    ResetZeroesWords,
    // Channel Enable.
    EnableWhileStored,
    SameEnableWhileStored,
    EnableEmpties,
    EnableZeroesCounters,
    EnableOf16Bits,
    EnableOnlyInMode0,
    // Triggers.
    NeglectedResets,
    NeglectedCounts,
    DisabledTriggerCounts,
    ResetBeforeTaking,
    AutoResetOfEnabledOnly,
    AutoResetAlways,
    AutoResetNever,
    AutoResetClearsTriggers,
    NumberBeforeCount,
    NumberOf3Bits,
    NumberOf32Bits,
    SourcesSwapped,
    SourceAlways0,
    SourceAlways1,
    HeaderCountOfAll,
    HeaderCountOfWords,
    HeaderWithoutBit26,
    HeaderWithoutGeo,
    HeaderLast,
    DataDescending,
    ChannelsMirrored,
    ShortNotMasked,
    ShortOf27Bits,
    LongMasked,
    ShortWithoutChannel,
    ShortChannelByTurns,
    FormatSwapped,
    TestModeStoresZeros,
    EightBeforeSeven,
    NineBeforeSeven,
    HeaderAloneIs8,
    EightIsGood,
    FullOneEarly,
    FullMargin33,
    OverwritesOldest,
    FreedNotReused,
    NoWrapInEvent,
    TriggerCountOf16Bits,
    // Reads.
    NewestFirst,
    ReadLeaves,
    ReadZeroes,
    LastReadSetsFirst,
    ReadByOffset,
    EmptyReadIsGood,
    FirstPastEnd,
    NumberRoundedDown,
    NumberOneMore,
    NumberOfWords,
    EventNumberOf15Bits,
    CountersLatched,
    CountersReadOnce,
    CounterOf26InShort,
    ControlReadsOnes,
    // The table and the order of refusals.
    WindowFirstOnly,
    WindowTooLong,
    WindowEverySecond,
    WindowTakes16,
    WindowWritable,
    Counter24Missing,
    CountersTake16,
    LowerHalves,
    EnableTakes16,
    ControlTakes32,
    BitSetReadable,
    BitClearMissing,
    ResetReadable,
    TriggerWide,
    TriggerCounterOf16,
    EventNumberOf32,
    StatusKnown,
    DwellKnown,
    PageWraps,
    OddOffsets,
    WidthBeforeOffset,
    DirectionBeforeWidth,
    FiveBeforeTwo,
    SixBeforeTwo,
    ManClrIsGood,
    ManClrClears,
    ManClrBefore12,
    SevenBefore12,
    RefusedValue,
}

use Slip830::*;

/// Which inputs must catch a slip.
#[derive(Clone, Copy, Debug, PartialEq)]
pub enum By {
    /// The fixed ones and the random ones.
    Both,
    /// The fixed ones: only there a count passes 2^26.
    Fixed,
    /// The long ones: only there the Trigger Counter passes 65,535 and 32,768 events are stored.
    Long,
}

/// Which inputs must catch a slip.
pub fn caught_by(slip: Slip830) -> By {
    match slip {
        ShortNotMasked | ShortOf27Bits | LongMasked => By::Fixed,
        NumberOf32Bits | TriggerCountOf16Bits | EventNumberOf15Bits => By::Long,
        _ => By::Both,
    }
}
