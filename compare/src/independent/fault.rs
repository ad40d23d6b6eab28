//! Deliberate faults of the independent side. With one of them the comparison
//! must find differences, which shows that it can fail.

#[derive(Clone, Copy, PartialEq, Eq, Debug)]
pub enum Fault {
    None,
    /// The last codeblock is filled with zeros (clause 8.6).
    FillZero,
    /// The random sequence runs on through the error control octets (clause 8.4.4).
    RandomizerThrough,
    /// The random sequence begins one bit late (clause 8.4.3).
    RandomizerLate,
    /// The parity bits are not complemented (clause 8.2.3).
    ParityPlain,
    /// A codeblock with a wrong filler bit is good (clause 8.2.3).
    FillerIgnored,
    /// The correcting mode corrects nothing (clause 8.8).
    CorrectsNever,
    /// The detecting mode corrects too.
    CorrectsWhenDetecting,
    /// A wrong filler bit is corrected: document 02, order 3, has it bad in both modes.
    CorrectsFiller,
    /// The bit behind the one in error is inverted.
    CorrectsOnePlaceOff,
    /// A corrected parity bit is not counted.
    CorrectedParityUncounted,
    /// The mode is judged before the length of the input.
    ModeBeforeLength,
    /// The reader finds no start sequence in any input.
    RefusesAll,
    /// A start sequence has no bit in error: document 01 before order 2 of document 02.
    StartExact,
    /// A start sequence may have two bits in error.
    StartTwoErrors,
    /// The reader's place is eight octets beyond the bad codeblock.
    PlaceOffByEight,
    /// A success clears the whole lent output first.
    TouchesAll,
    /// The frame reader takes a type-B frame whatever its sequence octet: document 01
    /// before document 02's order 10.
    FrameNumberOfTypeBTaken,
    /// The frame reader refuses an AD frame too where its sequence octet is not zero.
    FrameNumberOfAdJudged,
    /// The frame reader judges the address before the FECF.
    FrameAddressBeforeCheck,
    /// The frame reader refuses every frame.
    FrameRefusesAll,
    /// Seven octets after the frame are taken for fill.
    FrameFillSeven,
    /// The frame reader refuses over 256 octets with 10: document 01 before document 02's
    /// order 7.
    FrameFormerLimit,
    /// A unit may have one octet more than its limit.
    UnitOneMore,
    /// The FECF is the remainder without the presetting polynomial (clause 6.2.4.2).
    FecfPresetZero,
    /// A CLCW with spare bits that are not zero is valid (clauses 6.3.7 and 6.3.14).
    ClcwSpareTaken,
    /// The Lockout Flag stands in the neighbouring bit 17 (clause 6.3.1).
    ClcwFlagAtNeighbour,
    /// N(S) and V(R) are compared as plain numbers, not modulo 256 (clause 7.9.3.2).
    FarmPlainNumbers,
    /// The positive window ends at V(R) + PW (clause 7.2.3.8).
    FarmWindowOneWider,
    /// A buffer release clears the Retransmit_Flag (Table 7-9).
    FarmReleaseClearsRetransmit,
    /// Set V(R) is executed in Lockout as in Wait (clause 7.9.3.6).
    FarmSetVrLeavesLockout,
    /// The FARM-B_Counter stays at three (clause 7.2.3.7).
    FarmCounterStuck,
    /// An event writes into the next record (document 02, order 8, for all that follow).
    ChannelsNeighbourWritten,
    /// Each unit held counts twice in the pool.
    ChannelsPoolCountedTwice,
    /// The pool is each channel's own: what the others hold is not counted.
    ChannelsPoolOfEach,
    /// A release that names a channel that holds none gives back another's buffer.
    ChannelsReleaseOfNoneLowers,
    /// A release opens every channel that waits, not only the one named.
    ChannelsReleaseOpensAll,
    /// An expected frame in Wait is accepted where a buffer is free.
    ChannelsAcceptedInWait,
    /// A release that names a channel in Wait that holds none is 13, though the pool has room.
    ChannelsReleaseInWaitRefused,
    /// Such a release is E10 also where the pool has no room.
    ChannelsReleaseWithoutRoom,
    /// A release that names a channel that holds none is E10 in any state.
    ChannelsReleaseOfNoneDone,
    /// The pool has 8 buffers at the most: document 01.
    ChannelsPoolLimitOfEight,
    /// Nine records are taken.
    ChannelsNineTaken,
    /// Two records for one channel are taken.
    ChannelsTwoForOneTaken,
    /// More held than the pool is taken.
    ChannelsMoreHeldTaken,
    /// No record at all is 12.
    ChannelsNoneRefused,
    /// A record in Wait is 12 while the pool has room: document 01, "can't arise".
    ChannelsWaitWithRoomRefused,
    /// A spacecraft beyond its limit is no 12.
    ChannelsSpacecraftUnjudged,
    /// A frame that is refused is told before 12 is judged.
    ChannelsFrameReadFirst,
    /// The channel of a frame is judged before all else.
    ChannelsAddressFirst,
    /// A release or a word that names a channel without a record is 12.
    ChannelsAbsentIsSetting,
    /// The control word of such a channel is written as zeros.
    ChannelsAbsentWordZero,
    /// The room for a control word is judged before its channel.
    ChannelsRoomBeforeAddress,
    /// The channel that is named is cut to six bits.
    ChannelsNumberCut,
    /// A frame with a bad command is told as an event of its channel.
    ChannelsBadCommandTold,
    /// A BD unit is dropped where the pool has no room.
    ChannelsBdReadsPool,
    /// An expected frame in Lockout takes a buffer.
    ChannelsLockoutTakesBuffer,
    /// Unlock in Wait gives a buffer back.
    ChannelsUnlockGivesBack,
    /// A last line without a newline is dropped.
    ProgramLastLineDropped,
    /// A line is taken in pieces of 64 octets, each answered as a line. A limit of 64
    /// for that of 63 octets could not be seen: no good line has more than 13.
    ProgramSixtyFour,
    /// The sender queues and never sends a unit (document 01, Promises).
    FopNeverSends,
    /// The sender never resends: no frame is marked (clause 7.9.2.11).
    FopNeverResends,
    /// Transmit type-AD frame starts no timer (clause 7.9.2.6).
    FopNoTimer,
    /// The run of confirmed units is one longer than the units acknowledged.
    FopConfirmsOneMore,
    /// NN(R), N(R) and V(S) are compared as plain numbers (clause 7.9.2.3).
    FopPlainNumbers,
    /// A unit waiting is sent before the frames to be retransmitted (figure 7-5).
    FopNewBeforeMarked,
    /// The window test of Look for FDU goes by the length of the Sent_Queue.
    FopWindowByLength,
    /// Look for FDU starts the timer when it resends (clause 7.2.2.9, not the actions).
    FopTimerOnResend,
    /// No Abort request is passed to the lower procedures (clause 7.9.2.11).
    FopNoAbort,
    /// The purge of the Sent_Queue denies no unit (clause 7.9.2.4).
    FopDeniesNone,
    /// A tick that is refused for want of room lowers the timer.
    FopRefusedTickCounts,
    /// The timer runs on where it is cancelled (clause 7.2.2.9).
    FopTimerRunsOn,
    /// Timeout_Type 1 is refused with 12: document 01 before document 02's order 9.
    FopTimeoutTypeOneRefused,
    /// A suspension clears the marks (clause 7.4.2.6, "not cleared or reset", for these two).
    FopSuspensionForgetsMarks,
    /// A suspension drops the unit that waits.
    FopSuspensionDropsWaiting,
    /// Resume looks for an FDU (clause 7.9.2.19, for these two).
    FopResumeLooksForFdu,
    /// Resume starts no timer.
    FopResumeStartsNoTimer,
    /// Resume leads to Active, whatever state was left (rows E32 to E34).
    FopResumesToActive,
    /// Terminate while suspended purges the queues (clause 7.4.2.6).
    FopTerminateEndsSuspension,
    /// A control word that comes while suspended confirms units (rows E2 and E6 in S6).
    FopConfirmsWhileSuspended,
    /// A unit that waits still waits after an alert (clause 7.9.2.14; a wrong account of units,
    /// document 02, order 11, for these four).
    LedgerKeepsWaiting,
    /// Units are confirmed twice.
    LedgerConfirmsTwice,
    /// One of the units denied is not told (clause 7.9.2.4).
    LedgerForgetsDenied,
    /// What becomes of a unit that waits is not told (clauses 7.9.2.5 and 7.9.2.16).
    LedgerWaitingUnanswered,
    /// The store is judged by the old K at Set K (document 02, order 7, for these five).
    StoreByOldK,
    /// The store is judged by the larger of both at Set K.
    StoreByLargerK,
    /// The store need not hold the unit that waits.
    StoreWithoutWaiting,
    /// The store is judged by K alone, though more units are outstanding.
    StoreByKAlone,
    /// Octets of the former layout are taken for a sender's state.
    FormerLayoutTaken,
    /// The octets of a suspended sender are taken for no state: before document 02's order 9.
    SuspendedStateRefused,
    /// Suspend_State 4 with units is taken for a state: S4 has none.
    SuspendedUnitsTaken,
    /// The recorder reaches one unit further back than NW.
    SessionRecorderOneMore,
    /// A frame stays whatever its type.
    SessionBdFrameStays,
    /// A word that stays is taken twice.
    SessionWordStaysTwice,
    /// Noise moves V(R).
    SessionNoiseMovesVr,
    /// Octets that the sender must refuse are taken for an invalid CLCW.
    SessionWordNoiseAlerts,
    /// A damaged frame is taken as it was sent.
    SessionDamagedFrameTaken,
    /// The octets behind a frame are part of its unit.
    SessionFillCounts,
    /// In S6 the AD frame that the receiver expects comes from an empty channel.
    SessionLateFrame,
}

/// The faults of the operations, by name.
pub const FAULTS: [(&str, Fault); 26] = [
    ("fill_zero", Fault::FillZero),
    ("randomizer_through", Fault::RandomizerThrough),
    ("randomizer_late", Fault::RandomizerLate),
    ("parity_plain", Fault::ParityPlain),
    ("filler_ignored", Fault::FillerIgnored),
    ("corrects_never", Fault::CorrectsNever),
    ("corrects_when_detecting", Fault::CorrectsWhenDetecting),
    ("corrects_filler", Fault::CorrectsFiller),
    ("corrects_one_place_off", Fault::CorrectsOnePlaceOff),
    (
        "corrected_parity_uncounted",
        Fault::CorrectedParityUncounted,
    ),
    ("mode_before_length", Fault::ModeBeforeLength),
    ("refuses_all", Fault::RefusesAll),
    ("start_exact", Fault::StartExact),
    ("start_two_errors", Fault::StartTwoErrors),
    ("place_off_by_eight", Fault::PlaceOffByEight),
    ("touches_all", Fault::TouchesAll),
    (
        "frame_number_of_type_b_taken",
        Fault::FrameNumberOfTypeBTaken,
    ),
    ("frame_number_of_ad_judged", Fault::FrameNumberOfAdJudged),
    ("frame_address_before_check", Fault::FrameAddressBeforeCheck),
    ("frame_refuses_all", Fault::FrameRefusesAll),
    ("frame_fill_seven", Fault::FrameFillSeven),
    ("frame_former_limit", Fault::FrameFormerLimit),
    ("unit_one_more", Fault::UnitOneMore),
    ("fecf_preset_zero", Fault::FecfPresetZero),
    ("clcw_spare_taken", Fault::ClcwSpareTaken),
    ("clcw_flag_at_neighbour", Fault::ClcwFlagAtNeighbour),
];

/// The faults of FARM-1 and its program, by name.
pub const PROGRAM_FAULTS: [(&str, Fault); 7] = [
    ("farm_plain_numbers", Fault::FarmPlainNumbers),
    ("farm_window_one_wider", Fault::FarmWindowOneWider),
    (
        "farm_release_clears_retransmit",
        Fault::FarmReleaseClearsRetransmit,
    ),
    ("farm_set_vr_leaves_lockout", Fault::FarmSetVrLeavesLockout),
    ("farm_counter_stuck", Fault::FarmCounterStuck),
    ("program_last_line_dropped", Fault::ProgramLastLineDropped),
    ("program_sixty_four", Fault::ProgramSixtyFour),
];

/// The faults of the receiver of several channels (document 02, order 8), by name.
pub const CHANNELS_FAULTS: [(&str, Fault); 26] = [
    (
        "channels_neighbour_written",
        Fault::ChannelsNeighbourWritten,
    ),
    (
        "channels_pool_counted_twice",
        Fault::ChannelsPoolCountedTwice,
    ),
    ("channels_pool_of_each", Fault::ChannelsPoolOfEach),
    (
        "channels_release_of_none_lowers",
        Fault::ChannelsReleaseOfNoneLowers,
    ),
    ("channels_release_opens_all", Fault::ChannelsReleaseOpensAll),
    ("channels_accepted_in_wait", Fault::ChannelsAcceptedInWait),
    (
        "channels_release_in_wait_refused",
        Fault::ChannelsReleaseInWaitRefused,
    ),
    (
        "channels_release_without_room",
        Fault::ChannelsReleaseWithoutRoom,
    ),
    (
        "channels_release_of_none_done",
        Fault::ChannelsReleaseOfNoneDone,
    ),
    (
        "channels_pool_limit_of_eight",
        Fault::ChannelsPoolLimitOfEight,
    ),
    ("channels_nine_taken", Fault::ChannelsNineTaken),
    ("channels_two_for_one_taken", Fault::ChannelsTwoForOneTaken),
    ("channels_more_held_taken", Fault::ChannelsMoreHeldTaken),
    ("channels_none_refused", Fault::ChannelsNoneRefused),
    (
        "channels_wait_with_room_refused",
        Fault::ChannelsWaitWithRoomRefused,
    ),
    (
        "channels_spacecraft_unjudged",
        Fault::ChannelsSpacecraftUnjudged,
    ),
    ("channels_frame_read_first", Fault::ChannelsFrameReadFirst),
    ("channels_address_first", Fault::ChannelsAddressFirst),
    ("channels_absent_is_setting", Fault::ChannelsAbsentIsSetting),
    ("channels_absent_word_zero", Fault::ChannelsAbsentWordZero),
    (
        "channels_room_before_address",
        Fault::ChannelsRoomBeforeAddress,
    ),
    ("channels_number_cut", Fault::ChannelsNumberCut),
    ("channels_bad_command_told", Fault::ChannelsBadCommandTold),
    ("channels_bd_reads_pool", Fault::ChannelsBdReadsPool),
    (
        "channels_lockout_takes_buffer",
        Fault::ChannelsLockoutTakesBuffer,
    ),
    ("channels_unlock_gives_back", Fault::ChannelsUnlockGivesBack),
];

/// The faults of FOP-1, by name.
pub const FOP_FAULTS: [(&str, Fault); 12] = [
    ("fop_never_sends", Fault::FopNeverSends),
    ("fop_never_resends", Fault::FopNeverResends),
    ("fop_no_timer", Fault::FopNoTimer),
    ("fop_confirms_one_more", Fault::FopConfirmsOneMore),
    ("fop_plain_numbers", Fault::FopPlainNumbers),
    ("fop_new_before_marked", Fault::FopNewBeforeMarked),
    ("fop_window_by_length", Fault::FopWindowByLength),
    ("fop_timer_on_resend", Fault::FopTimerOnResend),
    ("fop_no_abort", Fault::FopNoAbort),
    ("fop_denies_none", Fault::FopDeniesNone),
    ("fop_refused_tick_counts", Fault::FopRefusedTickCounts),
    ("fop_timer_runs_on", Fault::FopTimerRunsOn),
];

/// The faults of FOP-1's suspension (document 02, order 9), by name.
pub const SUSPENSION_FAULTS: [(&str, Fault); 8] = [
    (
        "fop_timeout_type_one_refused",
        Fault::FopTimeoutTypeOneRefused,
    ),
    (
        "fop_suspension_forgets_marks",
        Fault::FopSuspensionForgetsMarks,
    ),
    (
        "fop_suspension_drops_waiting",
        Fault::FopSuspensionDropsWaiting,
    ),
    ("fop_resume_looks_for_fdu", Fault::FopResumeLooksForFdu),
    ("fop_resume_starts_no_timer", Fault::FopResumeStartsNoTimer),
    ("fop_resumes_to_active", Fault::FopResumesToActive),
    (
        "fop_terminate_ends_suspension",
        Fault::FopTerminateEndsSuspension,
    ),
    (
        "fop_confirms_while_suspended",
        Fault::FopConfirmsWhileSuspended,
    ),
];

/// The faults of the account that a sender gives of its AD units (document 02, order 11), by name;
/// stand_in.rs has the senders.
pub const LEDGER_FAULTS: [(&str, Fault); 4] = [
    ("ledger_keeps_waiting", Fault::LedgerKeepsWaiting),
    ("ledger_confirms_twice", Fault::LedgerConfirmsTwice),
    ("ledger_forgets_denied", Fault::LedgerForgetsDenied),
    ("ledger_waiting_unanswered", Fault::LedgerWaitingUnanswered),
];

/// The faults of a sender's limits, its store and its state's octets, by name. No session has them: its
/// K stays, and its store suffices.
pub const STORE_FAULTS: [(&str, Fault); 8] = [
    ("fop_unit_one_more", Fault::UnitOneMore),
    ("store_by_old_k", Fault::StoreByOldK),
    ("store_by_larger_k", Fault::StoreByLargerK),
    ("store_without_waiting", Fault::StoreWithoutWaiting),
    ("store_by_k_alone", Fault::StoreByKAlone),
    ("former_layout_taken", Fault::FormerLayoutTaken),
    ("suspended_state_refused", Fault::SuspendedStateRefused),
    ("suspended_units_taken", Fault::SuspendedUnitsTaken),
];

/// Those of FOP-1 that break a pass, which a session must find too.
pub const PASS_FAULTS: [Fault; 2] = [Fault::FopNeverSends, Fault::FopTimerRunsOn];

/// Those of a suspension that lose what it keeps, which a session must find too.
pub const KEPT_FAULTS: [Fault; 2] = [
    Fault::FopSuspensionForgetsMarks,
    Fault::FopResumeLooksForFdu,
];

/// The faults of a session's channels, its recorder, its fill and its noise, by name.
pub const SESSION_FAULTS: [(&str, Fault); 8] = [
    ("session_recorder_one_more", Fault::SessionRecorderOneMore),
    ("session_bd_frame_stays", Fault::SessionBdFrameStays),
    ("session_word_stays_twice", Fault::SessionWordStaysTwice),
    ("session_noise_moves_v_r", Fault::SessionNoiseMovesVr),
    ("session_word_noise_alerts", Fault::SessionWordNoiseAlerts),
    (
        "session_damaged_frame_taken",
        Fault::SessionDamagedFrameTaken,
    ),
    ("session_fill_counts", Fault::SessionFillCounts),
    ("session_late_frame", Fault::SessionLateFrame),
];
