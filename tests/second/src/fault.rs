//! Known faults, planted on purpose so that the comparison of the two
//! implementations can be tried. Each changes exactly one rule. The library
//! has none unless a program plants one at its start.

use std::env;
use std::sync::OnceLock;

/// The environment variable that the programs read once at their start.
pub const VARIABLE: &str = "SECOND_FAULT";

#[derive(Clone, Copy, Debug, PartialEq, Eq)]
pub enum Fault {
    /// Best estimate by largest base period first.
    BasePeriodFirst,
    /// The own readings are kept when another's frame is adopted.
    OwnReadings,
    /// An Ack of a box already heard is counted again.
    DoubledAck,
    /// The state is kept when a period ends undecided.
    OldEstimate,
    /// An update on the first tick.
    FirstTick,
    /// Both quorum numbers are smaller by one where boxes are counted.
    QuorumSmaller,
    /// Boxes heard are kept on entering a higher view.
    HeardKept,
    /// The command of the state before the update.
    CommandBefore,
    /// The law's divisions round toward zero.
    RoundToZero,
    /// Frames of a lower view are not ignored.
    LowerView,
    /// A division for each of the two sums of an update.
    TwoDivisions,
    /// States and e(j) are cut to 32 bits, not clamped.
    NotClamped,
    /// An absent reading counts.
    AbsentReading,
    /// A coefficient of 16,777,217 is taken.
    CoefficientBeyond,
    /// Coefficients beyond m are looked at.
    PlacesBeyond,
    /// Equal limits are refused.
    EqualLimits,
    /// Limits are looked at before coefficients.
    LimitsFirst,
    /// Every command is brought into the first one's limits.
    FirstLimits,
    /// A gap ahead of the readings' part is taken.
    Gap,
    /// Byte 3 is not looked at.
    ByteThree,
    /// The part count is not looked at.
    PartCount,
    /// Kind 5 is a kind with two parts.
    FifthKind,
    /// Bytes after a frame are taken.
    LongerFrame,
    /// Pairs are not looked at.
    Pairs,
    /// A mark at or above m is read.
    MarkBeyondRead,
    /// A value that is not 0 is read under an absent mark.
    AbsentValueRead,
    /// A mark at or above m is written.
    MarkBeyondWritten,
    /// A value that is not 0 is written under an absent mark.
    AbsentValueWritten,
    /// The state is read with its highest byte first.
    ByteOrder,
    /// A frame area of 68 bytes is taken.
    ShortArea,
    /// The area is looked at before n and m.
    AreaFirst,
    /// The bytes after a written frame become 0.
    BytesBehind,
    /// The header is written before a frame is refused by 8.
    RefusedHeader,
    /// Lent areas are looked at before settings: 5 comes before 1 to 4 and 18.
    AreasBeforeSettings,
    /// A tick's marks are looked at before its period: 7 comes before 6.
    MarksBeforePeriod,
    /// A tick's view is looked at before its marks: 12 comes before 7.
    ViewBeforeMarks,
    /// A frame's coordinator is looked at before its sender: 10 comes before 9.
    CoordinatorBeforeSender,
    /// A frame's bases are looked at before its coordinator: 11 comes before 10.
    BasesBeforeCoordinator,
    /// The grounds for ignoring a frame are looked at before 9 to 11.
    IgnoringBeforeRefusals,
    /// A give-up is refused by 12 before it is ignored.
    GiveUpRefused,
    /// A Decide that arrives is acknowledged.
    DecideAcknowledged,
    /// A proposer does not count itself as having acknowledged.
    ProposerNotCounted,
    /// The own base period is kept when another's frame is adopted.
    BasePeriodKept,
    /// Boxes above N are counted.
    BoxesAboveCounted,
    /// A single is rounded toward zero.
    SingleTowardZero,
    /// A negative subnormal gives 0, not −1.
    NegativeSubnormalZero,
    /// 32768.0 N is taken, as 2147483647.
    AboveRangeTaken,
    /// −32768.0 N counts as missing.
    LowestMissing,
    /// A single's exponent is read one too large.
    ExponentOffByOne,
    /// An infinity is taken, as the end of i32 on its side.
    InfinityTaken,
    /// A NaN is taken, as 0.
    NanTaken,
    /// A missing reading is converted to 0, and present.
    MissingPresent,
    /// 7 looks at the readings as they are handed, not converted.
    MarksUnconverted,
    /// The law's divisions round toward minus infinity, as they did before.
    FloorKept,
    /// Ties of the law's divisions go up, toward plus infinity.
    TiesUp,
    /// Ties of the law's divisions go away from zero.
    TiesAwayFromZero,
    /// The division in e(j) alone rounds toward minus infinity.
    FlooredPrediction,
    /// The update's division alone rounds toward minus infinity.
    FlooredUpdate,
    /// The command's division alone rounds toward minus infinity.
    FlooredCommand,
    /// Of the entries of one period the last given stands: the last with a
    /// command, else the last.
    LastGiven,
    /// An entry without a command stays where one with it is given later.
    WithoutCommandStays,
    /// Periods are written in falling order.
    FallingOrder,
    /// 61 periods are taken, written and read.
    SixtyFirstPeriod,
    /// The view stands one column to the left, written and read.
    ViewColumn,
    /// The hyphen stands in the first column of the first command, written
    /// and read.
    HyphenColumn,
    /// A number with needless zeros is read.
    NeedlessZeroRead,
    /// A page area of 4,379 bytes is taken.
    ShortPageArea,
    /// The page area is looked at before p: 13 comes before 2.
    PageAreaFirst,
    /// Periods are counted before the page area is looked at: 14 comes before
    /// 13.
    PeriodsBeforeArea,
    /// Periods are read in any order.
    AnyOrderRead,
    /// Anything is read behind the last command.
    SpacesBehindRead,
    /// A record with a box heard above N is taken.
    HeardAboveTaken,
    /// A record with a box heard at place 0 is taken.
    HeardZeroTaken,
    /// A record whose base view is above its view is taken.
    BaseViewAboveTaken,
    /// A record whose base period is above its period is taken.
    BasePeriodAboveTaken,
    /// A record whose best estimate has a base view above the view or a base
    /// period above the period is taken.
    BestBaseAboveTaken,
    /// A record with an absent value that is not 0 is taken.
    AbsentValueTaken,
    /// A record with a state from n on that is not 0 is taken.
    UnusedStateTaken,
    /// A record with a reading from m on that is not 0 is taken.
    UnusedReadingTaken,
    /// A record with a mark at or above m is taken.
    MarksBeyondTaken,
    /// A record with a best estimate that is absent and not all 0 is taken.
    AbsentBestTaken,
    /// A record with a best estimate of box 0, or of a box above N, is taken.
    BestBoxTaken,
    /// A record's version is not looked at.
    VersionUnread,
    /// A record with mode 2 is taken, as view change.
    SecondModeTaken,
    /// A record's settings are not looked at.
    RecordSettingsUnread,
    /// A missed tick keeps the state.
    MissedWithoutUpdate,
    /// There is one missed tick too few.
    MissedOneFewer,
    /// A missed count of 10,001 is taken.
    MissedBeyondTaken,
    /// A missed tick that 12 would refuse is left out, and the return goes on.
    MissedViewSkipped,
    /// A call that is ignored writes a record, with the next period.
    IgnoredRecorded,
    /// Lent areas are looked at before the record: 5 comes before 15.
    AreasBeforeRecord,
    /// The missed periods are looked at before the lent area: 16 comes before
    /// 5.
    MissedBeforeArea,
    /// A call writes the record of the replica before the step.
    RecordBeforeStep,
    /// The lengths are left alone by a call that is ignored.
    LengthsLeft,
    /// A box of the rig returns from its present replica, not from the record
    /// it stored last.
    PresentReturned,
    /// A box of the rig that has stored a record stores no other.
    SecondStoreDropped,
    /// An ask makes its step.
    AskSteps,
    /// The ticket of an ask that was ignored or refused can be committed, by
    /// which nothing changes.
    IgnoredCommitted,
    /// A ticket that a newer ask or a step made void is committed all the
    /// same. Records with tickets have no place for what such a commit would
    /// need, so it shows where tickets are held by value.
    VoidTaken,
    /// A ticket is committed again.
    CommittedTwice,
    /// Tickets go on after a return; beside a record they count from 2.
    TicketsGoOn,
    /// An ask after the largest ticket keeps the earlier one open.
    LargestKeeps,
    /// A step that is ignored or refused voids the ticket.
    RefusedStepVoids,
    /// An ask that is ignored or refused keeps the earlier ticket open.
    RefusedAskKeeps,
    /// A step made does not void the ticket.
    StepKeeps,
    /// An ask gives the record of the replica before the step.
    UnsteppedRecord,
    /// A record area of 615 bytes is taken by an ask, and gets as many bytes
    /// of the record.
    ShortRecordTaken,
    /// While a ticket can be committed, any ticket is taken for it.
    LatestUnread,
    /// Bytes 619 to 623 of a replica with tickets are not looked at.
    TicketLayoutUnread,
    /// A replica with tickets whose ticket 0 can be committed is taken.
    OpenZeroTaken,
    /// What the step leaves of a ticket that can be committed is not looked at
    /// in a replica with tickets.
    PendingUnread,
    /// A command's byte 2 tells of the command's limits alone.
    OnlyCommandsMarked,
    /// A command's byte 2 tells of the update's clamps alone.
    OnlyUpdatesMarked,
    /// An e(j) of an absent reading, worked out with its value 0, marks where
    /// clamping would have changed it. The state is right.
    AbsentMarked,
    /// A command is marked also where the last one was that the same box
    /// issued. A replica has no place for that, so it shows in scripts.
    LastMarkKept,
    /// A command's byte 2 is always 0.
    MarksLeftZero,
    /// A command's byte 2 tells of the update of the box's last tick, not of
    /// the one that the command comes from. A replica has no place for that, so
    /// it shows in scripts.
    EstimatesUpdateMarked,
    /// A value that stands at a limit without being changed is marked too.
    AtLimitMarked,
    /// a and b are exchanged: deciding takes b, a take-over's proposal a.
    QuorumsExchanged,
    /// Quorums with a + b = N are taken.
    SumOfNTaken,
    /// b is counted without the own estimate. It is held among the boxes heard
    /// all the same.
    OwnEstimateNotCounted,
    /// a is counted without the coordinator itself. It is held among the boxes
    /// heard all the same.
    CoordinatorNotCounted,
    /// An a of 1 is taken where the rest allows it.
    QuorumOfOneTaken,
    /// An a above N is taken.
    QuorumAboveTaken,
    /// Quorums are looked at before limits: 18 comes before 4.
    QuorumsBeforeLimits,
    /// Quorums are not looked at in a step.
    QuorumsNotInStep,
    /// A record's byte 7 has a and b exchanged, written and read.
    RecordQuorumsExchanged,
    /// A record of version 1 is taken. With 0 as its byte 7, as that version
    /// had it, both numbers are the majority.
    FirstVersionTaken,
    /// Quorums on the rig's first line are read and not used: both stay the
    /// majority.
    QuorumsPresumed,
}

/// The faults that scripts must find, with their names in the environment
/// variable.
pub const NAMES: [(&str, Fault); 10] = [
    ("base_period_first", Fault::BasePeriodFirst),
    ("own_readings", Fault::OwnReadings),
    ("doubled_ack", Fault::DoubledAck),
    ("old_estimate", Fault::OldEstimate),
    ("first_tick", Fault::FirstTick),
    ("quorum_smaller", Fault::QuorumSmaller),
    ("heard_kept", Fault::HeardKept),
    ("command_before", Fault::CommandBefore),
    ("round_to_zero", Fault::RoundToZero),
    ("lower_view", Fault::LowerView),
];

/// The faults that law calls must find.
pub const LAW_NAMES: [(&str, Fault); 9] = [
    ("round_to_zero", Fault::RoundToZero),
    ("two_divisions", Fault::TwoDivisions),
    ("not_clamped", Fault::NotClamped),
    ("absent_reading", Fault::AbsentReading),
    ("coefficient_beyond", Fault::CoefficientBeyond),
    ("places_beyond", Fault::PlacesBeyond),
    ("equal_limits", Fault::EqualLimits),
    ("limits_first", Fault::LimitsFirst),
    ("first_limits", Fault::FirstLimits),
];

/// The faults that frames read and written must find.
pub const FRAME_NAMES: [(&str, Fault); 15] = [
    ("gap", Fault::Gap),
    ("byte_three", Fault::ByteThree),
    ("part_count", Fault::PartCount),
    ("fifth_kind", Fault::FifthKind),
    ("longer_frame", Fault::LongerFrame),
    ("pairs", Fault::Pairs),
    ("mark_beyond_read", Fault::MarkBeyondRead),
    ("absent_value_read", Fault::AbsentValueRead),
    ("mark_beyond_written", Fault::MarkBeyondWritten),
    ("absent_value_written", Fault::AbsentValueWritten),
    ("byte_order", Fault::ByteOrder),
    ("short_area", Fault::ShortArea),
    ("area_first", Fault::AreaFirst),
    ("bytes_behind", Fault::BytesBehind),
    ("refused_header", Fault::RefusedHeader),
];

/// The faults that steps on replicas handed in must find.
pub const STEP_NAMES: [(&str, Fault); 11] = [
    ("areas_before_settings", Fault::AreasBeforeSettings),
    ("marks_before_period", Fault::MarksBeforePeriod),
    ("view_before_marks", Fault::ViewBeforeMarks),
    ("coordinator_before_sender", Fault::CoordinatorBeforeSender),
    ("bases_before_coordinator", Fault::BasesBeforeCoordinator),
    ("ignoring_before_refusals", Fault::IgnoringBeforeRefusals),
    ("give_up_refused", Fault::GiveUpRefused),
    ("decide_acknowledged", Fault::DecideAcknowledged),
    ("proposer_not_counted", Fault::ProposerNotCounted),
    ("base_period_kept", Fault::BasePeriodKept),
    ("boxes_above_counted", Fault::BoxesAboveCounted),
];

/// The faults that conversions of readings and ticks with them must find.
pub const READING_NAMES: [(&str, Fault); 9] = [
    ("single_toward_zero", Fault::SingleTowardZero),
    ("negative_subnormal_zero", Fault::NegativeSubnormalZero),
    ("above_range_taken", Fault::AboveRangeTaken),
    ("lowest_missing", Fault::LowestMissing),
    ("exponent_off_by_one", Fault::ExponentOffByOne),
    ("infinity_taken", Fault::InfinityTaken),
    ("nan_taken", Fault::NanTaken),
    ("missing_present", Fault::MissingPresent),
    ("marks_unconverted", Fault::MarksUnconverted),
];

/// The faults of rounding that law calls and scripts must find.
pub const ROUNDING_NAMES: [(&str, Fault); 6] = [
    ("floor_kept", Fault::FloorKept),
    ("ties_up", Fault::TiesUp),
    ("ties_away_from_zero", Fault::TiesAwayFromZero),
    ("floored_prediction", Fault::FlooredPrediction),
    ("floored_update", Fault::FlooredUpdate),
    ("floored_command", Fault::FlooredCommand),
];

/// The faults that pages written and read must find.
pub const PAGE_NAMES: [(&str, Fault); 12] = [
    ("last_given", Fault::LastGiven),
    ("without_command_stays", Fault::WithoutCommandStays),
    ("falling_order", Fault::FallingOrder),
    ("sixty_first_period", Fault::SixtyFirstPeriod),
    ("view_column", Fault::ViewColumn),
    ("hyphen_column", Fault::HyphenColumn),
    ("needless_zero_read", Fault::NeedlessZeroRead),
    ("short_page_area", Fault::ShortPageArea),
    ("page_area_first", Fault::PageAreaFirst),
    ("periods_before_area", Fault::PeriodsBeforeArea),
    ("any_order_read", Fault::AnyOrderRead),
    ("spaces_behind_read", Fault::SpacesBehindRead),
];

/// The faults that records read and returned must find.
pub const RECORD_NAMES: [(&str, Fault); 18] = [
    ("heard_above_taken", Fault::HeardAboveTaken),
    ("heard_zero_taken", Fault::HeardZeroTaken),
    ("base_view_above_taken", Fault::BaseViewAboveTaken),
    ("base_period_above_taken", Fault::BasePeriodAboveTaken),
    ("best_base_above_taken", Fault::BestBaseAboveTaken),
    ("absent_value_taken", Fault::AbsentValueTaken),
    ("unused_state_taken", Fault::UnusedStateTaken),
    ("unused_reading_taken", Fault::UnusedReadingTaken),
    ("marks_beyond_taken", Fault::MarksBeyondTaken),
    ("absent_best_taken", Fault::AbsentBestTaken),
    ("best_box_taken", Fault::BestBoxTaken),
    ("version_unread", Fault::VersionUnread),
    ("second_mode_taken", Fault::SecondModeTaken),
    ("record_settings_unread", Fault::RecordSettingsUnread),
    ("missed_without_update", Fault::MissedWithoutUpdate),
    ("missed_one_fewer", Fault::MissedOneFewer),
    ("missed_beyond_taken", Fault::MissedBeyondTaken),
    ("missed_view_skipped", Fault::MissedViewSkipped),
];

/// The faults that calls on records must find.
pub const CALL_NAMES: [(&str, Fault); 5] = [
    ("ignored_recorded", Fault::IgnoredRecorded),
    ("areas_before_record", Fault::AreasBeforeRecord),
    ("missed_before_area", Fault::MissedBeforeArea),
    ("record_before_step", Fault::RecordBeforeStep),
    ("lengths_left", Fault::LengthsLeft),
];

/// The faults that scripts with `S` and `R` must find.
pub const STORE_NAMES: [(&str, Fault); 2] = [
    ("present_returned", Fault::PresentReturned),
    ("second_store_dropped", Fault::SecondStoreDropped),
];

/// The faults of tickets that scripts with `A`, `C` and `SA` must find.
pub const TICKET_NAMES: [(&str, Fault); 10] = [
    ("ask_steps", Fault::AskSteps),
    ("ignored_committed", Fault::IgnoredCommitted),
    ("void_taken", Fault::VoidTaken),
    ("committed_twice", Fault::CommittedTwice),
    ("tickets_go_on", Fault::TicketsGoOn),
    ("refused_step_voids", Fault::RefusedStepVoids),
    ("refused_ask_keeps", Fault::RefusedAskKeeps),
    ("step_keeps", Fault::StepKeeps),
    ("unstepped_record", Fault::UnsteppedRecord),
    ("latest_unread", Fault::LatestUnread),
];

/// The faults of tickets that only calls on replicas with tickets can find.
pub const TICKET_CALL_NAMES: [(&str, Fault); 5] = [
    ("largest_keeps", Fault::LargestKeeps),
    ("short_record_taken", Fault::ShortRecordTaken),
    ("ticket_layout_unread", Fault::TicketLayoutUnread),
    ("open_zero_taken", Fault::OpenZeroTaken),
    ("pending_unread", Fault::PendingUnread),
];

/// The faults of marks that scripts must find.
pub const MARK_NAMES: [(&str, Fault); 7] = [
    ("only_commands_marked", Fault::OnlyCommandsMarked),
    ("only_updates_marked", Fault::OnlyUpdatesMarked),
    ("absent_marked", Fault::AbsentMarked),
    ("last_mark_kept", Fault::LastMarkKept),
    ("marks_left_zero", Fault::MarksLeftZero),
    ("estimates_update_marked", Fault::EstimatesUpdateMarked),
    ("at_limit_marked", Fault::AtLimitMarked),
];

/// The faults of marks that law calls must find too.
pub const LAW_MARK_NAMES: [(&str, Fault); 2] = [
    ("absent_marked", Fault::AbsentMarked),
    ("at_limit_marked", Fault::AtLimitMarked),
];

/// The faults of quorums that scripts must find.
pub const QUORUM_NAMES: [(&str, Fault); 8] = [
    ("quorums_exchanged", Fault::QuorumsExchanged),
    ("sum_of_n_taken", Fault::SumOfNTaken),
    ("own_estimate_not_counted", Fault::OwnEstimateNotCounted),
    ("coordinator_not_counted", Fault::CoordinatorNotCounted),
    ("quorum_of_one_taken", Fault::QuorumOfOneTaken),
    ("quorum_above_taken", Fault::QuorumAboveTaken),
    ("quorums_before_limits", Fault::QuorumsBeforeLimits),
    ("quorums_presumed", Fault::QuorumsPresumed),
];

/// The faults of quorums that only steps on replicas handed in and records can
/// find.
pub const QUORUM_CALL_NAMES: [(&str, Fault); 3] = [
    ("quorums_not_in_step", Fault::QuorumsNotInStep),
    ("record_quorums_exchanged", Fault::RecordQuorumsExchanged),
    ("first_version_taken", Fault::FirstVersionTaken),
];

static PLANTED: OnceLock<Fault> = OnceLock::new();

/// Plants the fault that the environment names. Unset or empty: none. A name
/// that is no fault's is an error, so that a misspelt one cannot pass unseen.
pub fn plant_from_environment() -> Result<(), String> {
    let name = env::var_os(VARIABLE).unwrap_or_default();
    if name.is_empty() {
        return Ok(());
    }
    let of_calls = LAW_NAMES.iter().chain(&FRAME_NAMES).chain(&STEP_NAMES);
    let of_requests = READING_NAMES.iter().chain(&ROUNDING_NAMES);
    let of_requests = of_requests.chain(&PAGE_NAMES);
    let of_requests = of_requests.chain(&RECORD_NAMES).chain(&CALL_NAMES);
    let of_requests = of_requests.chain(&STORE_NAMES);
    let of_requests = of_requests.chain(&TICKET_NAMES).chain(&TICKET_CALL_NAMES);
    let of_requests = of_requests.chain(&MARK_NAMES).chain(&LAW_MARK_NAMES);
    let of_requests = of_requests.chain(&QUORUM_NAMES).chain(&QUORUM_CALL_NAMES);
    let mut known = NAMES.iter().chain(of_calls).chain(of_requests);
    let (_, fault) = known
        .find(|(known, _)| name == *known)
        .ok_or_else(|| format!("{VARIABLE}: no fault named {name:?}"))?;
    PLANTED.get_or_init(|| *fault);
    Ok(())
}

/// Whether this fault is the planted one.
pub fn planted(fault: Fault) -> bool {
    cfg!(feature = "faults") && PLANTED.get() == Some(&fault)
}
