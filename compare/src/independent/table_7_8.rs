//! Table 7-8, the FOP-1 state table, as data: a row for each event, a cell for each
//! state, each cell in the table's own words.

use Action::*;
use Reason::*;
use State::*;

/// The state (clause 7.2.2.2).
#[derive(Clone, Copy, PartialEq, Eq, PartialOrd, Ord, Debug)]
pub enum State {
    /// Active.
    S1,
    /// Retransmit without Wait.
    S2,
    /// Retransmit with Wait.
    S3,
    /// Initialising without BC Frame.
    S4,
    /// Initialising with BC Frame.
    S5,
    /// Initial.
    S6,
}

pub const STATES: [State; 6] = [S1, S2, S3, S4, S5, S6];

impl State {
    /// The State Number of Table 7-8.
    pub fn number(self) -> u8 {
        self as u8 + 1
    }
}

/// The reason of an Alert (Table 7-4).
#[derive(Clone, Copy, PartialEq, Eq, PartialOrd, Ord, Debug)]
pub enum Reason {
    Limit,
    T1,
    Lockout,
    Synch,
    NnR,
    Clcw,
    Llif,
    Term,
}

/// The words of the cells. What Accept, Reject and Confirm answer is said by the row.
#[derive(Clone, Copy, PartialEq, Eq, Debug)]
pub enum Action {
    Ignore,
    Accept,
    Reject,
    Confirm,
    Alert(Reason),
    /// Remove acknowledged frames from Sent_Queue.
    RemoveAcknowledged,
    /// Release copy of type BC frame.
    ReleaseBc,
    StartTimer,
    CancelTimer,
    LookForFdu,
    LookForDirective,
    InitiateAdRetransmission,
    InitiateBcRetransmission,
    AddToWaitQueue,
    /// Transmit User Data type BD frame.
    TransmitBd,
    Initialise,
    TransmitUnlock,
    TransmitSetVr,
    /// V(S) := the directive's value.
    VsBecomesValue,
    /// NN(R) := the directive's value.
    NnrBecomesValue,
    SetK,
    SetT1Initial,
    SetTransmissionLimit,
    SetTt,
    /// SS := the number.
    SsBecomes(u8),
    Suspend,
    Resume,
    /// IF SS=0 the first ELSE the second.
    IfSsZero(&'static [Action], &'static [Action]),
    AdOutReady,
    BcOutReady,
    BdOutReady,
}

/// A cell: its actions and its next state, or Not Applicable.
#[derive(Clone, Copy, PartialEq, Eq, Debug)]
pub enum Cell {
    NotApplicable,
    Do(&'static [Action], State),
}

pub struct Row {
    /// The Event Number, 1 for E1.
    pub event: u8,
    /// For S1 to S6.
    pub cells: [Cell; 6],
}

/// The cell of an event in a state.
pub fn cell(event: u8, state: State) -> Cell {
    for row in &TABLE {
        if row.event == event {
            return row.cells[state as usize];
        }
    }
    unreachable!("E{event} is no row")
}

const NA: Cell = Cell::NotApplicable;

const fn to(actions: &'static [Action], next: State) -> Cell {
    Cell::Do(actions, next)
}

const fn row(event: u8, cells: [Cell; 6]) -> Row {
    Row { event, cells }
}

const RESEND: &[Action] = &[InitiateAdRetransmission, LookForFdu];
const ACKNOWLEDGED: &[Action] = &[RemoveAcknowledged, LookForFdu];
const ALL_ACKNOWLEDGED: &[Action] = &[RemoveAcknowledged, CancelTimer, LookForFdu];
const ACKNOWLEDGED_RESEND: &[Action] = &[RemoveAcknowledged, InitiateAdRetransmission, LookForFdu];
const ACKNOWLEDGED_LIMIT: &[Action] = &[RemoveAcknowledged, Alert(Limit)];
const TERMINATE: &[Action] = &[Accept, Alert(Term), Confirm];
const SET_V_S: &[Action] = &[Accept, VsBecomesValue, NnrBecomesValue, Confirm];
const SET_V_R: &[Action] = &[
    Accept,
    Initialise,
    VsBecomesValue,
    NnrBecomesValue,
    TransmitSetVr,
];
const SET_K: &[Action] = &[Accept, SetK, Confirm];
const SET_T1: &[Action] = &[Accept, SetT1Initial, Confirm];
const SET_LIMIT: &[Action] = &[Accept, SetTransmissionLimit, Confirm];
const SET_TT: &[Action] = &[Accept, SetTt, Confirm];

#[rustfmt::skip]
pub static TABLE: [Row; 50] = [
    // A CLCW arrives, formed from a valid COP-1 pattern. Lockout Flag = 0.
    // N(R) = V(S). Retransmit Flag = 0, Wait Flag = 0. N(R) = NN(R).
    row(1, [to(&[Ignore], S1), to(&[Alert(Synch)], S6), to(&[Alert(Synch)], S6),
            to(&[Confirm, CancelTimer], S1), to(&[Confirm, ReleaseBc, CancelTimer], S1), to(&[Ignore], S6)]),
    // N(R) <> NN(R).
    row(2, [to(ALL_ACKNOWLEDGED, S1), to(ALL_ACKNOWLEDGED, S1), to(ALL_ACKNOWLEDGED, S1),
            NA, NA, to(&[Ignore], S6)]),
    // Wait Flag = 1.
    row(3, [to(&[Alert(Clcw)], S6), to(&[Alert(Clcw)], S6), to(&[Alert(Clcw)], S6),
            to(&[Alert(Clcw)], S6), to(&[Alert(Clcw)], S6), to(&[Ignore], S6)]),
    // Retransmit Flag = 1.
    row(4, [to(&[Alert(Synch)], S6), to(&[Alert(Synch)], S6), to(&[Alert(Synch)], S6),
            to(&[Alert(Synch)], S6), to(&[Ignore], S5), to(&[Ignore], S6)]),

    // N(R) < V(S) and N(R) >= NN(R). Retransmit Flag = 0, Wait Flag = 0. N(R) = NN(R).
    row(5, [to(&[Ignore], S1), to(&[Alert(Synch)], S6), to(&[Alert(Synch)], S6),
            NA, NA, to(&[Ignore], S6)]),
    // N(R) <> NN(R).
    row(6, [to(ACKNOWLEDGED, S1), to(ACKNOWLEDGED, S1), to(ACKNOWLEDGED, S1),
            NA, NA, to(&[Ignore], S6)]),
    // Wait Flag = 1.
    row(7, [to(&[Alert(Clcw)], S6), to(&[Alert(Clcw)], S6), to(&[Alert(Clcw)], S6),
            NA, NA, to(&[Ignore], S6)]),
    // Retransmit Flag = 1. Transmission_Limit = 1. N(R) <> NN(R).
    row(101, [to(ACKNOWLEDGED_LIMIT, S6), to(ACKNOWLEDGED_LIMIT, S6), to(ACKNOWLEDGED_LIMIT, S6),
              NA, NA, to(&[Ignore], S6)]),
    // N(R) = NN(R).
    row(102, [to(&[Alert(Limit)], S6), to(&[Alert(Limit)], S6), to(&[Alert(Limit)], S6),
              NA, NA, to(&[Ignore], S6)]),
    // Transmission_Limit > 1. N(R) <> NN(R). Wait Flag = 0.
    row(8, [to(ACKNOWLEDGED_RESEND, S2), to(ACKNOWLEDGED_RESEND, S2), to(ACKNOWLEDGED_RESEND, S2),
            NA, NA, to(&[Ignore], S6)]),
    // Wait Flag = 1.
    row(9, [to(&[RemoveAcknowledged], S3), to(&[RemoveAcknowledged], S3), to(&[RemoveAcknowledged], S3),
            NA, NA, to(&[Ignore], S6)]),
    // N(R) = NN(R). Transmission_Count < Transmission_Limit. Wait Flag = 0.
    row(10, [to(RESEND, S2), to(&[Ignore], S2), to(RESEND, S2),
             NA, NA, to(&[Ignore], S6)]),
    // Wait Flag = 1.
    row(11, [to(&[Ignore], S3), to(&[Ignore], S3), to(&[Ignore], S3),
             NA, NA, to(&[Ignore], S6)]),
    // Transmission_Count >= Transmission_Limit. Wait Flag = 0.
    row(12, [to(&[Ignore], S2), to(&[Ignore], S2), to(&[Ignore], S2),
             NA, NA, to(&[Ignore], S6)]),
    // Wait Flag = 1.
    row(103, [to(&[Ignore], S3), to(&[Ignore], S3), to(&[Ignore], S3),
              NA, NA, to(&[Ignore], S6)]),
    // Invalid N(R).
    row(13, [to(&[Alert(NnR)], S6), to(&[Alert(NnR)], S6), to(&[Alert(NnR)], S6),
             to(&[Alert(NnR)], S6), to(&[Ignore], S5), to(&[Ignore], S6)]),
    // Lockout Flag = 1.
    row(14, [to(&[Alert(Lockout)], S6), to(&[Alert(Lockout)], S6), to(&[Alert(Lockout)], S6),
             to(&[Alert(Lockout)], S6), to(&[Ignore], S5), to(&[Ignore], S6)]),
    // A CLCW arrives with a pattern of bits invalid under COP-1.
    row(15, [to(&[Alert(Clcw)], S6), to(&[Alert(Clcw)], S6), to(&[Alert(Clcw)], S6),
             to(&[Alert(Clcw)], S6), to(&[Alert(Clcw)], S6), to(&[Ignore], S6)]),

    // Timer expires. Transmission_Count < Transmission_Limit. TT = 0.
    row(16, [to(RESEND, S1), to(RESEND, S2), to(&[Ignore], S3),
             to(&[Alert(T1)], S6), to(&[InitiateBcRetransmission, LookForDirective], S5), NA]),
    // TT = 1.
    row(104, [to(RESEND, S1), to(RESEND, S2), to(&[Ignore], S3),
              to(&[SsBecomes(4), Suspend], S6), to(&[InitiateBcRetransmission, LookForDirective], S5), NA]),
    // Transmission_Count >= Transmission_Limit. TT = 0.
    row(17, [to(&[Alert(T1)], S6), to(&[Alert(T1)], S6), to(&[Alert(T1)], S6),
             to(&[Alert(T1)], S6), to(&[Alert(T1)], S6), NA]),
    // TT = 1.
    row(18, [to(&[SsBecomes(1), Suspend], S6), to(&[SsBecomes(2), Suspend], S6), to(&[SsBecomes(3), Suspend], S6),
             to(&[SsBecomes(4), Suspend], S6), to(&[Alert(T1)], S6), NA]),

    // Request to transfer FDU, AD Service. Wait_Queue empty.
    row(19, [to(&[AddToWaitQueue, LookForFdu], S1), to(&[AddToWaitQueue, LookForFdu], S2), to(&[AddToWaitQueue], S3),
             to(&[Reject], S4), to(&[Reject], S5), to(&[Reject], S6)]),
    // Wait_Queue not empty.
    row(20, [to(&[Reject], S1), to(&[Reject], S2), to(&[Reject], S3),
             to(&[Reject], S4), to(&[Reject], S5), to(&[Reject], S6)]),
    // BD Service. BD_Out_Flag = Ready.
    row(21, [to(&[TransmitBd], S1), to(&[TransmitBd], S2), to(&[TransmitBd], S3),
             to(&[TransmitBd], S4), to(&[TransmitBd], S5), to(&[TransmitBd], S6)]),
    // BD_Out_Flag = Not_Ready.
    row(22, [to(&[Reject], S1), to(&[Reject], S2), to(&[Reject], S3),
             to(&[Reject], S4), to(&[Reject], S5), to(&[Reject], S6)]),

    // Initiate AD Service (without CLCW check) Directive.
    row(23, [to(&[Reject], S1), to(&[Reject], S2), to(&[Reject], S3),
             to(&[Reject], S4), to(&[Reject], S5), to(&[Accept, Initialise, Confirm], S1)]),
    // Initiate AD Service (with CLCW check) Directive.
    row(24, [to(&[Reject], S1), to(&[Reject], S2), to(&[Reject], S3),
             to(&[Reject], S4), to(&[Reject], S5), to(&[Accept, Initialise, StartTimer], S4)]),
    // Initiate AD Service (with Unlock) Directive. BC_Out_Flag = Ready.
    row(25, [to(&[Reject], S1), to(&[Reject], S2), to(&[Reject], S3),
             to(&[Reject], S4), to(&[Reject], S5), to(&[Accept, Initialise, TransmitUnlock], S5)]),
    // BC_Out_Flag = Not_Ready.
    row(26, [to(&[Reject], S1), to(&[Reject], S2), to(&[Reject], S3),
             to(&[Reject], S4), to(&[Reject], S5), to(&[Reject], S6)]),
    // Initiate AD Service (with Set V(R)) Directive. BC_Out_Flag = Ready.
    row(27, [to(&[Reject], S1), to(&[Reject], S2), to(&[Reject], S3),
             to(&[Reject], S4), to(&[Reject], S5), to(SET_V_R, S5)]),
    // BC_Out_Flag = Not_Ready.
    row(28, [to(&[Reject], S1), to(&[Reject], S2), to(&[Reject], S3),
             to(&[Reject], S4), to(&[Reject], S5), to(&[Reject], S6)]),
    // Terminate AD Service Directive.
    row(29, [to(TERMINATE, S6), to(TERMINATE, S6), to(TERMINATE, S6),
             to(TERMINATE, S6), to(TERMINATE, S6), to(&[Accept, Confirm], S6)]),
    // Resume AD Service Directive. SS = 0.
    row(30, [to(&[Reject], S1), to(&[Reject], S2), to(&[Reject], S3),
             to(&[Reject], S4), to(&[Reject], S5), to(&[Reject], S6)]),
    // SS = 1.
    row(31, [NA, NA, NA, NA, NA, to(&[Accept, Resume, Confirm], S1)]),
    // SS = 2.
    row(32, [NA, NA, NA, NA, NA, to(&[Accept, Resume, Confirm], S2)]),
    // SS = 3.
    row(33, [NA, NA, NA, NA, NA, to(&[Accept, Resume, Confirm], S3)]),
    // SS = 4.
    row(34, [NA, NA, NA, NA, NA, to(&[Accept, Resume, Confirm], S4)]),
    // Set V(S) to V*(S) Directive.
    row(35, [to(&[Reject], S1), to(&[Reject], S2), to(&[Reject], S3),
             to(&[Reject], S4), to(&[Reject], S5), to(&[IfSsZero(SET_V_S, &[Reject])], S6)]),
    // Set FOP_Sliding_Window_Width Directive.
    row(36, [to(SET_K, S1), to(SET_K, S2), to(SET_K, S3), to(SET_K, S4), to(SET_K, S5), to(SET_K, S6)]),
    // Set T1_Initial Directive.
    row(37, [to(SET_T1, S1), to(SET_T1, S2), to(SET_T1, S3), to(SET_T1, S4), to(SET_T1, S5), to(SET_T1, S6)]),
    // Set Transmission_Limit Directive.
    row(38, [to(SET_LIMIT, S1), to(SET_LIMIT, S2), to(SET_LIMIT, S3),
             to(SET_LIMIT, S4), to(SET_LIMIT, S5), to(SET_LIMIT, S6)]),
    // Set Timeout_Type Directive.
    row(39, [to(SET_TT, S1), to(SET_TT, S2), to(SET_TT, S3), to(SET_TT, S4), to(SET_TT, S5), to(SET_TT, S6)]),
    // Invalid Directive.
    row(40, [to(&[Reject], S1), to(&[Reject], S2), to(&[Reject], S3),
             to(&[Reject], S4), to(&[Reject], S5), to(&[Reject], S6)]),

    // Responses from the lower layer: AD_Accept.
    row(41, [to(&[AdOutReady, LookForFdu], S1), to(&[AdOutReady, LookForFdu], S2), to(&[AdOutReady], S3),
             to(&[AdOutReady], S4), to(&[AdOutReady], S5), to(&[AdOutReady], S6)]),
    // AD_Reject.
    row(42, [to(&[Alert(Llif)], S6), to(&[Alert(Llif)], S6), to(&[Alert(Llif)], S6),
             to(&[Alert(Llif)], S6), to(&[Alert(Llif)], S6), to(&[Alert(Llif)], S6)]),
    // BC_Accept.
    row(43, [to(&[BcOutReady], S1), to(&[BcOutReady], S2), to(&[BcOutReady], S3),
             to(&[BcOutReady], S4), to(&[BcOutReady, LookForDirective], S5), to(&[BcOutReady], S6)]),
    // BC_Reject.
    row(44, [to(&[Alert(Llif)], S6), to(&[Alert(Llif)], S6), to(&[Alert(Llif)], S6),
             to(&[Alert(Llif)], S6), to(&[Alert(Llif)], S6), to(&[Alert(Llif)], S6)]),
    // BD_Accept.
    row(45, [to(&[BdOutReady, Accept], S1), to(&[BdOutReady, Accept], S2), to(&[BdOutReady, Accept], S3),
             to(&[BdOutReady, Accept], S4), to(&[BdOutReady, Accept], S5), to(&[BdOutReady, Accept], S6)]),
    // BD_Reject.
    row(46, [to(&[Alert(Llif)], S6), to(&[Alert(Llif)], S6), to(&[Alert(Llif)], S6),
             to(&[Alert(Llif)], S6), to(&[Alert(Llif)], S6), to(&[Alert(Llif)], S6)]),
];
