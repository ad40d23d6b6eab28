#[cfg(feature = "alloc")]
use alloc::{boxed::Box, vec, vec::Vec};
use core::convert::Infallible;
use core::error::Error;
use core::fmt;
#[cfg(feature = "alloc")]
use core::mem;

use crate::frame::Kind;
use crate::layout::answer;
use crate::layout::sender::{FLAGS, K, MARKED, NNR, SENT, STATE, SUSPEND_STATE, TIMER, VS};
use crate::layout::sender_flag::UNIT_WAITS;
use crate::layout::NONE;
use crate::library;
use crate::numbered::{displayed_by_name, numbered};
use crate::refusal::judged;
use crate::store_need;
#[cfg(feature = "alloc")]
use crate::{store_octets, LARGEST_FRAME, LARGEST_K, SMALLEST_K};
use crate::{List, Refusal, Refused, ANSWER_OCTETS, LARGEST_RESPONSES, SENDER_STATE_OCTETS};

/// What a sender starts with.
#[derive(Clone, Copy, PartialEq, Eq, Debug)]
pub struct SenderSettings {
    /// FOP_Sliding_Window_Width K, 1 to 127, and at most PW of the receiver.
    pub k: u8,
    /// T1_Initial in ticks, at least 1.
    pub t1_initial: u16,
    /// Transmission_Limit, at least 1.
    pub transmission_limit: u8,
    /// Timeout_Type, 0 or 1: the number of a [`TimeoutType`].
    pub timeout_type: u8,
    /// The spacecraft, 0 to 1,023.
    pub spacecraft: u16,
    /// The virtual channel, 0 to 63.
    pub channel: u8,
    /// V(S), the number of the first AD unit.
    pub vs: u8,
    /// NN(R): give the same number as V(S). Where V(S) - NN(R) is K or more, AD units wait.
    pub nnr: u8,
}

numbered! {
    /// The states of table 7-8.
    SenderState {
        /// S1.
        Active = 1, "Active",
        /// S2.
        RetransmitWithoutWait = 2, "Retransmit without Wait",
        /// S3.
        RetransmitWithWait = 3, "Retransmit with Wait",
        /// S4: a control word is awaited.
        InitialisingWithoutBc = 4, "Initialising without BC Frame",
        /// S5: Unlock or Set V(R) was sent.
        InitialisingWithBc = 5, "Initialising with BC Frame",
        /// S6: no AD service; after a start, an alert or Terminate, or suspended
        /// ([`Sender::suspended`]).
        Initial = 6, "Initial",
    }
}

numbered! {
    /// What an expiry of the timer does at the transmission limit, and while a control word is
    /// awaited (S4) at any count. With a type-BC frame (S5) it is the alert at the limit with both.
    TimeoutType {
        /// [`Alert::T1`] ends the AD service.
        Alert = 0, "Alert",
        /// The AD service is suspended until [`Directive::Resume`].
        Suspend = 1, "Suspend",
    }
}

impl fmt::Display for SenderState {
    fn fmt(&self, f: &mut fmt::Formatter<'_>) -> fmt::Result {
        write!(f, "{} (S{})", self.name(), self.number())
    }
}

impl fmt::Display for Alert {
    fn fmt(&self, f: &mut fmt::Formatter<'_>) -> fmt::Result {
        write!(f, "Alert[{}]", self.name())
    }
}

displayed_by_name!(TimeoutType, LowerLayer, Response);

/// The directives of table 7-3.
///
/// Before a new sender begins, before `SetVs`, before every Initiate, and before a sender goes on
/// from a state that was kept: no AD or BC frame is under way any more, whoever handed it down; a
/// control word has come in that was made after that; and V(S) is, or by `SetVs` becomes, its
/// report value, or `InitiateWithSetVr` is used. Otherwise an old unit can be on board under the
/// number of a new one, and the new one be confirmed. docs/OPERATIONS.md, "Before the service
/// begins again", says why and how a ground station knows it.
#[derive(Clone, Copy, PartialEq, Eq, Debug)]
pub enum Directive {
    /// Initiate AD service without CLCW check.
    InitiateWithoutCheck,
    /// Initiate AD service with CLCW check.
    InitiateWithClcwCheck,
    /// Initiate AD service with Unlock.
    InitiateWithUnlock,
    /// Initiate AD service with Set V(R).
    InitiateWithSetVr(u8),
    /// Terminate AD service. While suspended it is accepted and changes nothing; an Initiate ends
    /// the suspension, with its units denied.
    Terminate,
    /// Resume AD service: back to the state that a suspension left, with its units, marks, numbers
    /// and count, and the timer started. No frame is handed down. Rejected where nothing is
    /// suspended.
    ///
    /// Where Transmission_Count stands at the limit the next expiry suspends again: set the limit
    /// before, if units are to be sent again. After [`Alert::Llif`] while suspended no unit is left, but
    /// the numbers of those denied still count in the window: resume and terminate at once, then go on
    /// as after an alert, or initiate with Set V(R).
    Resume,
    /// Set V(S), and NN(R) with it; in Initial only, and not while suspended.
    SetVs(u8),
    /// Set K, 1 to 127. The sender's store grows with it.
    SetK(u8),
    /// Set T1_Initial, at least 1.
    SetTimer(u16),
    /// Set Transmission_Limit, at least 1.
    SetTransmissionLimit(u8),
    /// Set Timeout_Type, 0 or 1: the number of a [`TimeoutType`].
    SetTimeoutType(u8),
}

/// The number of [`Directive::SetK`], which alone makes a sender's own store grow.
const SET_K: u32 = 8;

impl Directive {
    /// The directive's number and value.
    pub fn number_and_value(self) -> (u32, u32) {
        match self {
            Directive::InitiateWithoutCheck => (1, 0),
            Directive::InitiateWithClcwCheck => (2, 0),
            Directive::InitiateWithUnlock => (3, 0),
            Directive::InitiateWithSetVr(value) => (4, u32::from(value)),
            Directive::Terminate => (5, 0),
            Directive::Resume => (6, 0),
            Directive::SetVs(value) => (7, u32::from(value)),
            Directive::SetK(value) => (SET_K, u32::from(value)),
            Directive::SetTimer(value) => (9, u32::from(value)),
            Directive::SetTransmissionLimit(value) => (10, u32::from(value)),
            Directive::SetTimeoutType(value) => (11, u32::from(value)),
        }
    }
}

numbered! {
    /// What the lower layer says to a frame handed down. Until its accept, no further frame of
    /// that type comes.
    LowerLayer {
        /// It took the AD frame.
        AdAccept = 1, "AD_Accept",
        /// It did not: alert LLIF.
        AdReject = 2, "AD_Reject",
        /// It took the BC frame.
        BcAccept = 3, "BC_Accept",
        /// It did not: alert LLIF.
        BcReject = 4, "BC_Reject",
        /// It took the BD frame.
        BdAccept = 5, "BD_Accept",
        /// It did not: alert LLIF.
        BdReject = 6, "BD_Reject",
    }
}

numbered! {
    /// The responses of table 7-8 to requests and directives. What becomes of an AD unit later
    /// is told by the runs.
    Response {
        /// The AD unit got its number and was handed down.
        AcceptAd = 1, "Accept Response to Request to Transfer FDU (AD Service)",
        /// The AD unit was not taken, or was waiting and is dropped.
        RejectAd = 2, "Reject Response to Request to Transfer FDU (AD Service)",
        /// The lower layer took the BD frame.
        AcceptBd = 3, "Accept Response to Request to Transfer FDU (BD Service)",
        /// BD_Out_Flag is Not_Ready.
        RejectBd = 4, "Reject Response to Request to Transfer FDU (BD Service)",
        /// The directive is begun.
        AcceptDirective = 5, "Accept Response to Directive",
        /// The directive is not for this state, or invalid.
        RejectDirective = 6, "Reject Response to Directive",
        /// The directive is done: positive confirm.
        ConfirmDirective = 7, "Positive Confirm Response to Directive",
        /// The directive failed: negative confirm.
        DenyDirective = 8, "Negative Confirm Response to Directive",
    }
}

numbered! {
    /// Why the AD service ended (table 7-4). The units outstanding are denied, a unit that waits
    /// is rejected, the timer stops, and the sender is Initial. `Llif` can come while suspended too,
    /// and the suspension stays, with no unit left.
    Alert {
        /// Report value and flags contradict the state.
        Synch = 1, "synch",
        /// An invalid control word, or flags that cannot stand together.
        Clcw = 2, "CLCW",
        /// At a transmission limit of 1, a control word asked for retransmission.
        Limit = 3, "limit",
        /// NN(R): a report value that cannot be.
        Nnr = 4, "NN(R)",
        /// The receiver is locked out.
        Lockout = 5, "lockout",
        /// The timer expired ([`TimeoutType`]).
        T1 = 6, "T1",
        /// Terminate was asked.
        Term = 7, "term",
        /// The lower layer rejected a frame.
        Llif = 8, "LLIF",
    }
}

/// AD units whose numbers follow one another; 0 and 0 where there is none.
#[derive(Clone, Copy, PartialEq, Eq, Debug, Default)]
pub struct Run {
    /// The number of the first unit.
    pub first: u8,
    /// How many.
    pub count: u8,
}

impl Run {
    /// The numbers, counted modulo 256.
    ///
    /// ```
    /// let run = pondreszi::Run { first: 254, count: 3 };
    /// assert_eq!(run.numbers().collect::<Vec<u8>>(), [254, 255, 0]);
    /// ```
    pub fn numbers(self) -> impl Iterator<Item = u8> {
        (0..self.count).map(move |i| self.first.wrapping_add(i))
    }
}

/// An event of table 7-8 that comes from outside; [`Sender::event_into`] takes it.
#[derive(Clone, Copy, PartialEq, Eq, Debug)]
pub enum SenderEvent<'a> {
    /// A unit for the AD service: `Sender::request_ad`.
    RequestAd(&'a [u8]),
    /// A unit for the BD service: `Sender::request_bd`.
    RequestBd(&'a [u8]),
    /// A directive: `Sender::directive`.
    Directive(Directive),
    /// A directive by its number and value: `Sender::directive_raw`.
    DirectiveRaw(u32, u32),
    /// A tick of the clock: `Sender::tick`.
    Tick,
    /// What the lower layer says: `Sender::lower_layer`.
    LowerLayer(LowerLayer),
    /// A control word: `Sender::control_word`.
    ControlWord(&'a [u8]),
}

/// What holds a sender's store where nothing else is said. Without an allocator there is none.
#[cfg(feature = "alloc")]
type OwnStore = Box<[u8]>;
#[cfg(not(feature = "alloc"))]
type OwnStore = Infallible;

/// What holds the octets of a frame handed down where nothing else is said.
#[cfg(feature = "alloc")]
type OwnOctets = Vec<u8>;
#[cfg(not(feature = "alloc"))]
type OwnOctets = Infallible;

/// A frame that is handed down to the lower layer.
#[derive(Clone, PartialEq, Eq, Debug)]
#[non_exhaustive]
pub struct HandedDown<O = OwnOctets> {
    /// Its kind, which tells the accept or reject that answers it ([`Kind::accept`]).
    pub kind: Kind,
    /// Its octets, of [`Sender::event_into`] the front of the lent output.
    pub octets: O,
}

/// The answer to an event.
#[derive(Clone, PartialEq, Eq, Debug)]
#[non_exhaustive]
pub struct Answer<O = OwnOctets> {
    /// The row of table 7-8, 1 to 46 or 101 to 104; 0 where the event is none of them.
    pub event: u8,
    /// The next state.
    pub state: SenderState,
    /// The frame handed down, if any.
    pub frame: Option<HandedDown<O>>,
    /// The lower layer is to drop AD and BC frames that it still holds.
    pub abort: bool,
    /// The responses in their order.
    pub responses: List<Response, LARGEST_RESPONSES>,
    /// The alert, if any.
    pub alert: Option<Alert>,
    /// The Suspend notification: the AD service is suspended at this event.
    pub suspended: bool,
    /// The units accepted on board, as is now known.
    pub confirmed: Run,
    /// The units of which it will not be known.
    pub denied: Run,
}

impl<O> Answer<O> {
    /// The answer with what `hold` makes of the octets, of which it is told the count.
    fn of(octets: &[u8; ANSWER_OCTETS], hold: impl FnOnce(usize) -> Option<O>) -> Answer<O> {
        Answer {
            event: octets[answer::EVENT],
            state: match octets[answer::STATE] {
                // In an answer that is not written.
                NONE => SenderState::Initial,
                number => SenderState::from_number(number).expect("a state"),
            },
            frame: handed_down(octets, hold),
            abort: octets[answer::ABORT] != 0,
            responses: responses(octets),
            alert: match octets[answer::ALERT] {
                NONE => None,
                number => Some(Alert::from_number(number).expect("an alert")),
            },
            suspended: octets[answer::SUSPENDED] != 0,
            confirmed: Run {
                first: octets[answer::CONFIRMED_FIRST],
                count: octets[answer::CONFIRMED],
            },
            denied: Run {
                first: octets[answer::DENIED_FIRST],
                count: octets[answer::DENIED],
            },
        }
    }
}

fn handed_down<O>(
    octets: &[u8; ANSWER_OCTETS],
    hold: impl FnOnce(usize) -> Option<O>,
) -> Option<HandedDown<O>> {
    let kind = match octets[answer::KIND] {
        NONE => return None,
        number => Kind::from_number(number).expect("a kind of frame"),
    };
    let count = u16::from_be_bytes([octets[answer::FRAME], octets[answer::FRAME + 1]]);
    let octets = hold(count.into())?;
    Some(HandedDown { kind, octets })
}

fn responses(octets: &[u8; ANSWER_OCTETS]) -> List<Response, LARGEST_RESPONSES> {
    let count = usize::from(octets[answer::RESPONSES]);
    let numbers = octets[answer::FIRST_RESPONSE..][..count].iter();
    let response = |number: &u8| Response::from_number(*number).expect("a response");
    List::of(numbers.map(response), Response::AcceptAd)
}

/// An event that was refused, and so changed nothing. The answer tells the state, and of an
/// invalid directive the reject; it hands no frame down.
#[derive(Clone, PartialEq, Eq, Debug)]
#[non_exhaustive]
pub struct RefusedEvent {
    /// Why.
    pub refusal: Refusal,
    /// The answer.
    pub answer: Answer<Infallible>,
}

impl fmt::Display for RefusedEvent {
    fn fmt(&self, f: &mut fmt::Formatter<'_>) -> fmt::Result {
        self.refusal.fmt(f)
    }
}

impl Error for RefusedEvent {
    fn source(&self) -> Option<&(dyn Error + 'static)> {
        Some(&self.refusal)
    }
}

impl From<RefusedEvent> for Refused {
    fn from(refused: RefusedEvent) -> Refused {
        refused.refusal.into()
    }
}

/// FOP-1, the sender (table 7-8), with its store of units. With `alloc` the store is its own and as
/// long as K needs: it grows where K is set upwards. Without, the caller gives it
/// ([`Sender::new_with_store`]): any octets lent or owned, such as `&mut [u8]` or an array.
///
/// Frames handed down are in the answers; each wants an accept or reject of the lower layer
/// ([`LowerLayer`]) before the next of its type comes.
#[derive(Clone, PartialEq, Eq)]
pub struct Sender<S = OwnStore> {
    state: [u8; SENDER_STATE_OCTETS],
    store: S,
}

impl<S> fmt::Debug for Sender<S> {
    fn fmt(&self, f: &mut fmt::Formatter<'_>) -> fmt::Result {
        f.debug_struct("Sender")
            .field("state", &self.state())
            .field("vs", &self.vs())
            .field("nnr", &self.nnr())
            .field("timer", &self.timer())
            .field("suspended", &self.suspended())
            .field("sent", &self.sent())
            .field("waiting", &self.waiting())
            .finish_non_exhaustive()
    }
}

/// The buffers that every event lends, as pointers and lengths.
struct Lent {
    state: *mut u8,
    store: *mut u8,
    store_len: u64,
    output: *mut u8,
    output_len: u64,
    answer: *mut u8,
}

impl Lent {
    const STATE_LEN: u64 = SENDER_STATE_OCTETS as u64;
    const ANSWER_LEN: u64 = ANSWER_OCTETS as u64;

    unsafe fn event(&self, event: SenderEvent) -> u8 {
        match event {
            SenderEvent::RequestAd(unit) => self.octets(library::pondreszi_sender_request_ad, unit),
            SenderEvent::RequestBd(unit) => self.octets(library::pondreszi_sender_request_bd, unit),
            SenderEvent::ControlWord(word) => {
                self.octets(library::pondreszi_sender_control_word, word)
            }
            SenderEvent::Directive(directive) => {
                let (number, value) = directive.number_and_value();
                self.directive(number, value)
            }
            SenderEvent::DirectiveRaw(number, value) => self.directive(number, value),
            SenderEvent::Tick => self.tick(),
            SenderEvent::LowerLayer(said) => self.lower_layer(said),
        }
    }

    unsafe fn octets(&self, function: library::SenderEventWithOctets, octets: &[u8]) -> u8 {
        function(
            self.state,
            Lent::STATE_LEN,
            octets.as_ptr(),
            octets.len() as u64,
            self.store,
            self.store_len,
            self.output,
            self.output_len,
            self.answer,
            Lent::ANSWER_LEN,
        )
    }

    unsafe fn directive(&self, number: u32, value: u32) -> u8 {
        library::pondreszi_sender_directive(
            self.state,
            Lent::STATE_LEN,
            number,
            value,
            self.store,
            self.store_len,
            self.output,
            self.output_len,
            self.answer,
            Lent::ANSWER_LEN,
        )
    }

    unsafe fn tick(&self) -> u8 {
        library::pondreszi_sender_tick(
            self.state,
            Lent::STATE_LEN,
            self.store,
            self.store_len,
            self.output,
            self.output_len,
            self.answer,
            Lent::ANSWER_LEN,
        )
    }

    unsafe fn lower_layer(&self, said: LowerLayer) -> u8 {
        library::pondreszi_sender_lower_layer(
            self.state,
            Lent::STATE_LEN,
            said.number().into(),
            self.store,
            self.store_len,
            self.output,
            self.output_len,
            self.answer,
            Lent::ANSWER_LEN,
        )
    }
}

impl<S: AsRef<[u8]> + AsMut<[u8]>> Sender<S> {
    /// A sender at its start, with a store of at least [`store_octets`] for its K; `Room` where it
    /// is shorter. `Sender::new` makes the store itself.
    ///
    /// ```
    /// use pondreszi::{store_octets, Refusal, Sender, SenderSettings};
    /// let settings = SenderSettings {
    ///     k: 1, t1_initial: 50, transmission_limit: 3, timeout_type: 0,
    ///     spacecraft: 42, channel: 3, vs: 0, nnr: 0,
    /// };
    /// let mut store = [0; store_octets(1)];
    /// let sender = Sender::new_with_store(settings, &mut store[..])?;
    /// assert_eq!(sender.k(), 1);
    /// let wide = SenderSettings { k: 2, ..settings };
    /// let refused = Sender::new_with_store(wide, &mut store[..]).unwrap_err();
    /// assert_eq!(refused.refusal, Refusal::Room);
    /// # Ok::<(), pondreszi::Refused>(())
    /// ```
    ///
    /// [`store_octets`]: crate::store_octets
    pub fn new_with_store(settings: SenderSettings, store: S) -> Result<Sender<S>, Refused> {
        let mut state = [0; SENDER_STATE_OCTETS];
        let lent = store.as_ref();
        let number = unsafe {
            library::pondreszi_sender_new(
                settings.k.into(),
                settings.t1_initial.into(),
                settings.transmission_limit.into(),
                settings.timeout_type.into(),
                settings.spacecraft.into(),
                settings.channel.into(),
                settings.vs.into(),
                settings.nnr.into(),
                lent.as_ptr(),
                lent.len() as u64,
                state.as_mut_ptr(),
                state.len() as u64,
            )
        };
        judged(number)?;
        Ok(Sender { state, store })
    }

    /// A sender from octets and a store that were kept together; `Setting` where the octets
    /// are no state, `Room` where the store is shorter than they need ([`store_need`]). Of a store
    /// that is longer, the octets behind the need may be any: so a sender also gets a longer
    /// store, which begins with the octets of the one before, for a larger K.
    pub fn restore_with_store(octets: &[u8], store: S) -> Result<Sender<S>, Refused> {
        let Ok(state) = octets.try_into() else {
            return Err(Refusal::Setting.into());
        };
        let mut sender = Sender { state, store };
        // An empty control word is refused by every sender, and changes nothing: with
        // `Setting` where the octets are no state, otherwise with `Length`.
        let event = sender.event_into(SenderEvent::ControlWord(&[]), &mut []);
        let refused = event.map_err(|refused| refused.refusal);
        if refused == Err(Refusal::Setting) {
            return Err(Refusal::Setting.into());
        }
        if sender.store().len() < store_need(sender.k(), sender.sent()) {
            return Err(Refusal::Room.into());
        }
        Ok(sender)
    }

    /// The store of units. Its first [`store_need`] octets, by K and the units on the sent queue,
    /// are to be kept with the state.
    pub fn store(&self) -> &[u8] {
        self.store.as_ref()
    }

    /// An event, whose frame handed down, if any, is the front of the lent output. `Room` where
    /// output or store are shorter than the event needs: the output for any frame has
    /// [`LARGEST_FRAME`] octets. The store does not grow at Set K.
    ///
    /// ```
    /// use pondreszi::{store_octets, Directive, Sender, SenderEvent, SenderSettings};
    /// use pondreszi::LARGEST_FRAME;
    /// # let settings = SenderSettings {
    /// #     k: 1, t1_initial: 50, transmission_limit: 3, timeout_type: 0,
    /// #     spacecraft: 42, channel: 3, vs: 0, nnr: 0,
    /// # };
    /// let mut sender = Sender::new_with_store(settings, [0; store_octets(1)])?;
    /// let mut output = [0; LARGEST_FRAME];
    /// let initiate = SenderEvent::Directive(Directive::InitiateWithoutCheck);
    /// sender.event_into(initiate, &mut output)?;
    /// let answer = sender.event_into(SenderEvent::RequestAd(b"unit"), &mut output)?;
    /// let frame = answer.frame.expect("the window is open");
    /// assert_eq!((frame.octets.len(), &frame.octets[5..9]), (11, &b"unit"[..]));
    /// sender.event_into(SenderEvent::LowerLayer(frame.kind.accept()), &mut output)?;
    /// # Ok::<(), pondreszi::Refused>(())
    /// ```
    ///
    /// [`LARGEST_FRAME`]: crate::LARGEST_FRAME
    pub fn event_into<'o>(
        &mut self,
        event: SenderEvent<'_>,
        output: &'o mut [u8],
    ) -> Result<Answer<&'o [u8]>, RefusedEvent> {
        let octets = self.call(event, output)?;
        Ok(Answer::of(&octets, |count| Some(&output[..count])))
    }

    /// The octets of the answer to an event.
    fn call(
        &mut self,
        event: SenderEvent<'_>,
        output: &mut [u8],
    ) -> Result<[u8; ANSWER_OCTETS], RefusedEvent> {
        let mut octets = [0; ANSWER_OCTETS];
        let store = self.store.as_mut();
        let lent = Lent {
            state: self.state.as_mut_ptr(),
            store: store.as_mut_ptr(),
            store_len: store.len() as u64,
            output: output.as_mut_ptr(),
            output_len: output.len() as u64,
            answer: octets.as_mut_ptr(),
        };
        match judged(unsafe { lent.event(event) }) {
            Ok(()) => Ok(octets),
            Err(refusal) => Err(RefusedEvent {
                refusal,
                answer: Answer::of(&octets, |_| None),
            }),
        }
    }
}

#[cfg(feature = "alloc")]
impl Sender {
    /// A sender at its start: Initial, queues empty, flags Ready, timer stopped.
    ///
    /// ```
    /// use pondreszi::{Refusal, Sender, SenderSettings, SenderState};
    /// let settings = SenderSettings {
    ///     k: 10, t1_initial: 50, transmission_limit: 3, timeout_type: 0,
    ///     spacecraft: 42, channel: 3, vs: 0, nnr: 0,
    /// };
    /// assert_eq!(Sender::new(settings)?.state(), SenderState::Initial);
    /// let wide = SenderSettings { k: 128, ..settings };
    /// assert_eq!(Sender::new(wide).unwrap_err().refusal, Refusal::Setting);
    /// # Ok::<(), pondreszi::Refused>(())
    /// ```
    pub fn new(settings: SenderSettings) -> Result<Sender, Refused> {
        let store = vec![0; store_octets(settings.k)].into_boxed_slice();
        Sender::new_with_store(settings, store)
    }

    /// A sender from octets and a store that were kept together; `Setting` where the octets
    /// are no state, `Room` where the store is shorter than they need ([`store_need`]). Of a store
    /// that is longer, the octets behind the need may be any.
    ///
    /// Octets of the former layout, 88 of them with 1 in octet 1, are refused with `Setting`: their
    /// store has another stride.
    ///
    /// ```
    /// use pondreszi::{Refusal, Sender, SenderSettings};
    /// # let settings = SenderSettings {
    /// #     k: 10, t1_initial: 50, transmission_limit: 3, timeout_type: 0,
    /// #     spacecraft: 42, channel: 3, vs: 0, nnr: 0,
    /// # };
    /// let sender = Sender::new(settings)?;
    /// let mut kept = sender.octets().to_vec();
    /// assert_eq!(Sender::restore(&kept, sender.store().into())?, sender);
    /// kept[3] = 0;
    /// let refused = Sender::restore(&kept, sender.store().into()).unwrap_err();
    /// assert_eq!(refused.refusal, Refusal::Setting);
    /// # Ok::<(), pondreszi::Refused>(())
    /// ```
    pub fn restore(octets: &[u8], store: Box<[u8]>) -> Result<Sender, Refused> {
        Sender::restore_with_store(octets, store)
    }

    /// Makes the store long enough for a new K; its units stay.
    fn grow_store(&mut self, k: u8) {
        let need = store_need(k, self.sent());
        if self.store.len() < need {
            let mut store = mem::take(&mut self.store).into_vec();
            store.resize(need, 0);
            self.store = store.into_boxed_slice();
        }
    }

    /// A unit of 1 to 1,017 octets for the AD service: in sequence, and sent again until it is
    /// confirmed or denied.
    ///
    /// One unit can wait, for the window or the lower layer; its accept then comes with a
    /// later event. A further one is rejected.
    ///
    /// ```
    /// use pondreszi::{Directive, LowerLayer, Refusal, Response, Sender, SenderSettings};
    /// # let settings = SenderSettings {
    /// #     k: 10, t1_initial: 50, transmission_limit: 3, timeout_type: 0,
    /// #     spacecraft: 42, channel: 3, vs: 0, nnr: 0,
    /// # };
    /// let mut sender = Sender::new(settings)?;
    /// assert_eq!(sender.request_ad(b"early")?.responses, [Response::RejectAd]);
    /// sender.directive(Directive::InitiateWithoutCheck)?;
    /// assert_eq!(sender.request_ad(b"first")?.responses, [Response::AcceptAd]);
    /// assert!(sender.request_ad(b"second")?.responses.is_empty());
    /// assert_eq!(sender.request_ad(b"third")?.responses, [Response::RejectAd]);
    /// let answer = sender.lower_layer(LowerLayer::AdAccept)?;
    /// assert_eq!(answer.responses, [Response::AcceptAd]);
    /// assert!(answer.frame.is_some());
    /// assert_eq!(sender.request_ad(b"").unwrap_err().refusal, Refusal::Length);
    /// # Ok::<(), pondreszi::Refused>(())
    /// ```
    pub fn request_ad(&mut self, unit: &[u8]) -> Result<Answer, RefusedEvent> {
        self.event(SenderEvent::RequestAd(unit))
    }

    /// A unit of 1 to 1,017 octets for the BD service: sent once, in any state, never confirmed.
    ///
    /// ```
    /// use pondreszi::{LowerLayer, Response, Sender, SenderSettings};
    /// # let settings = SenderSettings {
    /// #     k: 10, t1_initial: 50, transmission_limit: 3, timeout_type: 0,
    /// #     spacecraft: 42, channel: 3, vs: 0, nnr: 0,
    /// # };
    /// let mut sender = Sender::new(settings)?;
    /// assert!(sender.request_bd(b"unit")?.frame.is_some());
    /// assert_eq!(sender.request_bd(b"unit")?.responses, [Response::RejectBd]);
    /// let answer = sender.lower_layer(LowerLayer::BdAccept)?;
    /// assert_eq!(answer.responses, [Response::AcceptBd]);
    /// # Ok::<(), pondreszi::Refused>(())
    /// ```
    pub fn request_bd(&mut self, unit: &[u8]) -> Result<Answer, RefusedEvent> {
        self.event(SenderEvent::RequestBd(unit))
    }

    /// A directive.
    ///
    /// ```
    /// use pondreszi::{Directive, Refusal, Response, Sender, SenderSettings, SenderState};
    /// # let settings = SenderSettings {
    /// #     k: 10, t1_initial: 50, transmission_limit: 3, timeout_type: 0,
    /// #     spacecraft: 42, channel: 3, vs: 0, nnr: 0,
    /// # };
    /// let mut sender = Sender::new(settings)?;
    /// let answer = sender.directive(Directive::InitiateWithUnlock)?;
    /// assert_eq!(answer.state, SenderState::InitialisingWithBc);
    /// assert_eq!(answer.frame.unwrap().octets.len(), 8);
    ///
    /// let refused = sender.directive(Directive::SetK(128)).unwrap_err();
    /// assert_eq!(refused.refusal, Refusal::Setting);
    /// assert_eq!(refused.answer.event, 40);
    /// assert_eq!(refused.answer.responses, [Response::RejectDirective]);
    /// # Ok::<(), pondreszi::Refused>(())
    /// ```
    pub fn directive(&mut self, directive: Directive) -> Result<Answer, RefusedEvent> {
        let (number, value) = directive.number_and_value();
        self.directive_raw(number, value)
    }

    /// A directive by its number, 1 to 11, and value. Any other number, or a value outside its
    /// limit, is the invalid directive: `Setting`, with the reject in the answer. Before Set K the
    /// store grows as far as the new K needs.
    ///
    /// ```
    /// use pondreszi::{Refusal, Sender, SenderSettings};
    /// # let settings = SenderSettings {
    /// #     k: 10, t1_initial: 50, transmission_limit: 3, timeout_type: 0,
    /// #     spacecraft: 42, channel: 3, vs: 0, nnr: 0,
    /// # };
    /// let mut sender = Sender::new(settings)?;
    /// sender.directive_raw(9, 65_535)?;
    /// assert_eq!(sender.directive_raw(9, 65_536).unwrap_err().refusal, Refusal::Setting);
    /// assert_eq!(sender.directive_raw(12, 0).unwrap_err().refusal, Refusal::Setting);
    /// # Ok::<(), pondreszi::Refused>(())
    /// ```
    pub fn directive_raw(&mut self, number: u32, value: u32) -> Result<Answer, RefusedEvent> {
        if let (SET_K, Ok(k @ SMALLEST_K..=LARGEST_K)) = (number, u8::try_from(value)) {
            self.grow_store(k);
        }
        self.event(SenderEvent::DirectiveRaw(number, value))
    }

    /// A tick of the clock that T1 is counted in: a running timer falls by one, and the tick
    /// that makes it 0 is its expiry.
    ///
    /// ```
    /// use pondreszi::{Alert, Directive, Sender, SenderSettings};
    /// # let settings = SenderSettings {
    /// #     k: 10, t1_initial: 50, transmission_limit: 3, timeout_type: 0,
    /// #     spacecraft: 42, channel: 3, vs: 0, nnr: 0,
    /// # };
    /// let mut sender = Sender::new(SenderSettings {
    ///     t1_initial: 2, transmission_limit: 1, ..settings
    /// })?;
    /// sender.directive(Directive::InitiateWithoutCheck)?;
    /// sender.request_ad(b"unit")?;
    /// assert_eq!(sender.tick()?.alert, None);
    /// let answer = sender.tick()?;
    /// assert_eq!(answer.alert, Some(Alert::T1));
    /// assert_eq!(answer.denied.count, 1);
    /// # Ok::<(), pondreszi::Refused>(())
    /// ```
    ///
    /// With Timeout_Type 1 the AD service is suspended instead, until Resume or an Initiate. Unless
    /// the lower layer rejects a frame meanwhile, no AD unit is sent, confirmed or denied from the
    /// suspension to its Resume, and control words are ignored. For a deep
    /// pass: the timer is short, units go up as often as the limit says, and once control words can
    /// come in the service is resumed to take them.
    ///
    /// ```
    /// use pondreszi::{Directive, Sender, SenderSettings, SenderState, TimeoutType};
    /// let mut sender = Sender::new(SenderSettings {
    ///     k: 10, t1_initial: 2, transmission_limit: 2,
    ///     timeout_type: TimeoutType::Suspend.number(),
    ///     spacecraft: 42, channel: 3, vs: 0, nnr: 0,
    /// })?;
    /// sender.directive(Directive::InitiateWithoutCheck)?;
    /// let first = sender.request_ad(b"unit")?.frame.unwrap();
    /// sender.lower_layer(first.kind.accept())?;
    /// sender.tick()?;
    /// let again = sender.tick()?.frame.unwrap();
    /// assert_eq!(again, first);
    /// sender.lower_layer(again.kind.accept())?;
    ///
    /// sender.tick()?;
    /// assert!(sender.tick()?.suspended);
    /// assert_eq!(sender.state(), SenderState::Initial);
    /// assert_eq!(sender.suspended(), Some(SenderState::Active));
    /// let word = [0x01, 0x0C, 0, 1];
    /// assert_eq!(sender.control_word(&word)?.confirmed.count, 0);
    /// sender.directive(Directive::Terminate)?;
    /// assert_eq!((sender.suspended(), sender.sent()), (Some(SenderState::Active), 1));
    ///
    /// assert_eq!(sender.directive(Directive::Resume)?.state, SenderState::Active);
    /// assert_eq!((sender.suspended(), sender.timer()), (None, Some(2)));
    /// assert_eq!(sender.control_word(&word)?.confirmed.count, 1);
    /// # Ok::<(), pondreszi::Refused>(())
    /// ```
    pub fn tick(&mut self) -> Result<Answer, RefusedEvent> {
        self.event(SenderEvent::Tick)
    }

    /// The lower layer's accept or reject of a frame handed down.
    ///
    /// ```
    /// use pondreszi::{Alert, LowerLayer, Sender, SenderSettings};
    /// # let settings = SenderSettings {
    /// #     k: 10, t1_initial: 50, transmission_limit: 3, timeout_type: 0,
    /// #     spacecraft: 42, channel: 3, vs: 0, nnr: 0,
    /// # };
    /// let mut sender = Sender::new(settings)?;
    /// sender.request_bd(b"unit")?;
    /// let answer = sender.lower_layer(LowerLayer::BdReject)?;
    /// assert_eq!(answer.alert, Some(Alert::Llif));
    /// # Ok::<(), pondreszi::Refused>(())
    /// ```
    pub fn lower_layer(&mut self, said: LowerLayer) -> Result<Answer, RefusedEvent> {
        self.event(SenderEvent::LowerLayer(said))
    }

    /// A control word from the receiver, any octets. An invalid one is an event, since it ends
    /// the AD service; `Length` where it is not of four octets, `Address` where it is another
    /// channel's.
    ///
    /// ```
    /// use pondreszi::{Alert, Directive, Refusal, Sender, SenderSettings};
    /// # let settings = SenderSettings {
    /// #     k: 10, t1_initial: 50, transmission_limit: 3, timeout_type: 0,
    /// #     spacecraft: 42, channel: 3, vs: 0, nnr: 0,
    /// # };
    /// let mut sender = Sender::new(settings)?;
    /// sender.directive(Directive::InitiateWithoutCheck)?;
    /// let other = [0x01, 0x10, 0, 0];
    /// assert_eq!(sender.control_word(&other).unwrap_err().refusal, Refusal::Address);
    /// let invalid = [0x81, 0x0C, 0, 0];
    /// assert_eq!(sender.control_word(&invalid)?.alert, Some(Alert::Clcw));
    /// # Ok::<(), pondreszi::Refused>(())
    /// ```
    pub fn control_word(&mut self, word: &[u8]) -> Result<Answer, RefusedEvent> {
        self.event(SenderEvent::ControlWord(word))
    }

    /// Room for any frame is lent, so that no event is short of it.
    fn event(&mut self, event: SenderEvent<'_>) -> Result<Answer, RefusedEvent> {
        let mut output = [0; LARGEST_FRAME];
        let octets = self.call(event, &mut output)?;
        Ok(Answer::of(&octets, |count| Some(output[..count].to_vec())))
    }
}

impl<S> Sender<S> {
    /// The state, to be kept over a reset together with the store.
    pub fn octets(&self) -> &[u8; SENDER_STATE_OCTETS] {
        &self.state
    }

    /// The state of table 7-8.
    pub fn state(&self) -> SenderState {
        SenderState::from_number(self.state[STATE]).expect("a sender has a state")
    }

    /// The state to which Resume leads, where the AD service is suspended.
    pub fn suspended(&self) -> Option<SenderState> {
        SenderState::from_number(self.state[SUSPEND_STATE])
    }

    /// V(S), the number that the next AD unit gets.
    pub fn vs(&self) -> u8 {
        self.state[VS]
    }

    /// NN(R), the number of the oldest AD unit not confirmed.
    pub fn nnr(&self) -> u8 {
        self.state[NNR]
    }

    /// The ticks left of the timer; none where it is stopped.
    pub fn timer(&self) -> Option<u16> {
        match u16::from_be_bytes([self.state[TIMER], self.state[TIMER + 1]]) {
            0 => None,
            ticks => Some(ticks),
        }
    }

    /// FOP_Sliding_Window_Width K.
    pub fn k(&self) -> u8 {
        self.state[K]
    }

    /// The units on the sent queue: sent, neither confirmed nor denied.
    pub fn sent(&self) -> u8 {
        self.state[SENT]
    }

    /// Those of them that are to be sent again, always the last ones.
    pub fn marked(&self) -> u8 {
        self.state[MARKED]
    }

    /// Whether a unit waits.
    pub fn waiting(&self) -> bool {
        self.state[FLAGS] & UNIT_WAITS != 0
    }
}
