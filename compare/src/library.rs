//! The proved library's functions, each wrapped in a safe one. All lent memory is lent
//! mutable, so that an octet the library must not change can be compared afterwards.

use crate::call;
use crate::lending::{lend, lend_number, Lent};
use independent::clcw::{self, Report};
use independent::cltu;
use independent::codeblock;
use independent::fop1;
use independent::frame::{self, Content};
use independent::output::Written;

#[path = "../../bindings/rust/src/library.rs"]
mod c;

/// What a returned number holds before the call: no answer is so large, so that one
/// left unwritten is seen.
const UNWRITTEN: u64 = 0xDEAD_BEEF_DEAD_BEEF;
const UNWRITTEN_16: u16 = 0xDEAD;

/// The same where any octet can be an answer, but seldom this one.
const UNWRITTEN_8: u8 = 0xDE;

/// The arguments of those names, as the function is called with them: a fault can be made
/// of them (src/call.rs).
macro_rules! arguments {
    ($function:ident: $($name:ident),+) => {
        let [$($name),+] = call::arguments(
            stringify!($function),
            [$(stringify!($name)),+],
            [$($name),+],
        );
    };
}

pub fn codeblock_error_control(information: &mut [u8]) -> u8 {
    let information = lend(information);
    unsafe { c::pondreszi_codeblock_error_control(information.first(), information.len()) }
}

pub fn codeblock_judge(block: &mut [u8], mode: u32, information: &mut [u8]) -> codeblock::Judged {
    let (block, information) = (&lend(block), &lend(information));
    arguments!(pondreszi_codeblock_judge: block, information);
    arguments!(pondreszi_codeblock_judge: mode);
    let mut judged = codeblock::Judged {
        number: UNWRITTEN_8,
        corrected: UNWRITTEN_8,
    };
    judged.number = {
        let corrected = &lend_number(&mut judged.corrected);
        unsafe {
            c::pondreszi_codeblock_judge(
                block.first(),
                block.len(),
                mode,
                information.first(),
                information.len(),
                corrected.number(),
            )
        }
    };
    judged
}

pub fn randomizer_octet(place: u64) -> u8 {
    unsafe { c::pondreszi_randomizer_octet(place) }
}

/// Calls a function that tells a count of octets written.
fn written(call: impl FnOnce(*mut u64) -> u8) -> Written {
    let mut count = UNWRITTEN;
    let number = call(lend_number(&mut count).number());
    Written { number, count }
}

pub fn cltu_write(frame: &mut [u8], output: &mut [u8]) -> Written {
    let (frame, output) = (&lend(frame), &lend(output));
    arguments!(pondreszi_cltu_write: frame, output);
    written(|count| unsafe {
        c::pondreszi_cltu_write(
            frame.first(),
            frame.len(),
            output.first(),
            output.len(),
            count,
        )
    })
}

pub fn cltu_read(input: &mut [u8], mode: u32, output: &mut [u8]) -> cltu::Read {
    let (input, output) = (&lend(input), &lend(output));
    arguments!(pondreszi_cltu_read: input, output);
    arguments!(pondreszi_cltu_read: mode);
    let mut read = cltu::Read {
        number: UNWRITTEN_8,
        count: UNWRITTEN,
        place: UNWRITTEN,
        corrected: UNWRITTEN,
    };
    read.number = {
        let (count, place) = (&lend_number(&mut read.count), &lend_number(&mut read.place));
        let corrected = &lend_number(&mut read.corrected);
        arguments!(pondreszi_cltu_read: count, place, corrected);
        unsafe {
            c::pondreszi_cltu_read(
                input.first(),
                input.len(),
                mode,
                output.first(),
                output.len(),
                count.number(),
                place.number(),
                corrected.number(),
            )
        }
    };
    read
}

pub fn fecf(message: &mut [u8]) -> u16 {
    let message = lend(message);
    unsafe { c::pondreszi_fecf(message.first(), message.len()) }
}

/// Each content has its function.
pub fn frame_write(
    spacecraft: u32,
    channel: u32,
    content: &mut Content,
    output: &mut [u8],
) -> Written {
    let output = &lend(output);
    let address = [spacecraft, channel];
    written(|count| match content {
        Content::Ad { number, unit } => frame_write_ad(address, *number, unit, output, count),
        Content::Bd { unit } => frame_write_bd(address, unit, output, count),
        Content::Unlock => frame_write_unlock(address, output, count),
        Content::SetVr { value } => frame_write_set_vr(address, *value, output, count),
    })
}

fn frame_write_ad(
    [spacecraft, channel]: [u32; 2],
    number: u32,
    unit: &mut [u8],
    output: &Lent,
    count: *mut u64,
) -> u8 {
    let unit = &lend(unit);
    arguments!(pondreszi_frame_write_ad: spacecraft, channel, number);
    arguments!(pondreszi_frame_write_ad: unit, output);
    unsafe {
        c::pondreszi_frame_write_ad(
            spacecraft,
            channel,
            number,
            unit.first(),
            unit.len(),
            output.first(),
            output.len(),
            count,
        )
    }
}

fn frame_write_bd(
    [spacecraft, channel]: [u32; 2],
    unit: &mut [u8],
    output: &Lent,
    count: *mut u64,
) -> u8 {
    let unit = &lend(unit);
    arguments!(pondreszi_frame_write_bd: spacecraft, channel);
    arguments!(pondreszi_frame_write_bd: unit, output);
    unsafe {
        c::pondreszi_frame_write_bd(
            spacecraft,
            channel,
            unit.first(),
            unit.len(),
            output.first(),
            output.len(),
            count,
        )
    }
}

fn frame_write_unlock([spacecraft, channel]: [u32; 2], output: &Lent, count: *mut u64) -> u8 {
    arguments!(pondreszi_frame_write_unlock: spacecraft, channel);
    let (first, len) = (output.first(), output.len());
    unsafe { c::pondreszi_frame_write_unlock(spacecraft, channel, first, len, count) }
}

fn frame_write_set_vr(
    [spacecraft, channel]: [u32; 2],
    value: u32,
    output: &Lent,
    count: *mut u64,
) -> u8 {
    arguments!(pondreszi_frame_write_set_vr: spacecraft, channel, value);
    let (first, len) = (output.first(), output.len());
    unsafe { c::pondreszi_frame_write_set_vr(spacecraft, channel, value, first, len, count) }
}

pub fn frame_read(octets: &mut [u8], spacecraft: u32, channel: u32) -> frame::Read {
    let octets = lend(octets);
    arguments!(pondreszi_frame_read: spacecraft, channel);
    let mut read = frame::Read {
        number: UNWRITTEN_8,
        kind: UNWRITTEN_8,
        value: UNWRITTEN_8,
        total: UNWRITTEN_16,
        field: UNWRITTEN_16,
    };
    read.number = {
        let (kind, value) = (&lend_number(&mut read.kind), &lend_number(&mut read.value));
        let (total, field) = (&lend_number(&mut read.total), &lend_number(&mut read.field));
        arguments!(pondreszi_frame_read: kind, value);
        arguments!(pondreszi_frame_read: total, field);
        unsafe {
            c::pondreszi_frame_read(
                octets.first(),
                octets.len(),
                spacecraft,
                channel,
                kind.number(),
                value.number(),
                total.number(),
                field.number(),
            )
        }
    };
    read
}

pub fn clcw_write(word: &Report, output: &mut [u8]) -> Written {
    let output = lend(output);
    let (channel, counter, report) = (word.channel, word.counter, word.value);
    let (lockout, wait, retransmit) = (word.lockout, word.wait, word.retransmit);
    arguments!(pondreszi_clcw_write: channel, lockout, wait, retransmit, counter, report);
    written(|count| unsafe {
        c::pondreszi_clcw_write(
            channel,
            lockout,
            wait,
            retransmit,
            counter,
            report,
            output.first(),
            output.len(),
            count,
        )
    })
}

pub fn clcw_read(octets: &mut [u8], channel: u32) -> clcw::Read {
    let octets = lend(octets);
    arguments!(pondreszi_clcw_read: channel);
    let mut read = clcw::Read {
        number: UNWRITTEN_8,
        valid: UNWRITTEN_8,
        status: UNWRITTEN_8,
        rf: UNWRITTEN_8,
        flags: UNWRITTEN_8,
        counter: UNWRITTEN_8,
        report: UNWRITTEN_8,
    };
    read.number = {
        let (valid, status) = (
            &lend_number(&mut read.valid),
            &lend_number(&mut read.status),
        );
        let (rf, flags) = (&lend_number(&mut read.rf), &lend_number(&mut read.flags));
        let (counter, report) = (
            &lend_number(&mut read.counter),
            &lend_number(&mut read.report),
        );
        arguments!(pondreszi_clcw_read: valid, status, rf, flags, counter, report);
        unsafe {
            c::pondreszi_clcw_read(
                octets.first(),
                octets.len(),
                channel,
                valid.number(),
                status.number(),
                rf.number(),
                flags.number(),
                counter.number(),
                report.number(),
            )
        }
    };
    read
}

/// What the receiver says of a frame.
#[derive(Clone, Copy, PartialEq, Eq, Debug)]
pub struct Received {
    pub number: u8,
    /// The event of Table 7-9.
    pub event: u8,
    /// 0 none, 1 AD, 2 BD.
    pub unit: u8,
    /// The unit's first octet in the frame, and the octets that it has.
    pub first: u64,
    pub count: u64,
}

/// Before the call.
const NOTHING_WRITTEN: Received = Received {
    number: UNWRITTEN_8,
    event: UNWRITTEN_8,
    unit: UNWRITTEN_8,
    first: UNWRITTEN,
    count: UNWRITTEN,
};

pub fn receiver_new(
    spacecraft: u32,
    channel: u32,
    [window, vr, buffers]: [u32; 3],
    state: &mut [u8],
) -> u8 {
    let state = lend(state);
    arguments!(pondreszi_receiver_new: spacecraft, channel, window, vr, buffers);
    unsafe {
        c::pondreszi_receiver_new(
            spacecraft,
            channel,
            window,
            vr,
            buffers,
            state.first(),
            state.len(),
        )
    }
}

pub fn receiver_frame(state: &mut [u8], frame: &mut [u8]) -> Received {
    let (state, frame) = (&lend(state), &lend(frame));
    arguments!(pondreszi_receiver_frame: state, frame);
    let mut received = NOTHING_WRITTEN;
    received.number = {
        let event = &lend_number(&mut received.event);
        let unit = &lend_number(&mut received.unit);
        let first = &lend_number(&mut received.first);
        let count = &lend_number(&mut received.count);
        arguments!(pondreszi_receiver_frame: event, unit);
        arguments!(pondreszi_receiver_frame: first, count);
        unsafe {
            c::pondreszi_receiver_frame(
                state.first(),
                state.len(),
                frame.first(),
                frame.len(),
                event.number(),
                unit.number(),
                first.number(),
                count.number(),
            )
        }
    };
    received
}

/// The number, and the event.
pub fn receiver_release(state: &mut [u8]) -> (u8, u8) {
    let state = lend(state);
    let mut event = UNWRITTEN_8;
    let number = unsafe {
        c::pondreszi_receiver_release(state.first(), state.len(), lend_number(&mut event).number())
    };
    (number, event)
}

pub fn receiver_word(state: &mut [u8], output: &mut [u8]) -> Written {
    let (state, output) = (&lend(state), &lend(output));
    arguments!(pondreszi_receiver_word: state, output);
    written(|count| unsafe {
        c::pondreszi_receiver_word(
            state.first(),
            state.len(),
            output.first(),
            output.len(),
            count,
        )
    })
}

/// What the receiver of several channels says of a frame.
#[derive(Clone, Copy, PartialEq, Eq, Debug)]
pub struct ReceivedOn {
    /// The channel that the event is of; 0 for none too.
    pub channel: u8,
    pub received: Received,
}

/// What is lent to a receiver of several channels by value: its spacecraft and its pool.
pub type Shared = [u32; 2];

pub fn channel_new([channel, window, vr]: [u32; 3], octets: &mut [u8]) -> u8 {
    let octets = lend(octets);
    arguments!(pondreszi_channel_new: channel, window, vr);
    unsafe { c::pondreszi_channel_new(channel, window, vr, octets.first(), octets.len()) }
}

pub fn channels_frame(
    [spacecraft, pool]: Shared,
    table: &mut [u8],
    frame: &mut [u8],
) -> ReceivedOn {
    let (table, frame) = (&lend(table), &lend(frame));
    arguments!(pondreszi_channels_frame: spacecraft, pool);
    arguments!(pondreszi_channels_frame: table, frame);
    let mut on = ReceivedOn {
        channel: UNWRITTEN_8,
        received: NOTHING_WRITTEN,
    };
    let received = &mut on.received;
    received.number = {
        let event = &lend_number(&mut received.event);
        let channel = &lend_number(&mut on.channel);
        let unit = &lend_number(&mut received.unit);
        let first = &lend_number(&mut received.first);
        let count = &lend_number(&mut received.count);
        arguments!(pondreszi_channels_frame: event, channel, unit);
        arguments!(pondreszi_channels_frame: first, count);
        unsafe {
            c::pondreszi_channels_frame(
                spacecraft,
                pool,
                table.first(),
                table.len(),
                frame.first(),
                frame.len(),
                event.number(),
                channel.number(),
                unit.number(),
                first.number(),
                count.number(),
            )
        }
    };
    on
}

/// The number, and the event.
pub fn channels_release([spacecraft, pool]: Shared, table: &mut [u8], channel: u32) -> (u8, u8) {
    let table = lend(table);
    arguments!(pondreszi_channels_release: spacecraft, pool, channel);
    let mut event = UNWRITTEN_8;
    let number = unsafe {
        c::pondreszi_channels_release(
            spacecraft,
            pool,
            table.first(),
            table.len(),
            channel,
            lend_number(&mut event).number(),
        )
    };
    (number, event)
}

pub fn channels_word(
    [spacecraft, pool]: Shared,
    table: &mut [u8],
    channel: u32,
    output: &mut [u8],
) -> Written {
    let (table, output) = (&lend(table), &lend(output));
    arguments!(pondreszi_channels_word: spacecraft, pool, channel);
    arguments!(pondreszi_channels_word: table, output);
    written(|count| unsafe {
        c::pondreszi_channels_word(
            spacecraft,
            pool,
            table.first(),
            table.len(),
            channel,
            output.first(),
            output.len(),
            count,
        )
    })
}

/// What a new sender is given.
#[derive(Clone, Copy, PartialEq, Eq, Debug)]
pub struct SenderSettings {
    pub k: u32,
    pub t1_initial: u32,
    pub transmission_limit: u32,
    pub timeout_type: u32,
    pub spacecraft: u32,
    pub channel: u32,
    pub vs: u32,
    pub nnr: u32,
}

impl SenderSettings {
    /// The same for the independent sender.
    pub fn independent(&self) -> fop1::Settings {
        fop1::Settings {
            spacecraft: self.spacecraft as usize,
            channel: self.channel as usize,
            v_s: self.vs as usize,
            nn_r: self.nnr as usize,
            k: self.k as usize,
            t1_initial: self.t1_initial as usize,
            transmission_limit: self.transmission_limit as usize,
            timeout_type: self.timeout_type as usize,
        }
    }
}

pub fn sender_new(settings: &SenderSettings, store: &mut [u8], state: &mut [u8]) -> u8 {
    let (store, state) = (&lend(store), &lend(state));
    let SenderSettings {
        k,
        t1_initial,
        transmission_limit,
        timeout_type,
        spacecraft,
        channel,
        vs,
        nnr,
    } = *settings;
    arguments!(
        pondreszi_sender_new:
        k, t1_initial, transmission_limit, timeout_type, spacecraft, channel, vs, nnr
    );
    arguments!(pondreszi_sender_new: store, state);
    unsafe {
        c::pondreszi_sender_new(
            k,
            t1_initial,
            transmission_limit,
            timeout_type,
            spacecraft,
            channel,
            vs,
            nnr,
            store.first(),
            store.len(),
            state.first(),
            state.len(),
        )
    }
}

/// An event of the sender.
#[derive(Clone, PartialEq, Eq, Debug)]
pub enum SenderEvent {
    RequestAd(Vec<u8>),
    RequestBd(Vec<u8>),
    Directive { number: u32, value: u32 },
    Tick,
    LowerLayer(u32),
    ControlWord(Vec<u8>),
}

/// What is lent with it.
#[derive(Clone, PartialEq, Eq, Debug)]
pub struct SenderMemory {
    pub state: Vec<u8>,
    pub store: Vec<u8>,
    pub output: Vec<u8>,
    pub answer: Vec<u8>,
}

/// The buffers of an event: the state, the store, the output and the answer.
type EventBuffers<'a> = [&'a Lent<'a>; 4];

/// Each event has its function.
pub fn sender_event(event: &mut SenderEvent, memory: &mut SenderMemory) -> u8 {
    let (state, store) = (&lend(&mut memory.state), &lend(&mut memory.store));
    let (output, answer) = (&lend(&mut memory.output), &lend(&mut memory.answer));
    let buffers = [state, store, output, answer];
    match event {
        SenderEvent::RequestAd(unit) => sender_request_ad(buffers, unit),
        SenderEvent::RequestBd(unit) => sender_request_bd(buffers, unit),
        SenderEvent::Directive { number, value } => sender_directive(buffers, *number, *value),
        SenderEvent::Tick => sender_tick(buffers),
        SenderEvent::LowerLayer(number) => sender_lower_layer(buffers, *number),
        SenderEvent::ControlWord(word) => sender_control_word(buffers, word),
    }
}

/// Calls a function of an event that brings octets.
fn with_octets(
    function: c::SenderEventWithOctets,
    octets: &Lent,
    [state, store, output, answer]: EventBuffers,
) -> u8 {
    unsafe {
        function(
            state.first(),
            state.len(),
            octets.first(),
            octets.len(),
            store.first(),
            store.len(),
            output.first(),
            output.len(),
            answer.first(),
            answer.len(),
        )
    }
}

fn sender_request_ad([state, store, output, answer]: EventBuffers, unit: &mut [u8]) -> u8 {
    let unit = &lend(unit);
    arguments!(pondreszi_sender_request_ad: state, unit, store, output, answer);
    with_octets(
        c::pondreszi_sender_request_ad,
        unit,
        [state, store, output, answer],
    )
}

fn sender_request_bd([state, store, output, answer]: EventBuffers, unit: &mut [u8]) -> u8 {
    let unit = &lend(unit);
    arguments!(pondreszi_sender_request_bd: state, unit, store, output, answer);
    with_octets(
        c::pondreszi_sender_request_bd,
        unit,
        [state, store, output, answer],
    )
}

fn sender_control_word([state, store, output, answer]: EventBuffers, word: &mut [u8]) -> u8 {
    let word = &lend(word);
    arguments!(pondreszi_sender_control_word: state, word, store, output, answer);
    with_octets(
        c::pondreszi_sender_control_word,
        word,
        [state, store, output, answer],
    )
}

fn sender_directive([state, store, output, answer]: EventBuffers, number: u32, value: u32) -> u8 {
    arguments!(pondreszi_sender_directive: state, store, output, answer);
    arguments!(pondreszi_sender_directive: number, value);
    unsafe {
        c::pondreszi_sender_directive(
            state.first(),
            state.len(),
            number,
            value,
            store.first(),
            store.len(),
            output.first(),
            output.len(),
            answer.first(),
            answer.len(),
        )
    }
}

fn sender_tick([state, store, output, answer]: EventBuffers) -> u8 {
    arguments!(pondreszi_sender_tick: state, store, output, answer);
    unsafe {
        c::pondreszi_sender_tick(
            state.first(),
            state.len(),
            store.first(),
            store.len(),
            output.first(),
            output.len(),
            answer.first(),
            answer.len(),
        )
    }
}

fn sender_lower_layer([state, store, output, answer]: EventBuffers, number: u32) -> u8 {
    arguments!(pondreszi_sender_lower_layer: state, store, output, answer);
    arguments!(pondreszi_sender_lower_layer: number);
    unsafe {
        c::pondreszi_sender_lower_layer(
            state.first(),
            state.len(),
            number,
            store.first(),
            store.len(),
            output.first(),
            output.len(),
            answer.first(),
            answer.len(),
        )
    }
}
