//! Measures the sender's events over K, the units' length, the units outstanding and the length of
//! the store that is lent:
//!
//!   bench_sender [--rounds]
//!
//! In each cycle a unit is requested and handed down, the lower layer accepts its frame, a control
//! word confirms the oldest unit, so that all others move, and a tick comes. So many units as a
//! row says are outstanding when the word comes. Before a row is measured the answers and frames
//! of 600 cycles must be those of the independent sender.
//!
//! It runs with a library of the former layout too, and then leaves out the rows that are beyond
//! its limits, so that both can be measured in turn. With --rounds every round is printed.

#[allow(dead_code)]
#[path = "../library.rs"]
mod library;
#[allow(dead_code)]
#[path = "../octets.rs"]
mod octets;
#[allow(dead_code)]
#[path = "../random.rs"]
mod random;

/// Lends memory as it is, in the place of ../lending.rs, which would be measured too.
mod lending {
    pub struct Lent<'a, T: ?Sized = [u8]>(&'a mut T);

    pub fn lend(octets: &mut [u8]) -> Lent<'_, [u8]> {
        Lent(octets)
    }

    pub fn lend_number<T>(number: &mut T) -> Lent<'_, T> {
        Lent(number)
    }

    impl Lent<'_, [u8]> {
        pub fn first(&self) -> *mut u8 {
            self.0.as_ptr().cast_mut()
        }

        pub fn len(&self) -> u64 {
            self.0.len() as u64
        }
    }

    impl<T> Lent<'_, T> {
        pub fn number(&self) -> *mut T {
            std::ptr::from_ref::<T>(self.0).cast_mut()
        }
    }
}

/// Makes no fault, in the place of ../call.rs.
mod call {
    pub fn arguments<T, const N: usize>(_: &str, _: [&str; N], arguments: [T; N]) -> [T; N] {
        arguments
    }
}

use std::hint::black_box;
use std::process::ExitCode;
use std::time::{Duration, Instant};

use independent::bits;
use independent::clcw::{self, Report};
use independent::fault::Fault;
use independent::fop1::{self, Sender, K_MOST, STORE, UNIT_MOST};
use independent::frame::FRAME_MOST;
use independent::refusal::DONE;
use library::{SenderEvent, SenderMemory, SenderSettings};
use octets::{ANSWER, SENDER_STATE};
use random::Random;

const ROUNDS: usize = 9;
const ROUND: Duration = Duration::from_millis(50);
const CHECKED: usize = 600;

const SPACECRAFT: u32 = 0x2A5;
const CHANNEL: u32 = 3;

/// The events of a cycle.
const EVENTS: usize = 4;
const NAMES: [&str; EVENTS] = ["AD request", "AD_Accept", "Word", "Tick"];

/// What a library takes.
#[derive(Clone, Copy)]
struct Limits {
    state: usize,
    k: usize,
    unit: usize,
    /// The store is needed whole, whatever K is.
    store: Option<usize>,
}

/// The limits of the former layout and of this one, by the number in octet 1 of a new state.
fn limits() -> Limits {
    let mut state = [0; 2 * SENDER_STATE];
    let number = library::sender_new(&settings(1), &mut [0; STORE], &mut state);
    assert!(number == DONE);
    match state[1] {
        1 => Limits {
            state: 88,
            k: 32,
            unit: 249,
            store: Some(33 * 249),
        },
        _ => Limits {
            state: SENDER_STATE,
            k: K_MOST,
            unit: UNIT_MOST,
            store: None,
        },
    }
}

fn settings(k: usize) -> SenderSettings {
    SenderSettings {
        k: k as u32,
        t1_initial: 65_535,
        transmission_limit: 3,
        timeout_type: 0,
        spacecraft: SPACECRAFT,
        channel: CHANNEL,
        vs: 0,
        nnr: 0,
    }
}

/// A row: K, the octets of a unit, the units outstanding, and whether the longest store is lent.
#[derive(Clone, Copy)]
struct Row {
    k: usize,
    unit: usize,
    outstanding: usize,
    longest: bool,
}

impl Row {
    fn store(&self, limits: &Limits) -> usize {
        match (self.longest, limits.store) {
            (true, _) => STORE,
            (false, Some(store)) => store,
            (false, None) => fop1::store(self.k, 0),
        }
    }

    fn within(&self, limits: &Limits) -> bool {
        self.k <= limits.k && self.unit <= limits.unit
    }
}

/// Few outstanding and all; at K 32 the longest store too.
fn rows() -> Vec<Row> {
    let mut rows = Vec::new();
    for k in [1, 32, K_MOST] {
        for unit in [1, 249, UNIT_MOST] {
            for outstanding in [2.min(k), k] {
                let row = Row {
                    k,
                    unit,
                    outstanding,
                    longest: false,
                };
                rows.push(row);
                if k == 32 {
                    let longest = true;
                    rows.push(Row { longest, ..row });
                }
            }
        }
    }
    rows.dedup_by_key(|row| (row.k, row.unit, row.outstanding, row.longest));
    rows
}

/// The control word with this report value.
fn word(value: u8) -> Vec<u8> {
    let report = Report {
        channel: CHANNEL,
        lockout: 0,
        wait: 0,
        retransmit: 0,
        counter: 0,
        value: value.into(),
    };
    bits::to_octets(&clcw::encode(&report, Fault::None))
}

fn request(number: u8, unit: usize) -> SenderEvent {
    SenderEvent::RequestAd(Random::new(number.into()).octets(unit))
}

/// The events of the cycle in which the unit of this number is requested.
fn cycle(number: u8, row: &Row) -> [SenderEvent; EVENTS] {
    let oldest = number.wrapping_sub(row.outstanding as u8 - 1);
    [
        request(number, row.unit),
        SenderEvent::LowerLayer(1),
        SenderEvent::ControlWord(word(oldest.wrapping_add(1))),
        SenderEvent::Tick,
    ]
}

/// Initiate, and the units that are outstanding before the first cycle.
fn before(row: &Row) -> Vec<SenderEvent> {
    let mut events = vec![SenderEvent::Directive {
        number: 1,
        value: 0,
    }];
    for number in 0..row.outstanding - 1 {
        events.extend([request(number as u8, row.unit), SenderEvent::LowerLayer(1)]);
    }
    events
}

/// The library's sender, with the cycles of each number.
struct Measured {
    row: Row,
    memory: SenderMemory,
    cycles: Vec<[SenderEvent; EVENTS]>,
    next: u8,
}

impl Measured {
    fn new(row: Row, limits: &Limits) -> Measured {
        Measured {
            row,
            memory: SenderMemory {
                state: vec![0; limits.state],
                store: vec![0; row.store(limits)],
                output: vec![0; FRAME_MOST],
                answer: vec![0; ANSWER],
            },
            cycles: (0..=255).map(|number| cycle(number, &row)).collect(),
            next: 0,
        }
    }

    fn start(&mut self) {
        let memory = &mut self.memory;
        memory.store.fill(0);
        let settings = settings(self.row.k);
        let number = library::sender_new(&settings, &mut memory.store, &mut memory.state);
        assert!(number == DONE);
        for mut event in before(&self.row) {
            assert!(library::sender_event(&mut event, memory) == DONE);
        }
        self.next = self.row.outstanding as u8 - 1;
    }

    /// The answers and frames are those of the independent sender.
    fn check(&mut self) {
        self.start();
        let mut sender = Sender::start(&settings(self.row.k).independent(), STORE).unwrap();
        for event in before(&self.row) {
            sender.take(&independent_event(&event), FRAME_MOST, Fault::None);
        }
        for _ in 0..CHECKED {
            for event in &mut self.cycles[self.next as usize] {
                assert!(library::sender_event(event, &mut self.memory) == DONE);
                let event = independent_event(event);
                let answer = sender.take(&event, FRAME_MOST, Fault::None);
                let frame = answer.frame.as_deref().unwrap_or(&[]);
                assert!(self.memory.answer == octets::answer(&answer));
                assert!(self.memory.output[..frame.len()] == *frame);
                let is_request = matches!(event, fop1::Event::AdRequest(_));
                assert!(frame.is_empty() != is_request);
                let is_word = matches!(event, fop1::Event::ControlWord(_));
                assert!(answer.confirmed.count == is_word as u8);
            }
            assert!(sender.outstanding() == self.row.outstanding - 1);
            self.next = self.next.wrapping_add(1);
        }
    }

    /// What each event took, less what the clock takes, in nanoseconds.
    fn round(&mut self, clock: f64) -> [f64; EVENTS] {
        self.start();
        let mut taken = [Duration::ZERO; EVENTS];
        let mut cycles = 0.0;
        let begin = Instant::now();
        while begin.elapsed() < ROUND {
            let events = black_box(&mut self.cycles[self.next as usize]);
            for (event, taken) in events.iter_mut().zip(&mut taken) {
                let start = Instant::now();
                black_box(library::sender_event(event, &mut self.memory));
                *taken += start.elapsed();
            }
            self.next = self.next.wrapping_add(1);
            cycles += 1.0;
        }
        taken.map(|taken| taken.as_nanos() as f64 / cycles - clock)
    }
}

fn independent_event(event: &SenderEvent) -> fop1::Event {
    match event {
        SenderEvent::RequestAd(unit) => fop1::Event::AdRequest(unit.clone()),
        SenderEvent::LowerLayer(_) => fop1::Event::AdAccept,
        SenderEvent::ControlWord(word) => fop1::Event::ControlWord(word.clone()),
        SenderEvent::Tick => fop1::Event::Tick,
        SenderEvent::Directive { number, value } => fop1::Event::Directive {
            number: *number as usize,
            value: *value as usize,
        },
        SenderEvent::RequestBd(_) => unreachable!("no cycle has a BD unit"),
    }
}

/// What two readings of the clock take, in nanoseconds.
fn clock() -> f64 {
    let mut taken = Duration::ZERO;
    let readings = 1_000_000;
    for _ in 0..readings {
        taken += black_box(Instant::now()).elapsed();
    }
    taken.as_nanos() as f64 / f64::from(readings)
}

/// The median, the lowest and the highest.
fn figure(mut rounds: Vec<f64>) -> String {
    rounds.sort_by(f64::total_cmp);
    let [median, lowest, highest] = [ROUNDS / 2, 0, ROUNDS - 1].map(|place| rounds[place]);
    format!("{median:.0} ({lowest:.0} to {highest:.0})")
}

fn print_row(row: &Row, store: usize, rounds: &[[f64; EVENTS]]) {
    let of_event = |event: usize| rounds.iter().map(|round| round[event]).collect();
    let figures: Vec<String> = (0..EVENTS).map(|event| figure(of_event(event))).collect();
    println!(
        "| {} | {} | {} | {store} | {} |",
        row.k,
        row.unit,
        row.outstanding,
        figures.join(" | ")
    );
}

fn main() -> ExitCode {
    let words: Vec<String> = std::env::args().skip(1).collect();
    let every_round = words == ["--rounds"];
    if !every_round && !words.is_empty() {
        eprintln!("usage: bench_sender [--rounds]");
        return ExitCode::from(2);
    }
    let limits = limits();
    let clock = clock();
    println!(
        "| K | Unit, octets | Outstanding | Store, octets | {}, ns |",
        NAMES.join(", ns | ")
    );
    println!("|---:|---:|---:|---:|{}", "---:|".repeat(EVENTS));
    let mut all = Vec::new();
    for row in rows().into_iter().filter(|row| row.within(&limits)) {
        let mut measured = Measured::new(row, &limits);
        measured.check();
        let rounds: Vec<[f64; EVENTS]> = (0..ROUNDS).map(|_| measured.round(clock)).collect();
        print_row(&row, row.store(&limits), &rounds);
        all.push((row, rounds));
    }
    println!();
    println!(
        "layout of {} octets; median of {ROUNDS} rounds of at least {} ms, and in brackets the lowest and the highest; {clock:.1} ns of the clock taken off",
        limits.state,
        ROUND.as_millis()
    );
    if every_round {
        for (row, rounds) in all {
            println!(
                "K {}, units of {}, {} outstanding",
                row.k, row.unit, row.outstanding
            );
            for round in rounds {
                println!("  {}", round.map(|taken| format!("{taken:.0}")).join(", "));
            }
        }
    }
    ExitCode::from(0)
}
