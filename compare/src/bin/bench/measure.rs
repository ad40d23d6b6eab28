//! Rounds of the sides of an operation, taken in turn.

use std::hint::black_box;
use std::time::{Duration, Instant};

use crate::random::Random;

/// So many rounds are taken, each of at least so long.
pub const ROUNDS: usize = 9;
pub const ROUND: Duration = Duration::from_millis(50);

/// The clock is read after so many operations.
const BATCH: u64 = 64;

/// Inputs taken in turn. One input alone would be foretold by the processor's branch
/// prediction, bit by bit.
const INPUTS: usize = 64;

/// So many operations of each side are compared first; the sequence numbers wrap twice.
const CHECKED: usize = 600;

/// One implementation of an operation, with its memory.
pub trait Side {
    /// Clears the memory that is written, and starts the state anew.
    fn clear(&mut self);
    fn operate(&mut self);

    fn batch(&mut self) {
        for _ in 0..BATCH {
            self.operate();
        }
    }
}

/// What one event took in each round of a side, in nanoseconds, in their order.
#[derive(Clone)]
pub struct Rounds {
    pub taken: Vec<f64>,
    sorted: Vec<f64>,
}

impl Rounds {
    fn new(taken: Vec<f64>) -> Rounds {
        let mut sorted = taken.clone();
        sorted.sort_by(f64::total_cmp);
        Rounds { taken, sorted }
    }

    pub fn median(&self) -> f64 {
        self.sorted[ROUNDS / 2]
    }

    pub fn lowest(&self) -> f64 {
        self.sorted[0]
    }

    pub fn highest(&self) -> f64 {
        self.sorted[ROUNDS - 1]
    }
}

/// The rounds of each side.
pub struct Row<const N: usize> {
    pub name: String,
    pub sides: [Rounds; N],
}

impl<const N: usize> Row<N> {
    /// Some of the sides.
    pub fn of<const M: usize>(&self, sides: [usize; M]) -> Row<M> {
        Row {
            name: self.name.clone(),
            sides: sides.map(|side| self.sides[side].clone()),
        }
    }

    pub fn medians(&self) -> [f64; N] {
        self.sides.each_ref().map(Rounds::median)
    }

    /// The highest round over the lowest, of the side where it is greatest.
    pub fn spread(&self) -> f64 {
        let spreads = self.sides.iter().map(|side| side.highest() / side.lowest());
        spreads.fold(1.0, f64::max)
    }
}

/// The time of one operation in one round.
fn round(side: &mut dyn Side) -> f64 {
    side.clear();
    let mut operations = 0;
    let start = Instant::now();
    loop {
        side.batch();
        operations += BATCH;
        let taken = start.elapsed();
        if taken >= ROUND {
            return taken.as_nanos() as f64 / operations as f64;
        }
    }
}

/// Measures the sides in turn; the one measured first changes at each round. An operation may
/// be several events; the figures are for one.
pub fn measure<const N: usize>(name: &str, events: usize, sides: [&mut dyn Side; N]) -> Row<N> {
    let mut taken = [(); N].map(|()| Vec::new());
    for number in 0..ROUNDS {
        for place in 0..N {
            let side = (number + place) % N;
            taken[side].push(round(sides[side]) / events as f64);
        }
    }
    Row {
        name: name.to_string(),
        sides: taken.map(Rounds::new),
    }
}

/// Checks that both sides answer alike, then measures them.
pub fn measure_both<L: Side, I: Side>(
    name: &str,
    events: usize,
    (mut library, mut independent): (L, I),
    alike: fn(&mut L, &mut I) -> bool,
) -> Row<2> {
    library.clear();
    independent.clear();
    for _ in 0..CHECKED {
        assert!(alike(&mut library, &mut independent), "{name}: not alike");
    }
    measure(name, events, [&mut library, &mut independent])
}

/// An operation that keeps no state and writes into a buffer, on each input in turn.
struct Stateless<T, F> {
    inputs: Vec<T>,
    next: usize,
    output: Vec<u8>,
    operation: F,
}

impl<T, F> Stateless<T, F> {
    fn answer<A>(&mut self) -> A
    where
        F: FnMut(&mut T, &mut [u8]) -> A,
    {
        let input = black_box(&mut self.inputs[self.next]);
        self.next = (self.next + 1) % INPUTS;
        (self.operation)(input, black_box(&mut self.output))
    }
}

impl<T, A, F: FnMut(&mut T, &mut [u8]) -> A> Side for Stateless<T, F> {
    fn clear(&mut self) {
        self.output.fill(0);
        self.next = 0;
    }

    fn operate(&mut self) {
        black_box(self.answer());
    }
}

/// A side whose answers can be compared: the operation's, the buffer and the inputs.
pub trait Answering<T, A>: Side {
    /// Answers the next input, from a clear buffer.
    fn answer_anew(&mut self) -> (A, &[u8], &[T]);
}

impl<T, A, F: FnMut(&mut T, &mut [u8]) -> A> Answering<T, A> for Stateless<T, F> {
    fn answer_anew(&mut self) -> (A, &[u8], &[T]) {
        self.output.fill(0);
        (self.answer(), &self.output, &self.inputs)
    }
}

/// A side of an operation that keeps no state.
pub fn side<T: Clone + 'static, A>(
    inputs: &[T],
    room: usize,
    operation: impl FnMut(&mut T, &mut [u8]) -> A + 'static,
) -> Box<dyn Answering<T, A>> {
    assert!(inputs.len() == INPUTS);
    Box::new(Stateless {
        inputs: inputs.to_vec(),
        next: 0,
        output: vec![0; room],
        operation,
    })
}

/// Checks that all sides answer alike.
pub fn check<T: PartialEq, A: PartialEq>(name: &str, sides: &mut [Box<dyn Answering<T, A>>]) {
    let (one, others) = sides.split_first_mut().unwrap();
    for _ in 0..CHECKED {
        let answer = one.answer_anew();
        for other in &mut *others {
            assert!(other.answer_anew() == answer, "{name}: not alike");
        }
    }
}

/// Checks that all sides answer alike, then measures them.
pub fn measure_all<T: PartialEq, A: PartialEq, const N: usize>(
    name: &str,
    mut sides: [Box<dyn Answering<T, A>>; N],
) -> Row<N> {
    check(name, &mut sides);
    measure(
        name,
        1,
        sides.each_mut().map(|side| &mut **side as &mut dyn Side),
    )
}

/// The same for a number on each side and in each run.
pub fn sample(seed: usize, length: usize) -> Vec<u8> {
    Random::new(seed as u64).octets(length)
}

pub fn samples<T>(make: impl FnMut(usize) -> T) -> Vec<T> {
    (0..INPUTS).map(make).collect()
}
