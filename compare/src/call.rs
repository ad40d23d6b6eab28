//! Deliberate faults of a call of the library, as of a caller or a boundary that goes wrong:
//! two parameters of one type exchanged, or a number cut to 8 or 16 bits. Which ones there
//! are is read from the declarations of the library's functions, so that none is left out:
//! one that no call makes, or that makes no difference, is a fault not found.

use crate::lending::Lent;
use std::cell::RefCell;

/// The functions of the library, as the Rust crate declares them.
const DECLARATIONS: &str = include_str!("../../bindings/rust/src/library.rs");

/// What the names of the functions begin with.
const PREFIX: &str = "pondreszi_";

/// The type of a parameter that is a pointer to octets with their count: a buffer. Whether
/// the octets are const is no matter to a C caller.
const BUFFER: &str = "buffer";

/// The type of a number that is lent by value.
const NUMBER: &str = "u32";

#[derive(Clone, Copy)]
enum Wrong {
    /// The parameter is exchanged with this other one of its type.
    Swapped(&'static str),
    /// The number is cut to so many bits.
    Cut(u32),
}

#[derive(Clone, Copy)]
struct CallFault {
    function: &'static str,
    parameter: &'static str,
    wrong: Wrong,
}

thread_local! {
    static MADE: RefCell<Option<CallFault>> = const { RefCell::new(None) };
}

/// What a parameter can be: a number, or a buffer or number that is lent.
pub trait Argument: Sized {
    fn cut(self, _bits: u32) -> Self {
        self
    }
}

impl Argument for u32 {
    fn cut(self, bits: u32) -> u32 {
        self & ((1 << bits) - 1)
    }
}

impl Argument for &Lent<'_> {}

/// The arguments of those names, as the function is called with them where a fault is made.
pub fn arguments<T: Argument + Copy, const N: usize>(
    function: &str,
    names: [&str; N],
    mut arguments: [T; N],
) -> [T; N] {
    let place = |name| names.iter().position(|other| *other == name);
    let made = MADE.with_borrow(|made| *made);
    let made = made.filter(|made| made.function == function);
    let Some((made, one)) = made.and_then(|made| Some((made, place(made.parameter)?))) else {
        return arguments;
    };
    match made.wrong {
        Wrong::Cut(bits) => arguments[one] = arguments[one].cut(bits),
        Wrong::Swapped(other) => {
            if let Some(other) = place(other) {
                arguments.swap(one, other);
            }
        }
    }
    arguments
}

/// The name of a parameter and its type, a buffer's count left out.
fn parameters(list: &'static str) -> Vec<(&'static str, &'static str)> {
    let mut parameters: Vec<(&str, &str)> = Vec::new();
    for parameter in list.split(',') {
        let Some((name, kind)) = parameter.trim().split_once(": ") else {
            continue;
        };
        match parameters.last_mut() {
            Some(last) if name.ends_with("len") && last.1.starts_with('*') => last.1 = BUFFER,
            _ => parameters.push((name, kind)),
        }
    }
    parameters
}

/// Any two parameters of one type of each function, and each of its numbers.
fn all() -> Vec<CallFault> {
    let mut all = Vec::new();
    for declaration in DECLARATIONS.split("pub fn ").skip(1) {
        let (function, rest) = declaration.split_once('(').expect("parameters");
        let (list, _) = rest.split_once(')').expect("an end of the parameters");
        let parameters = parameters(list);
        for (place, (parameter, kind)) in parameters.iter().enumerate() {
            let same = parameters[place + 1..].iter().filter(|p| p.1 == *kind);
            let mut wrongs: Vec<Wrong> = same.map(|(other, _)| Wrong::Swapped(other)).collect();
            if *kind == NUMBER {
                wrongs.extend([Wrong::Cut(8), Wrong::Cut(16)]);
            }
            all.extend(wrongs.into_iter().map(|wrong| CallFault {
                function,
                parameter,
                wrong,
            }));
        }
    }
    all
}

fn name(fault: &CallFault) -> String {
    let function = fault.function.trim_start_matches(PREFIX);
    let parameter = fault.parameter;
    match fault.wrong {
        Wrong::Swapped(other) => format!("swapped_{function}_{parameter}_{other}"),
        Wrong::Cut(bits) => format!("cut_to_{bits}_{function}_{parameter}"),
    }
}

/// Whose function it is.
#[derive(Clone, Copy, PartialEq, Eq)]
pub enum Part {
    Receiver,
    /// The receiver of several channels.
    Channels,
    Sender,
    /// Coding, frames and control words.
    Operations,
}

fn part(fault: &CallFault) -> Part {
    match fault.function.trim_start_matches(PREFIX) {
        function if function.starts_with("receiver_") => Part::Receiver,
        function if function.starts_with("channel") => Part::Channels,
        function if function.starts_with("sender_") => Part::Sender,
        _ => Part::Operations,
    }
}

/// The names of the faults of a part.
pub fn names(of: Part) -> Vec<String> {
    let all = all();
    let of_part = all.iter().filter(|fault| part(fault) == of);
    of_part.map(name).collect()
}

/// From here on the fault of that name is made, if there is one.
pub fn make(wanted: &str) -> Option<()> {
    let fault = all().into_iter().find(|fault| name(fault) == wanted)?;
    MADE.set(Some(fault));
    Some(())
}
