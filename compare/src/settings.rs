//! What the words of the command line ask for.

use crate::call;
use independent::fault::Fault;
use std::fmt::Display;

pub struct Settings {
    /// So many inputs, events or runs.
    pub count: u64,
    pub seed: u64,
    pub fault: Fault,
}

/// Reads the words of a comparison that takes these faults; none where they are bad usage.
/// A fault of a call (src/call.rs) is taken by every comparison, and made here.
/// An option of this comparison alone is handed over with its value.
pub fn read(
    words: &[String],
    count: u64,
    faults: &[(&str, Fault)],
    mut own_option: impl FnMut(&str, &str) -> Option<()>,
) -> Option<Settings> {
    let mut settings = Settings {
        count,
        seed: 1,
        fault: Fault::None,
    };
    let mut words = words.iter();
    while let Some(word) = words.next() {
        match word.as_str() {
            "--seed" => settings.seed = words.next()?.parse().ok()?,
            "--fault" => {
                let name = words.next()?;
                match faults.iter().find(|fault| fault.0 == name) {
                    Some(fault) => settings.fault = fault.1,
                    None => call::make(name)?,
                }
            }
            option if option.starts_with("--") => own_option(option, words.next()?)?,
            count => settings.count = count.parse().ok()?,
        }
    }
    Some(settings)
}

/// Prints the names of faults, one to a line.
pub fn print_names<T: Display>(names: impl IntoIterator<Item = T>) {
    for name in names {
        println!("{name}");
    }
}
