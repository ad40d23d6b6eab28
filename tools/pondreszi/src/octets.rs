//! Octets from standard input and for standard output, as hex digits or as they are.

use std::fmt::Write;
use std::io::{self, BufReader, Read};

use pondreszi::LARGEST_CLTU_INPUT;

use crate::ending::Ending;

/// The octets of standard input: 1 to 4,096 of them.
pub fn input(binary: bool) -> Result<Vec<u8>, Ending> {
    let input = io::stdin().lock();
    let octets = if binary {
        plain(input)?
    } else {
        of_hex(input)?
    };
    if octets.is_empty() {
        return Err(Ending::misuse("the input is empty."));
    }
    Ok(octets)
}

fn plain(input: impl Read) -> Result<Vec<u8>, Ending> {
    let mut octets = Vec::new();
    let most = LARGEST_CLTU_INPUT as u64 + 1;
    input.take(most).read_to_end(&mut octets).map_err(unread)?;
    if octets.len() > LARGEST_CLTU_INPUT {
        return Err(too_many());
    }
    Ok(octets)
}

/// Two digits an octet, of either case; white space counts for nothing. Reading ends as soon as
/// there are too many.
fn of_hex(input: impl Read) -> Result<Vec<u8>, Ending> {
    let mut octets = Vec::new();
    let mut high = None;
    for character in BufReader::new(input).bytes() {
        let character = character.map_err(unread)?;
        if character.is_ascii_whitespace() {
            continue;
        }
        let digit = digit(character)?;
        let Some(first) = high.take() else {
            high = Some(digit);
            continue;
        };
        if octets.len() == LARGEST_CLTU_INPUT {
            return Err(too_many());
        }
        octets.push(first * 16 + digit);
    }
    if high.is_some() {
        return Err(Ending::misuse("the input has an odd number of hex digits."));
    }
    Ok(octets)
}

fn digit(character: u8) -> Result<u8, Ending> {
    match char::from(character).to_digit(16) {
        Some(digit) => Ok(digit as u8),
        None => Err(Ending::misuse(&format!(
            "the input has '{}', which is no hex digit; for octets as they are say --binary.",
            character.escape_ascii()
        ))),
    }
}

fn too_many() -> Ending {
    Ending::misuse("the input has more than 4,096 octets.")
}

fn unread(error: io::Error) -> Ending {
    Ending::misuse(&format!("the standard input cannot be read: {error}."))
}

/// The octets for standard output.
pub fn output(octets: &[u8], binary: bool) -> Vec<u8> {
    if binary {
        return octets.to_vec();
    }
    let lines = octets.chunks(16).map(|line| hex(line) + "\n");
    lines.collect::<String>().into_bytes()
}

/// Octets in hex, parted by spaces.
pub fn hex(octets: &[u8]) -> String {
    let mut text = String::new();
    for octet in octets {
        let space = if text.is_empty() { "" } else { " " };
        write!(text, "{space}{octet:02X}").expect("a string takes all");
    }
    text
}
