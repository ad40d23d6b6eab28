//! The program of document 01: lines, fields, numbers, rows.

use crate::farm1::{Arrival, Event, Farm1};
use crate::fault::Fault;

const NEWLINE: u8 = b'\n';
const TAB: u8 = b'\t';

/// A line of more octets, its newline not counted, is refused.
pub const LINE_MOST: usize = 63;

const HEADER: &str = "event\tstate\tvr\tflags\tb\n";
const REFUSED: &str = "REFUSED\n";

/// Why a line is refused. The output doesn't tell them apart.
#[derive(Clone, Copy, PartialEq, Eq, Debug)]
pub enum Cause {
    /// The first line isn't a good SET.
    NoSetting,
    /// Over 63 octets.
    Long,
    Malformed,
    SecondSet,
    /// A release when no buffer is taken.
    Release,
}

pub const CAUSES: [Cause; 5] = [
    Cause::NoSetting,
    Cause::Long,
    Cause::Malformed,
    Cause::SecondSet,
    Cause::Release,
];

/// The answer to a line.
#[derive(Clone, Copy, PartialEq, Eq, Debug)]
pub enum Answer {
    /// A good SET, which writes no line: FARM-1 at its start.
    Set(Farm1),
    /// What arrived, the event, and FARM-1 after it.
    Row(Arrival, Event, Farm1),
    Refused(Cause),
}

/// A line that is well-formed.
enum Line {
    Set(usize, usize, usize),
    Arrival(Arrival),
}

/// All that the program writes.
pub fn output(answers: &[Answer]) -> Vec<u8> {
    let mut text = String::from(HEADER);
    for answer in answers {
        match answer {
            Answer::Set(_) => {}
            Answer::Row(_, event, farm) => text.push_str(&row(*event, farm)),
            Answer::Refused(_) => text.push_str(REFUSED),
        }
    }
    text.into_bytes()
}

fn row(event: Event, farm: &Farm1) -> String {
    format!(
        "{event:?}\t{}\t{}\t{}{}{}\t{}\n",
        farm.state.number(),
        farm.v_r,
        farm.lockout_flag as u8,
        farm.wait_flag as u8,
        farm.retransmit_flag as u8,
        farm.farm_b_counter
    )
}

/// The answer to each line of the input.
pub fn answers(input: &[u8], fault: Fault) -> Vec<Answer> {
    let lines = lines(input, fault);
    let mut answers = Vec::with_capacity(lines.len());
    let mut farm = None;
    for (place, line) in lines.into_iter().enumerate() {
        let answer = if place == 0 {
            first(line)
        } else {
            match &mut farm {
                Some(farm) => further(line, farm, fault),
                None => Answer::Refused(Cause::NoSetting),
            }
        };
        if let Answer::Set(start) = answer {
            farm = Some(start);
        }
        answers.push(answer);
    }
    answers
}

fn first(line: &[u8]) -> Answer {
    if line.len() <= LINE_MOST {
        if let Some(Line::Set(window, v_r, buffers)) = read(line) {
            if let Ok(farm) = Farm1::start(window, v_r, buffers) {
                return Answer::Set(farm);
            }
        }
    }
    Answer::Refused(Cause::NoSetting)
}

fn further(line: &[u8], farm: &mut Farm1, fault: Fault) -> Answer {
    if line.len() > LINE_MOST {
        return Answer::Refused(Cause::Long);
    }
    match read(line) {
        None => Answer::Refused(Cause::Malformed),
        Some(Line::Set(..)) => Answer::Refused(Cause::SecondSet),
        Some(Line::Arrival(arrival)) => match farm.take(arrival, fault) {
            Ok(event) => Answer::Row(arrival, event, *farm),
            Err(_) => Answer::Refused(Cause::Release),
        },
    }
}

/// Each line ends at its newline; the last one needs none.
pub fn lines(input: &[u8], fault: Fault) -> Vec<&[u8]> {
    let mut lines: Vec<&[u8]> = input.split(|octet| *octet == NEWLINE).collect();
    let without_newline = lines.pop().unwrap_or(&[]);
    if !without_newline.is_empty() && fault != Fault::ProgramLastLineDropped {
        lines.push(without_newline);
    }
    if fault == Fault::ProgramSixtyFour {
        return lines.into_iter().flat_map(pieces).collect();
    }
    lines
}

/// A line cut into pieces of 64 octets.
fn pieces(line: &[u8]) -> Vec<&[u8]> {
    if line.is_empty() {
        return vec![line];
    }
    line.chunks(64).collect()
}

/// A well-formed line; its numbers may be outside their limits where it is a SET.
fn read(line: &[u8]) -> Option<Line> {
    let fields: Vec<&[u8]> = line.split(|octet| *octet == TAB).collect();
    let arrival = match fields[..] {
        [b"SET", window, v_r, buffers] => {
            return Some(Line::Set(number(window)?, number(v_r)?, number(buffers)?));
        }
        [b"AD", n_s] => Arrival::Ad(sequence_number(n_s)?),
        [b"BD"] => Arrival::Bd,
        [b"UNLOCK"] => Arrival::Unlock,
        [b"SETVR", value] => Arrival::SetVr(sequence_number(value)?),
        [b"BAD"] => Arrival::InvalidFrame,
        [b"FREE"] => Arrival::Release,
        _ => return None,
    };
    Some(Line::Arrival(arrival))
}

fn sequence_number(field: &[u8]) -> Option<u8> {
    match number(field)? {
        value @ 0..=255 => Some(value as u8),
        _ => None,
    }
}

/// Decimal, no sign, no leading zero. The greatest number stands for any beyond it.
fn number(field: &[u8]) -> Option<usize> {
    if field.is_empty() || (field.len() > 1 && field[0] == b'0') {
        return None;
    }
    let mut value: usize = 0;
    for octet in field {
        let digit = match octet {
            b'0'..=b'9' => octet - b'0',
            _ => return None,
        };
        value = value.saturating_mul(10).saturating_add(digit as usize);
    }
    Some(value)
}

#[cfg(test)]
mod tests {
    use super::*;

    fn run(input: &[u8]) -> String {
        String::from_utf8(output(&answers(input, Fault::None))).unwrap()
    }

    /// What is written after the header.
    fn rows(input: &[u8]) -> Vec<String> {
        let output = run(input);
        let rows = output.strip_prefix("event\tstate\tvr\tflags\tb\n").unwrap();
        assert!(rows.is_empty() || rows.ends_with('\n'));
        rows.lines().map(String::from).collect()
    }

    const EXAMPLE: &[u8] = b"SET\t20\t250\t1\nAD\t250\nAD\t252\nAD\t251\nUNLOCK\nAD\t250\nAD\t10\n";

    // Document 01, The program: the example, whole.
    #[test]
    fn printed_example() {
        let printed = "event state vr flags b\n\
                       E1 S1 251 000 0\n\
                       E3 S1 251 001 0\n\
                       E2 S2 251 011 0\n\
                       E7 S1 251 000 1\n\
                       E4 S1 251 000 1\n\
                       E5 S3 251 100 1\n";
        assert_eq!(run(EXAMPLE), printed.replace(' ', "\t"));
        let without_newline = EXAMPLE.strip_suffix(b"\n").unwrap();
        assert_eq!(run(without_newline), printed.replace(' ', "\t"));
    }

    #[test]
    fn header_only() {
        for input in ["", "SET\t2\t0\t1", "SET\t254\t255\t8\n"] {
            assert_eq!(run(input.as_bytes()), "event\tstate\tvr\tflags\tb\n");
        }
    }

    // Where the first line isn't a good SET, every line is refused.
    #[test]
    fn bad_first_lines() {
        for first in [
            "",
            "BD",
            "SET",
            "SET\t20\t250",
            "SET\t20\t250\t1\t",
            "SET\t20\t250\t1\r",
            "SET\t020\t250\t1",
            "SET\t20\t+250\t1",
            "SET\t0\t250\t1",
            "SET\t1\t250\t1",
            "SET\t21\t250\t1",
            "SET\t255\t250\t1",
            "SET\t256\t250\t1",
            "SET\t18446744073709551636\t250\t1",
            "SET\t20\t256\t1",
            "SET\t20\t250\t0",
            "SET\t20\t250\t9",
            "set\t20\t250\t1",
            " SET\t20\t250\t1",
        ] {
            let input = format!("{first}\nSET\t20\t250\t1\nBD\n\nAD\t250");
            assert_eq!(rows(input.as_bytes()), vec!["REFUSED"; 5]);
        }
    }

    #[test]
    fn refused_lines_change_nothing() {
        for line in [
            "",
            "AD",
            "AD\t",
            "AD\t5\t",
            "AD\t05",
            "AD\t00",
            "AD\t-5",
            "AD\t256",
            "AD\t99999999999999999999999999999999999",
            "AD 5",
            "ad\t5",
            "BD\t",
            "\tBD",
            "BD\r",
            "BD\0",
            "FREE",
            "SETVR",
            "SETVR\t256",
            "SET\t20\t250\t1",
        ] {
            let input = format!("SET\t20\t250\t1\n{line}\nBAD\n");
            let answer = rows(input.as_bytes());
            assert_eq!(answer, ["REFUSED", "E9\tS1\t250\t000\t0"]);
        }
    }

    #[test]
    fn all_numbers() {
        for value in 0..=1100 {
            let input = format!("SET\t20\t7\t1\nSETVR\t{value}\nSETVR\t0{value}");
            let answer = match value {
                0..=255 => format!("E8\tS1\t{value}\t000\t1"),
                _ => String::from("REFUSED"),
            };
            assert_eq!(rows(input.as_bytes()), [&answer, "REFUSED"]);
        }
    }

    // A final newline opens no further line, and the limit excludes it.
    #[test]
    fn lines_and_their_limit() {
        let cases: [(&[u8], &[&[u8]]); 5] = [
            (b"", &[]),
            (b"\n", &[b""]),
            (b"\n\n", &[b"", b""]),
            (b"a\n", &[b"a"]),
            (b"a\n\nb", &[b"a", b"", b"b"]),
        ];
        for (input, parted) in cases {
            assert_eq!(lines(input, Fault::None), parted);
        }
        for length in [62, 63, 64, 65, 1000] {
            let long = "\t".repeat(length);
            for end in ["", "\n"] {
                let input = format!("SET\t20\t250\t1\n{long}{end}");
                let cause = match length > 63 {
                    true => Cause::Long,
                    false => Cause::Malformed,
                };
                let answers = answers(input.as_bytes(), Fault::None);
                assert_eq!(answers[1..], [Answer::Refused(cause)]);
            }
        }
    }
}
