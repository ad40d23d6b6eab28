//! The CLCW (clause 6.3), written and read by the rules of document 01.

use crate::bits::{self, Field};
use crate::fault::Fault;
use crate::output::{self, Written};
use crate::refusal::{ADDRESS, DONE, LENGTH, SETTING};

/// The fields (Table 6-4).
pub const CONTROL_WORD_TYPE: Field = 0..=0;
pub const VERSION_NUMBER: Field = 1..=2;
pub const STATUS_FIELD: Field = 3..=5;
pub const COP_IN_EFFECT: Field = 6..=7;
pub const VIRTUAL_CHANNEL_IDENTIFICATION: Field = 8..=13;
pub const RESERVED_SPARE_OF_TWO: Field = 14..=15;
pub const NO_RF_AVAILABLE_FLAG: Field = 16..=16;
pub const NO_BIT_LOCK_FLAG: Field = 17..=17;
pub const LOCKOUT_FLAG: Field = 18..=18;
pub const WAIT_FLAG: Field = 19..=19;
pub const RETRANSMIT_FLAG: Field = 20..=20;
pub const FARM_B_COUNTER: Field = 21..=22;
pub const RESERVED_SPARE_OF_ONE: Field = 23..=23;
pub const REPORT_VALUE: Field = 24..=31;

const CLCW_BITS: usize = 32;

/// Document 01, Limits; the counter is counted modulo 4, the report value modulo 256.
const CHANNEL_MOST: u32 = 63;
const COUNTER_MOST: u32 = 3;
const REPORT_MOST: u32 = 255;

/// What is written. A flag is set where its number is not zero.
#[derive(Clone, Copy, PartialEq, Eq, Debug)]
pub struct Report {
    pub channel: u32,
    pub lockout: u32,
    pub wait: u32,
    pub retransmit: u32,
    pub counter: u32,
    pub value: u32,
}

/// The answer of reading. All but the number are zero where the CLCW is invalid or
/// refused.
#[derive(Clone, Copy, PartialEq, Eq, Debug)]
pub struct Read {
    /// The number of document 01, Refusals.
    pub number: u8,
    /// One where the CLCW is valid.
    pub valid: u8,
    pub status: u8,
    /// No RF available, no bit lock.
    pub rf: u8,
    /// Lockout, wait, retransmit.
    pub flags: u8,
    pub counter: u8,
    pub report: u8,
}

impl Read {
    pub fn refused(number: u8) -> Read {
        Read {
            number,
            valid: 0,
            status: 0,
            rf: 0,
            flags: 0,
            counter: 0,
            report: 0,
        }
    }

    /// An invalid CLCW is no refusal (document 01, CLCW).
    pub fn invalid() -> Read {
        Read::refused(DONE)
    }
}

fn lockout_flag(fault: Fault) -> Field {
    match fault {
        Fault::ClcwFlagAtNeighbour => 17..=17,
        _ => LOCKOUT_FLAG,
    }
}

/// The bits of a CLCW. Status, no RF available and no bit lock are written zero
/// (document 01, CLCW).
pub fn encode(report: &Report, fault: Fault) -> Vec<bool> {
    let mut word = vec![false; CLCW_BITS];
    bits::put(&mut word, CONTROL_WORD_TYPE, 0);
    bits::put(&mut word, VERSION_NUMBER, 0b00);
    bits::put(&mut word, STATUS_FIELD, 0b000);
    bits::put(&mut word, COP_IN_EFFECT, 0b01);
    bits::put(
        &mut word,
        VIRTUAL_CHANNEL_IDENTIFICATION,
        report.channel as usize,
    );
    bits::put(&mut word, RESERVED_SPARE_OF_TWO, 0b00);
    bits::put(&mut word, NO_RF_AVAILABLE_FLAG, 0);
    bits::put(&mut word, NO_BIT_LOCK_FLAG, 0);
    bits::put(
        &mut word,
        lockout_flag(fault),
        (report.lockout != 0) as usize,
    );
    bits::put(&mut word, WAIT_FLAG, (report.wait != 0) as usize);
    bits::put(
        &mut word,
        RETRANSMIT_FLAG,
        (report.retransmit != 0) as usize,
    );
    bits::put(&mut word, FARM_B_COUNTER, report.counter as usize);
    bits::put(&mut word, RESERVED_SPARE_OF_ONE, 0);
    bits::put(&mut word, REPORT_VALUE, report.value as usize);
    word
}

/// Writes a CLCW (document 01, Refusals: 12, 11).
pub fn write(report: &Report, output: &mut [u8], fault: Fault) -> Written {
    let within_limits = report.channel <= CHANNEL_MOST
        && report.counter <= COUNTER_MOST
        && report.value <= REPORT_MOST;
    if !within_limits {
        return Written::refused(SETTING);
    }
    let word = bits::to_octets(&encode(report, fault));
    output::write(&word, output, fault)
}

/// Reads a CLCW (document 01, CLCW: 10, then valid or not, then 7).
pub fn read(octets: &[u8], channel: u32, fault: Fault) -> Read {
    let word = bits::from_octets(octets);
    if word.len() != CLCW_BITS {
        return Read::refused(LENGTH);
    }
    let mut valid = bits::get(&word, CONTROL_WORD_TYPE) == 0
        && bits::get(&word, VERSION_NUMBER) == 0b00
        && bits::get(&word, COP_IN_EFFECT) == 0b01;
    if fault != Fault::ClcwSpareTaken {
        valid &= bits::get(&word, RESERVED_SPARE_OF_TWO) == 0b00;
        valid &= bits::get(&word, RESERVED_SPARE_OF_ONE) == 0;
    }
    if !valid {
        return Read::invalid();
    }
    if bits::get(&word, VIRTUAL_CHANNEL_IDENTIFICATION) != channel as usize {
        return Read::refused(ADDRESS);
    }

    let no_rf_available = bits::get(&word, NO_RF_AVAILABLE_FLAG);
    let no_bit_lock = bits::get(&word, NO_BIT_LOCK_FLAG);
    let lockout = bits::get(&word, lockout_flag(fault));
    let wait = bits::get(&word, WAIT_FLAG);
    let retransmit = bits::get(&word, RETRANSMIT_FLAG);
    Read {
        number: DONE,
        valid: 1,
        status: bits::get(&word, STATUS_FIELD) as u8,
        rf: (2 * no_rf_available + no_bit_lock) as u8,
        flags: (4 * lockout + 2 * wait + retransmit) as u8,
        counter: bits::get(&word, FARM_B_COUNTER) as u8,
        report: bits::get(&word, REPORT_VALUE) as u8,
    }
}

#[cfg(test)]
mod tests {
    use super::*;
    use crate::refusal::ROOM;

    fn report(channel: u32, flags: [u32; 3], counter: u32, value: u32) -> Report {
        Report {
            channel,
            lockout: flags[0],
            wait: flags[1],
            retransmit: flags[2],
            counter,
            value,
        }
    }

    fn octets(report: &Report) -> Vec<u8> {
        bits::to_octets(&encode(report, Fault::None))
    }

    // Document 01, CLCW: channel 3, no flags, counter 2, V(R) 17, and the three flags.
    #[test]
    fn printed_words() {
        for (report, word) in [
            (report(3, [0, 0, 0], 2, 17), [0x01, 0x0C, 0x04, 0x11]),
            (report(0, [1, 0, 0], 0, 0), [0x01, 0x00, 0x20, 0x00]),
            (report(0, [0, 1, 0], 0, 0), [0x01, 0x00, 0x10, 0x00]),
            (report(0, [0, 0, 1], 0, 0), [0x01, 0x00, 0x08, 0x00]),
        ] {
            assert_eq!(octets(&report), word);
        }
    }

    #[test]
    fn what_is_written_is_read() {
        for channel in 0..=63 {
            for flags in 0..=7 {
                for counter in 0..=3 {
                    let value = channel ^ (flags << 5) ^ counter;
                    let flag_numbers = [flags & 4, flags & 2, flags & 1];
                    let word = octets(&report(channel, flag_numbers, counter, value));
                    let answer = Read {
                        number: DONE,
                        valid: 1,
                        status: 0,
                        rf: 0,
                        flags: flags as u8,
                        counter: counter as u8,
                        report: value as u8,
                    };
                    assert_eq!(read(&word, channel, Fault::None), answer);
                    for beyond in [64, 128, 192, 256, 65_536, 1 << 31] {
                        let other = channel + beyond;
                        let answer = Read::refused(ADDRESS);
                        assert_eq!(read(&word, other, Fault::None), answer);
                    }
                    let other = read(&word, channel ^ 1, Fault::None);
                    assert_eq!(other, Read::refused(ADDRESS));
                }
            }
        }
    }

    // Document 01, Limits and Refusals: a number beyond its limit, however large.
    #[test]
    fn writing_refuses() {
        let good = report(63, [256, 65_536, u32::MAX], 3, 255);
        let mut output = [0xAA; 4];
        assert_eq!(write(&good, &mut output, Fault::None).number, DONE);
        assert_eq!(output, [0x01, 0xFC, 0x3E, 0xFF]);
        for beyond in [1, 256, 65_536, u32::MAX - 255] {
            let channel = report(63 + beyond, [0; 3], 0, 0);
            let counter = report(0, [0; 3], 3 + beyond, 0);
            let value = report(0, [0; 3], 0, 255 + beyond);
            for bad in [channel, counter, value] {
                let answer = write(&bad, &mut [], Fault::None);
                assert_eq!(answer, Written::refused(SETTING));
            }
        }
        assert_eq!(write(&good, &mut [0; 3], Fault::None).number, ROOM);
    }

    // Document 01, CLCW: type, version, COP and spare make it invalid, whatever the
    // channel; status, no RF and no bit lock are not judged.
    #[test]
    fn each_bit() {
        let word = encode(&report(3, [0, 0, 0], 2, 17), Fault::None);
        for bit in 0..32 {
            let mut other = word.clone();
            other[bit] ^= true;
            let other = bits::to_octets(&other);
            let ours = read(&other, 3, Fault::None);
            let theirs = read(&other, 4, Fault::None);
            match bit {
                0..=2 | 6..=7 | 14..=15 | 23 => {
                    assert_eq!(ours, Read::invalid());
                    assert_eq!(theirs, Read::invalid());
                }
                8..=13 => assert_eq!(ours, Read::refused(ADDRESS)),
                _ => {
                    assert_eq!((ours.number, ours.valid), (DONE, 1));
                    assert_eq!(theirs, Read::refused(ADDRESS));
                    let base = Read {
                        number: DONE,
                        valid: 1,
                        status: 0,
                        rf: 0,
                        flags: 0,
                        counter: 2,
                        report: 17,
                    };
                    let mut answer = base;
                    match bit {
                        3..=5 => answer.status = 1 << (5 - bit),
                        16..=17 => answer.rf = 1 << (17 - bit),
                        18..=20 => answer.flags = 1 << (20 - bit),
                        21..=22 => answer.counter ^= 1 << (22 - bit),
                        _ => answer.report ^= 1 << (31 - bit),
                    }
                    assert_eq!(ours, answer);
                }
            }
        }
    }

    #[test]
    fn refusals() {
        let word = [0x01, 0x0C, 0x04, 0x11, 0x00];
        for length in [0, 1, 3, 5] {
            let answer = read(&word[..length], 3, Fault::None);
            assert_eq!(answer, Read::refused(LENGTH));
        }
        for (channel, counter, room, number) in [
            (63, 3, 4, DONE),
            (63, 3, 3, ROOM),
            (64, 3, 3, SETTING),
            (63, 4, 3, SETTING),
        ] {
            let mut output = vec![0xAA; room];
            let report = report(channel, [1, 1, 1], counter, 255);
            let answer = write(&report, &mut output, Fault::None);
            assert_eq!(answer.number, number);
            if number != DONE {
                assert_eq!(output, vec![0xAA; room]);
            }
        }
    }
}
