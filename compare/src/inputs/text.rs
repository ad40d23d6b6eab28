//! Inputs to the program of FARM-1 that are odd as texts: lines, fields and numbers that
//! it must refuse, beside some that it must take.

use super::{any_of, farm1, noise, Kind};
use crate::random::Random;

const SET: &[u8] = b"SET\t20\t250\t3\n";

/// Further lines, most of them refused.
const LINES: [&[u8]; 147] = [
    b"",
    b" ",
    b"\t",
    b"\t\t",
    b"\t\t\t",
    b"\r",
    b"\0",
    b"\xFF",
    b"\x80",
    b"0",
    b"5",
    b"E1",
    b"REFUSED",
    b"event\tstate\tvr\tflags\tb",
    // Fields.
    b"AD",
    b"AD\t",
    b"AD\t\t",
    b"AD\t\t250",
    b"AD\t250\t",
    b"AD\t250\t250",
    b"AD\t250\tAD\t251",
    b"\tAD\t250",
    b"\t\tAD\t250",
    b"AD 250",
    b" AD\t250",
    b"AD \t250",
    b"AD\t 250",
    b"AD\t250 ",
    b"AD250",
    b"AD,250",
    b"250\tAD",
    b"AD\x0B250",
    b"AD\x0C250",
    b"AD\x00250",
    b"AD\x89250",
    b"AD\t250\r",
    b"AD\t250\0",
    b"AD\t\x00250",
    b"AD\t25\x000",
    b"AD\r\t250",
    b"BD\t",
    b"BD\t\t",
    b"BD\t0",
    b"BD\tBD",
    b"\tBD",
    b"BD ",
    b" BD",
    b"BD\r",
    b"BD\0",
    b"\0BD",
    b"B\0D",
    b"BDBD",
    b"B",
    b"D",
    b"BDX",
    b"XBD",
    b"\xEF\xBB\xBFBD",
    b"\xC2D",
    b"UNLOCK\t",
    b"UNLOCK\t0",
    b"UNLOC",
    b"UNLOCKS",
    b"UNLOCK ",
    b"UNLOCK\r",
    b"SETVR",
    b"SETVR\t",
    b"SETVR\t5\t",
    b"SETVR\t5\t6",
    b"SETVR 5",
    b"SET VR\t5",
    b"SET\tVR\t5",
    b"SETVR5",
    b"BAD\t",
    b"BAD\t0",
    b"BADD",
    b"BAD ",
    b"BAD\r",
    b"FREE\t",
    b"FREE\t1",
    b"FRE",
    b"FREES",
    b"FREE ",
    b"FREE\r",
    // Letters.
    b"ad\t250",
    b"Ad\t250",
    b"aD\t250",
    b"bd",
    b"Bd",
    b"unlock",
    b"Unlock",
    b"setvr\t5",
    b"SetVR\t5",
    b"bad",
    b"Bad",
    b"free",
    b"Free",
    b"\xC1D\t250",
    // Numbers.
    b"AD\t+250",
    b"AD\t-250",
    b"AD\t-6",
    b"AD\t-0",
    b"AD\t+0",
    b"AD\t0250",
    b"AD\t00",
    b"AD\t000",
    b"AD\t01",
    b"AD\t256",
    b"AD\t257",
    b"AD\t260",
    b"AD\t300",
    b"AD\t506",
    b"AD\t512",
    b"AD\t762",
    b"AD\t999",
    b"AD\t1000",
    b"AD\t1018",
    b"AD\t2500",
    b"AD\t65536",
    b"AD\t65786",
    b"AD\t4294967296",
    b"AD\t4294967546",
    b"AD\t18446744073709551615",
    b"AD\t18446744073709551616",
    b"AD\t18446744073709551866",
    b"AD\t340282366920938463463374607431768211706",
    b"AD\t99999999999999999999999999999999999999999999999999999999999",
    b"AD\t00000000000000000000000000000000000000000000000000000000250",
    b"AD\t250.0",
    b"AD\t250,0",
    b"AD\t0xFA",
    b"AD\tFA",
    b"AD\t2.5e2",
    b"AD\t2_50",
    b"AD\t25 0",
    b"AD\t25/",
    b"AD\t25:",
    b"AD\t/",
    b"AD\t:",
    b"AD\t\xB2\xB5\xB0",
    b"AD\t\xEF\xBC\x95",
    b"SETVR\t-1",
    b"SETVR\t+5",
    b"SETVR\t05",
    b"SETVR\t256",
    b"SETVR\t65541",
    b"SETVR\t18446744073709551621",
    b"SETVR\tx",
];

/// First lines that are no good SET: document 01, Limits and The program.
const BAD_SETS: [&[u8]; 66] = [
    b"",
    b"\t",
    b"\r",
    b"\0",
    b"SET",
    b"SET\t",
    b"SET\t20",
    b"SET\t20\t250",
    b"SET\t20\t250\t",
    b"SET\t20\t250\t3\t",
    b"SET\t20\t250\t3\t3",
    b"SET\t\t20\t250\t3",
    b"SET\t\t250\t3",
    b"SET\t20\t\t3",
    b"\tSET\t20\t250\t3",
    b" SET\t20\t250\t3",
    b"SET \t20\t250\t3",
    b"SET 20 250 3",
    b"SET\t20\t250\t3 ",
    b"SET\t20\t250\t3\r",
    b"SET\t20\t250\t3\0",
    b"\0SET\t20\t250\t3",
    b"\xEF\xBB\xBFSET\t20\t250\t3",
    b"set\t20\t250\t3",
    b"Set\t20\t250\t3",
    b"SETVR\t20\t250\t3",
    b"SETVR\t20",
    b"AD\t250",
    b"BD",
    b"UNLOCK",
    b"BAD",
    b"FREE",
    b"SET\t0\t250\t3",
    b"SET\t1\t250\t3",
    b"SET\t3\t250\t3",
    b"SET\t19\t250\t3",
    b"SET\t21\t250\t3",
    b"SET\t127\t250\t3",
    b"SET\t253\t250\t3",
    b"SET\t255\t250\t3",
    b"SET\t256\t250\t3",
    b"SET\t258\t250\t3",
    b"SET\t276\t250\t3",
    b"SET\t65556\t250\t3",
    b"SET\t4294967316\t250\t3",
    b"SET\t18446744073709551636\t250\t3",
    b"SET\t-20\t250\t3",
    b"SET\t+20\t250\t3",
    b"SET\t020\t250\t3",
    b"SET\t02\t250\t3",
    b"SET\t20\t256\t3",
    b"SET\t20\t506\t3",
    b"SET\t20\t999\t3",
    b"SET\t20\t-6\t3",
    b"SET\t20\t00\t3",
    b"SET\t20\t0250\t3",
    b"SET\t20\t250\t0",
    b"SET\t20\t250\t9",
    b"SET\t20\t250\t10",
    b"SET\t20\t250\t16",
    b"SET\t20\t250\t256",
    b"SET\t20\t250\t259",
    b"SET\t20\t250\t03",
    b"SET\t20\t250\t-3",
    b"SET\t20\t250\t18446744073709551619",
    b"SET\t99999999999999999999\t99999999999999999999\t99999999999999999999",
];

/// Whole texts.
const TEXTS: [&[u8]; 22] = [
    b"",
    b"\n",
    b"\n\n",
    b"\n\n\n\n\n\n\n",
    b"\r\n",
    b"\r\n\r\n",
    b"\t\n",
    b"\0\n\0",
    b"BD",
    b"SET\t20\t250\t3",
    b"SET\t20\t250\t3\n",
    b"SET\t20\t250\t3\n\n",
    b"SET\t20\t250\t3\n\n\n",
    b"SET\t20\t250\t3\nBD",
    b"SET\t20\t250\t3\nBD\n",
    b"SET\t20\t250\t3\nBD\n\n",
    b"SET\t20\t250\t3\n\nBD",
    b"SET\t20\t250\t3\nBD\nSET\t20\t250\t3\nBD\nSET\t4\t7\t8\nAD\t250\n",
    b"SET\t20\t250\t3\nBD\nSET\nSET\t1\t0\t1\nSET\t20\t250\t3",
    b"\nSET\t20\t250\t3\nBD\n",
    b"SET\t20\t250\t3\r\nAD\t250\r\nBD\r\n",
    b"SET\t20\t250\t3\nAD\t250\r\nBD\r\n\r\nAD\t250\nBD",
];

/// Settings at their limits, V(R) and buffers, each seen in the rows after it.
const GOOD_SETS: [(usize, usize, usize); 12] = [
    (2, 0, 1),
    (2, 255, 8),
    (254, 0, 8),
    (254, 255, 1),
    (10, 9, 2),
    (100, 10, 3),
    (98, 99, 4),
    (8, 100, 5),
    (102, 199, 6),
    (200, 200, 7),
    (198, 249, 1),
    (90, 128, 2),
];

/// Lengths of lines about powers of two, and long ones.
const LENGTHS: [usize; 33] = [
    0, 1, 2, 3, 13, 14, 31, 32, 33, 61, 62, 63, 64, 65, 66, 67, 126, 127, 128, 129, 191, 192, 193,
    255, 256, 257, 1000, 1023, 1024, 1025, 4095, 4096, 4097,
];

/// The fixed texts.
pub fn fixed() -> Vec<Vec<u8>> {
    let mut texts: Vec<Vec<u8>> = TEXTS.iter().map(|text| text.to_vec()).collect();
    texts.push(b"\n".repeat(1000));
    for first in BAD_SETS {
        texts.push([first, b"\nAD\t250\n\n", SET, b"BD\nFREE\nAD\t250"].concat());
    }
    for (window, v_r, buffers) in GOOD_SETS {
        texts.push(good_set(window, v_r, buffers));
    }
    texts.push(odd_lines(b"\n"));
    texts.push(odd_lines(b"\r\n"));
    texts.push(all_numbers());
    texts.push(all_octets());
    texts.extend(long_lines());
    texts
}

/// Takes every buffer and one more, then gives every one back and one more.
fn good_set(window: usize, v_r: usize, buffers: usize) -> Vec<u8> {
    let mut text = format!("SET\t{window}\t{v_r}\t{buffers}\nBAD\n");
    for ahead in 0..=buffers {
        text.push_str(&format!("AD\t{}\n", (v_r + ahead) % 256));
    }
    text.push_str(&"FREE\n".repeat(buffers + 1));
    text.into_bytes()
}

/// Each odd line, with one behind it that shows the state.
fn odd_lines(newline: &[u8]) -> Vec<u8> {
    let mut text = SET.to_vec();
    for line in LINES {
        text.extend(line);
        text.extend(newline);
        text.extend(b"BAD\n");
    }
    text
}

/// All numbers to 1,100 and the next frame, without and with a leading zero.
fn all_numbers() -> Vec<u8> {
    let mut text = SET.to_vec();
    for zeros in ["", "0", "00"] {
        for value in 0..=1100 {
            text.extend(format!("SETVR\t{zeros}{value}\nAD\t{zeros}{value}\nFREE\n").as_bytes());
        }
    }
    text
}

/// Every octet alone, before and after a good line, and for a tab and a digit.
fn all_octets() -> Vec<u8> {
    let mut text = SET.to_vec();
    for octet in 0..=255 {
        text.extend([octet, b'\n', octet, b'B', b'D', b'\n', b'B', b'D', octet]);
        text.extend(b"\nAD");
        text.push(octet);
        text.extend(b"250\nSETVR\t");
        text.push(octet);
        text.extend(b"\nSETVR\t25");
        text.push(octet);
        text.extend(b"\n");
        text.push(octet);
        text.extend(b"D\nB");
        text.push(octet);
        text.extend(b"\nUNLOCK\n");
    }
    text
}

/// Lines of a given length, some of which begin with a good one.
const FILLS: [fn(usize) -> Vec<u8>; 7] = [
    |length| vec![b'X'; length],
    |length| vec![b'\t'; length],
    |length| vec![0; length],
    |length| b"BD\t".iter().copied().cycle().take(length).collect(),
    |length| padded(b"BD", b'\t', length),
    |length| padded(b"AD\t250", b' ', length),
    |length| padded(b"AD\t250", b'0', length),
];

fn padded(line: &[u8], octet: u8, length: usize) -> Vec<u8> {
    let mut line = line.to_vec();
    line.resize(length, octet);
    line
}

/// Lines about the limit of 63 octets and far beyond it: as first, further and last
/// line, alone and with a good line at their end, where a reader that cuts them would
/// take it for a line.
fn long_lines() -> Vec<Vec<u8>> {
    let mut texts = Vec::new();
    for good in ["BD", "AD\t250", "UNLOCK"] {
        let mut text = SET.to_vec();
        for length in LENGTHS {
            for fill in FILLS {
                text.extend(fill(length));
                text.extend(b"\nBAD\n");
                text.extend(fill(length));
                text.extend(good.as_bytes());
                text.extend(b"\nBAD\n");
            }
        }
        texts.push(text);
    }
    for length in [61, 62, 63, 64, 65, 66, 1000, 65_535, 65_536] {
        texts.push([SET, &padded(b"BD", b'\t', length)].concat());
        texts.push([SET, &vec![b'X'; length], b"BD"].concat());
        let mut first = SET[..SET.len() - 1].to_vec();
        first.resize(length, b'\t');
        texts.push([&first, &b"\nBD\nAD\t250"[..]].concat());
    }
    texts.push([SET, &vec![b'X'; 1 << 20], b"BD\nBD\n"].concat());
    texts.push([vec![b'X'; 64], SET.to_vec(), b"BD\n".to_vec()].concat());
    texts
}

const KINDS: [Kind<Vec<u8>>; 5] = [
    (30, damaged),
    (30, mixture),
    (15, few_octets),
    (15, any_settings),
    (10, any_octets),
];

/// A random text.
pub fn random(random: &mut Random) -> Vec<u8> {
    any_of(&KINDS, random)
}

/// Good lines with some octets flipped, cut out, put in or put for others, most often
/// behind the first line.
fn damaged(random: &mut Random) -> Vec<u8> {
    let lines = random.between(5, 200);
    let mut text = farm1::random_lines(lines, random);
    let least = match random.below(6) {
        0 => 0,
        _ => text.iter().position(|octet| *octet == b'\n').unwrap_or(0) + 1,
    };
    for _ in 0..random.between(1, lines) {
        let place = random.between(least, text.len());
        let octet = *random.pick(b"\n\t\r\0 0159ABDEFKLNORSTUV\x80\xFF");
        if place == text.len() {
            text.push(octet);
            continue;
        }
        match random.below(4) {
            0 => text.insert(place, octet),
            1 => text[place] = octet,
            2 => random.flip_a_bit(&mut text[place..place + 1]),
            _ => {
                text.remove(place);
            }
        }
    }
    if random.once_in(2) {
        text.truncate(random.between(least, text.len()));
    }
    text
}

const WORDS: [&str; 26] = [
    "AD",
    "AD",
    "AD",
    "BD",
    "BD",
    "UNLOCK",
    "SETVR",
    "BAD",
    "FREE",
    "FREE",
    "SET",
    "SET\t20\t250\t3",
    "AD\t250",
    "AD\t251",
    "AD\t252",
    "AD\t253",
    "0",
    "1",
    "8",
    "20",
    "250",
    "255",
    "256",
    "007",
    "ad",
    "REFUSED",
];

const SEPARATORS: [&str; 16] = [
    "\n", "\n", "\n", "\n", "\n", "\n", "\n", "\t", "\t", "\t", "\t\t", "\n\n", "\r\n", " ", "",
    "\0",
];

/// Words and separators, mostly behind a good SET.
fn mixture(random: &mut Random) -> Vec<u8> {
    let mut text = start(random);
    for _ in 0..random.between(1, 800) {
        match random.below(8) {
            0 => text.extend(random.between(0, 260).to_string().bytes()),
            _ => text.extend(random.pick(&WORDS).bytes()),
        }
        text.extend(random.pick(&SEPARATORS).bytes());
    }
    text
}

/// Octets of which good lines consist, mostly behind a good SET.
fn few_octets(random: &mut Random) -> Vec<u8> {
    let octets = *random.pick(&[&b"BD\n"[..], b"AD\t12\n", b"ABDFRE\n\n", b"SETVR\t05\n"]);
    let mut text = start(random);
    for _ in 0..random.between(0, 3000) {
        text.push(*random.pick(octets));
    }
    text
}

/// A first line with any numbers, then good lines.
fn any_settings(random: &mut Random) -> Vec<u8> {
    let window = match random.below(3) {
        0 => 2 * random.between(1, 127),
        _ => random.between(0, 270),
    };
    let v_r = random.between(0, 280);
    let buffers = random.between(0, 10);
    let mut text = format!("SET\t{window}\t{v_r}\t{buffers}\n");
    for _ in 0..random.between(0, 40) {
        match random.below(4) {
            0 => text.push_str("BD\n"),
            1 => text.push_str("FREE\n"),
            _ => text.push_str(&format!("AD\t{}\n", (v_r + random.below(4)) % 256)),
        }
    }
    text.into_bytes()
}

fn any_octets(random: &mut Random) -> Vec<u8> {
    let mut text = start(random);
    text.extend(noise(random, 3000));
    text
}

/// Mostly a good SET.
fn start(random: &mut Random) -> Vec<u8> {
    match random.below(8) {
        0 => Vec::new(),
        _ => farm1::any_set(random).text,
    }
}
