//! Inputs made by the independent side, always without a fault.

use crate::random::Random;

pub mod clcw;
pub mod cltu;
pub mod farm1;
pub mod farm1_channels;
pub mod farm1_frames;
pub mod fop1;
pub mod frame;
pub mod suspended;
pub mod text;

/// A kind of input to a reader: its share of these inputs, and what makes one.
type Kind<T> = (usize, fn(&mut Random) -> T);

fn any_of<T>(kinds: &[Kind<T>], random: &mut Random) -> T {
    let (_, make) = random.pick_by_share(kinds, |kind| kind.0);
    make(random)
}

/// The numbers with one of them too wide for an octet, or two: each in each way.
pub fn each_too_wide<const N: usize>(good: [u32; N]) -> Vec<[u32; N]> {
    let mut all = Vec::new();
    for place in 0..N {
        for number in [256, 65_536, 1 << 24, 1 << 31].map(|high| high + good[place]) {
            all.push(good);
            all.last_mut().unwrap()[place] = number;
        }
        all.push(good);
        all.last_mut().unwrap()[place] = u32::MAX;
    }
    all
}

/// A number that an octet, or two, could not hold: a good one were it cut, or the largest.
pub fn too_wide(random: &mut Random, good: u32) -> u32 {
    match random.below(6) {
        0 => u32::MAX,
        1 | 2 => 256 + good,
        3 | 4 => 65_536 + good,
        _ => *random.pick(&[1 << 24, 1 << 31]) + good,
    }
}

fn noise(random: &mut Random, most: usize) -> Vec<u8> {
    let length = random.between(0, most);
    random.octets(length)
}
