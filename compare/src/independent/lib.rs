//! The independent side of the comparison, written from ECSS-E-ST-50-04C
//! (clause numbers below are its numbers) and from document 01 as document 02
//! amends it, plainly and bit by bit.

pub mod bits;
pub mod clcw;
pub mod cltu;
pub mod codeblock;
pub mod farm1;
pub mod farm1_channels;
pub mod fault;
pub mod fecf;
pub mod fop1;
pub mod frame;
pub mod ledger;
pub mod output;
pub mod program;
pub mod randomizer;
pub mod recorder;
pub mod refusal;
pub mod session;
pub mod session_check;
pub mod session_noise;
pub mod session_pass;
pub mod session_random;
pub mod stand_in;
pub mod suspension;
pub mod table_7_8;

#[cfg(test)]
extern crate self as independent;

#[cfg(test)]
#[allow(dead_code)]
#[path = "../octets.rs"]
mod octets;

#[cfg(test)]
#[allow(dead_code)]
#[path = "../random.rs"]
mod random;

#[cfg(test)]
#[allow(dead_code)]
#[path = "../table_octets.rs"]
mod table_octets;
