//! `frame show` and `clcw show`: each field by the standard's name. The fields of the headers are
//! told even of what is refused; whether it is, the library says.

use pondreszi::frame::{self, Frame};
use pondreszi::{clcw, CLCW_OCTETS, FRAME_HEADER_OCTETS, SMALLEST_FRAME};

use crate::ending::Ending;
use crate::octets::{self, hex};
use crate::options::Options;

/// Lines of a field's name and its value.
#[derive(Default)]
struct Fields {
    text: String,
}

impl Fields {
    fn add(&mut self, name: &str, value: impl ToString) {
        self.text += &format!("{name:<32}{}\n", value.to_string());
    }
}

/// The bits of octets, the first bit of the first octet being bit 0, as the standard counts.
fn bits(octets: &[u8], first: usize, count: usize) -> u16 {
    let bit = |place: usize| u16::from(octets[place / 8] >> (7 - place % 8) & 1);
    (first..first + count).fold(0, |value, place| value << 1 | bit(place))
}

pub fn frame(words: &[&str]) -> Result<Ending, Ending> {
    let options = Options::parse(words, &["--binary"], &["--spacecraft", "--channel"])?;
    let (spacecraft, channel) = (own_spacecraft(&options)?, own_channel(&options)?);
    let octets = octets::input(options.has("--binary"))?;
    let mut fields = Fields::default();
    // Without an own address given, the frame's own one counts.
    let (mut its_spacecraft, mut its_channel) = (0, 0);
    if octets.len() >= FRAME_HEADER_OCTETS {
        its_spacecraft = bits(&octets, 6, 10);
        its_channel = bits(&octets, 16, 6) as u8;
        add_header(&mut fields, &octets);
        add_data(&mut fields, &octets);
    }
    let spacecraft = spacecraft.unwrap_or(its_spacecraft);
    match frame::read(&octets, spacecraft, channel.unwrap_or(its_channel)) {
        Ok(frame) => {
            add_type(&mut fields, &frame);
            Ok(Ending::done(fields.text))
        }
        Err(refused) => Err(Ending::from(refused).with_output(fields.text)),
    }
}

/// A number that is too large for its type is the address of nothing, as is the largest of it.
fn own_spacecraft(options: &Options) -> Result<Option<u16>, Ending> {
    let number = options.number("--spacecraft")?;
    Ok(number.map(|number| u16::try_from(number).unwrap_or(u16::MAX)))
}

fn own_channel(options: &Options) -> Result<Option<u8>, Ending> {
    let number = options.number("--channel")?;
    Ok(number.map(|number| u8::try_from(number).unwrap_or(u8::MAX)))
}

/// Clause 6.2.2.
fn add_header(fields: &mut Fields, octets: &[u8]) {
    fields.add("Transfer Frame Version Number", bits(octets, 0, 2));
    fields.add("Bypass Flag", bits(octets, 2, 1));
    fields.add("Control Command Flag", bits(octets, 3, 1));
    fields.add("Reserved Spare", bits(octets, 4, 2));
    fields.add("Spacecraft Identifier", bits(octets, 6, 10));
    fields.add("Virtual Channel Identifier", bits(octets, 16, 6));
    let length = bits(octets, 22, 10);
    fields.add("Frame Length", format!("{length} ({} octets)", length + 1));
    fields.add("Frame Sequence Number", bits(octets, 32, 8));
}

/// Clauses 6.2.3 and 6.2.4, where the octets that the header says are there.
fn add_data(fields: &mut Fields, octets: &[u8]) {
    let total = usize::from(bits(octets, 22, 10)) + 1;
    if total < SMALLEST_FRAME || total > octets.len() {
        return;
    }
    let data = &octets[FRAME_HEADER_OCTETS..total - 2];
    fields.add("Transfer Frame Data Field", hex(data));
    fields.add("Frame Error Control Field", hex(&octets[total - 2..total]));
    if octets.len() > total {
        fields.add("Octets after the frame", hex(&octets[total..]));
    }
}

fn add_type(fields: &mut Fields, frame: &Frame) {
    match frame.kind {
        frame::Kind::SetVr => fields.add("Type", format!("{} to {}", frame.kind, frame.value)),
        kind => fields.add("Type", kind),
    }
}

pub fn clcw(words: &[&str]) -> Result<Ending, Ending> {
    let options = Options::parse(words, &["--binary"], &["--channel"])?;
    let channel = own_channel(&options)?;
    let octets = octets::input(options.has("--binary"))?;
    let mut fields = Fields::default();
    let mut its_channel = 0;
    if octets.len() == CLCW_OCTETS {
        its_channel = bits(&octets, 8, 6) as u8;
        add_word(&mut fields, &octets);
    }
    match clcw::read(&octets, channel.unwrap_or(its_channel)) {
        Ok(Some(_)) => fields.add("Validity", "valid"),
        Ok(None) => fields.add("Validity", "invalid: FOP-1 takes it as event E15"),
        Err(refused) => return Err(Ending::from(refused).with_output(fields.text)),
    }
    Ok(Ending::done(fields.text))
}

/// Clause 6.3, figure 6-2.
fn add_word(fields: &mut Fields, octets: &[u8]) {
    for (name, first, count) in [
        ("Control Word Type", 0, 1),
        ("CLCW Version Number", 1, 2),
        ("Status Field", 3, 3),
        ("COP in Effect", 6, 2),
        ("Virtual Channel Identification", 8, 6),
        ("Reserved Spare", 14, 2),
        ("No RF Available Flag", 16, 1),
        ("No Bit Lock Flag", 17, 1),
        ("Lockout Flag", 18, 1),
        ("Wait Flag", 19, 1),
        ("Retransmit Flag", 20, 1),
        ("FARM-B Counter", 21, 2),
        ("Reserved Spare", 23, 1),
        ("Report Value", 24, 8),
    ] {
        fields.add(name, bits(octets, first, count));
    }
}
