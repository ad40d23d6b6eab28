//! Refusals by name and number, and the places of the CLTU reader.

use pondreszi::{clcw, cltu, frame, Mode, Refusal};

#[test]
fn numbers_and_names_agree() {
    for number in 1..=13 {
        let refusal = Refusal::from_number(number).unwrap();
        assert_eq!(refusal.number(), number);
        assert_eq!(
            refusal.to_string(),
            format!("refusal {number}, {}", refusal.name())
        );
    }
    assert_eq!(Refusal::from_number(14), None);
}

#[test]
fn cltu_places() {
    let octets = cltu::write(&frame::write_bd(1, 0, &[9; 20]).unwrap()).unwrap();
    let refused = |input: &[u8]| {
        let refused = cltu::read(input, Mode::Detecting).unwrap_err();
        (refused.refusal, refused.place)
    };
    assert_eq!(refused(&[]), (Refusal::NoStart, Some(0)));
    assert_eq!(refused(&[1, 2, 3]), (Refusal::NoStart, Some(3)));
    assert_eq!(refused(&octets[..20]), (Refusal::NoEnd, Some(18)));
    assert_eq!(refused(&[0; 4097]), (Refusal::Length, None));
    let short = cltu::read_into(&octets, Mode::Detecting, &mut [0; 27]).unwrap_err();
    assert_eq!((short.refusal, short.place), (Refusal::Room, None));
    let decoded = cltu::read_into(&octets, Mode::Detecting, &mut [0; 28]).unwrap();
    assert_eq!((decoded.count, decoded.place), (28, 34));
}

#[test]
fn the_longest_input_has_room() {
    let mut input = vec![0xEB, 0x90];
    let block = [0, 0, 0, 0, 0, 0, 0, 0xFE];
    for _ in 0..510 {
        input.extend(block);
    }
    input.extend([0xFF; 14]);
    assert_eq!(input.len(), 4096);
    assert_eq!(
        cltu::read(&input, Mode::Detecting).unwrap().octets.len(),
        3570
    );
}

#[test]
fn clcw_settings() {
    let word = clcw::Clcw {
        channel: 64,
        ..clcw::Clcw::default()
    };
    assert_eq!(clcw::write(&word).unwrap_err().refusal, Refusal::Setting);
    let word = clcw::Clcw {
        counter: 4,
        ..clcw::Clcw::default()
    };
    assert_eq!(clcw::write(&word).unwrap_err().refusal, Refusal::Setting);
    assert_eq!(clcw::read(&[], 0).unwrap_err().refusal, Refusal::Length);
}
