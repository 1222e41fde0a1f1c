//! Slips of paper 02, worked by hand.

use reference::{read_slip, slip_of, write_slip, Slip, Written};
use scenes::worked;

/// The numbers of a slip: these first, then zeros.
fn numbers(first: &[u32]) -> [u32; 12] {
    let mut numbers = [0; 12];
    numbers[..first.len()].copy_from_slice(first);
    numbers
}

fn refused(number: u32, place: u32) -> Written {
    Written {
        number,
        place,
        size: 0,
    }
}

/// Writes to an output of nines.
fn written(numbers: [u32; 12], room: usize) -> (Written, Vec<u8>) {
    let mut out = vec![9; room];
    (write_slip(&numbers, &mut out), out)
}

#[test]
fn numbers_in_groups() {
    let bytes: [(u32, &[u8]); 7] = [
        (0, &[0]),
        (127, &[0x7F]),
        (128, &[0x81, 0x00]),
        (300, &[0x82, 0x2C]),
        (16_383, &[0xFF, 0x7F]),
        (16_384, &[0x81, 0x80, 0x00]),
        (2_097_151, &[0xFF, 0xFF, 0x7F]),
    ];
    for (number, groups) in bytes {
        let slip = [&[1, 2], groups, &[0; 9]].concat();
        let all = numbers(&[1, 2, number]);
        let (answer, out) = written(all, slip.len() + 1);
        assert_eq!(
            (answer.number, answer.size as usize),
            (0, slip.len()),
            "{number}"
        );
        assert_eq!(out, [&slip[..], &[9]].concat());
        let read = Slip {
            numbers: all,
            ..Slip::default()
        };
        assert_eq!(read_slip(&slip), read);
    }
}

#[test]
fn twelve_to_thirty_two_bytes() {
    let mut most = [2_097_151; 12];
    (most[0], most[1]) = (99, 8);
    assert_eq!(written([0; 12], 11).0, refused(11, 12));
    assert_eq!(written(most, 31), (refused(11, 32), vec![9; 31]));
    assert_eq!(written(most, 32).0.size, 32);
}

#[test]
fn the_first_number_out_of_range() {
    for (position, most) in [(0, 99), (1, 8), (2, 2_097_151), (11, 2_097_151)] {
        let mut all = [0; 12];
        all[position] = most;
        assert_eq!(written(all, 22).0.number, 0);
        for more in [most + 1, u32::MAX] {
            all[position] = more;
            let refusal = refused(13, position as u32);
            assert_eq!(written(all, 22), (refusal, vec![9; 22]));
            assert_eq!(written(all, 0).0, refusal);
            all[11] = 2_097_152;
            assert_eq!(written(all, 22).0, refusal);
            all[11] = 0;
        }
    }
}

#[test]
fn places_of_thirteen() {
    let cases: [(&[u8], u32); 14] = [
        (&[], 0),
        (&[1], 1),
        (&[1, 0, 0x81], 3),
        (&[0; 11], 11),
        (&[0; 13], 12),
        (&[0; 40], 12),
        (&[0x80], 0),
        (&[0x81], 0),
        (&[100, 0, 0], 0),
        (&[1, 9], 1),
        (&[1, 0x81, 0], 1),
        (&[1, 0, 0x80, 0x05], 2),
        (&[1, 0, 0x81, 0x80, 0x80], 2),
        (&[1, 0, 0xFF, 0xFF, 0xFF, 0x7F], 2),
    ];
    for (slip, place) in cases {
        let refusal = Slip {
            number: 13,
            place,
            ..Slip::default()
        };
        assert_eq!(read_slip(slip), refusal, "{slip:?}");
    }
}

#[test]
fn slips_of_files() {
    let mut out = [9; 14];
    assert_eq!(slip_of(&worked::h(), &mut out).size, 12);
    assert_eq!(out, [1, 0, 0, 0, 1, 0, 0, 0, 0, 0, 0, 0, 9, 9]);
    assert_eq!(slip_of(&worked::h(), &mut out[..11]), refused(11, 12));
    assert_eq!(slip_of(&worked::h()[..11], &mut []), refused(1, 0));
}
