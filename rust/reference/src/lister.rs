//! What the lister prints ("The lister"). Each line ends with a newline.

use crate::limits::{LARGEST_LISTED, NODES, ROW_WORDS};
use crate::refusal::{Refusal, FILE_SIZE};
use crate::{accept, Accepted, Mode};

/// The lines for this standard input.
pub fn list(file: &[u8]) -> Vec<u8> {
    if file.len() > LARGEST_LISTED {
        return numbers(&[FILE_SIZE, 0]);
    }
    match accept(Mode::Strict, file) {
        Ok(accepted) => listing(file, &accepted),
        Err(Refusal { number, place }) => numbers(&[number, place as u32]),
    }
}

/// Number and place, version and n_texs, ten counts, then the node names.
fn listing(file: &[u8], accepted: &Accepted) -> Vec<u8> {
    let mut lines = numbers(&[0, 0]);
    lines.extend(numbers(&[accepted.version, accepted.n_texs]));
    lines.extend(numbers(&accepted.counts));
    for node in accepted.tables[NODES].chunks(ROW_WORDS[NODES]) {
        let place = node[0] as usize;
        let name = &file[place..place + node[1] as usize];
        lines.extend(printed(name));
        lines.push(b'\n');
    }
    lines
}

/// One line of decimal numbers with a space between them.
fn numbers(numbers: &[u32]) -> Vec<u8> {
    let texts: Vec<String> = numbers.iter().map(u32::to_string).collect();
    format!("{}\n", texts.join(" ")).into_bytes()
}

/// `unnamed` if empty, bytes outside 32 to 126 as `?`.
fn printed(name: &[u8]) -> Vec<u8> {
    if name.is_empty() {
        return b"unnamed".to_vec();
    }
    name.iter()
        .map(|&byte| match byte {
            32..=126 => byte,
            _ => b'?',
        })
        .collect()
}
