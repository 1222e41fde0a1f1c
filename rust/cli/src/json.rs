//! Answers for programs: one JSON object on a line for each file.

use crate::answer::{in_words, printable};
use kelompuris::columns::TABLES;
use kelompuris::{Answer, Refusal};
use std::path::Path;

/// A file and its answer. On a refusal there are no counts.
pub fn answer(path: &Path, answer: &Result<Answer, Refusal>) -> String {
    let (number, place) = match answer {
        Ok(_) => (0, 0),
        Err(refusal) => (refusal.number(), refusal.place()),
    };
    let mut cells = vec![
        format!("\"file\":{}", text(&printable(path))),
        format!("\"number\":{number}"),
        format!("\"place\":{place}"),
        format!("\"words\":{}", text(&in_words(answer))),
    ];
    if let Ok(held) = answer {
        cells.push(format!("\"version\":{}", held.version));
        cells.push(format!("\"n_texs\":{}", held.n_texs));
        for (table, count) in TABLES.iter().zip(held.counts) {
            cells.push(format!("{}:{count}", text(&table.many.replace(' ', "_"))));
        }
    }
    format!("{{{}}}", cells.join(","))
}

/// A file that cannot be read.
pub fn failure(path: &Path, why: &str) -> String {
    let (file, why) = (text(&printable(path)), text(why));
    format!("{{\"file\":{file},\"error\":{why}}}")
}

/// A text without control letters in quotes.
pub fn text(text: &str) -> String {
    let text = text.replace('\\', "\\\\").replace('"', "\\\"");
    format!("\"{text}\"")
}
