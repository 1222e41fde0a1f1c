//! Holds docs/NESTING.md to the constant of crates/b3d_rule_nesting_table, and the
//! independent reader to the page: its table, over every order of a few
//! chunks, and its examples.

use reference::{judge, Mode};
use scenes::chunk::KNOWN;
use scenes::nesting::{order, orders, Order};
use std::collections::HashMap;
use std::fs;
use std::path::Path;

/// A tag inside a chunk, as the constant has it.
#[derive(Clone, Copy, Debug, Default, PartialEq)]
struct Entry {
    allowed: bool,
    turn: u8,
    must: bool,
    again: bool,
}

type Table = [[Entry; 10]; 10];

/// The words of the page for a number: must stand, may stand again.
const NUMBERS: [(&str, bool, bool); 4] = [
    ("at most once", false, false),
    ("any number", false, true),
    ("exactly one", true, false),
    ("one or more", true, true),
];

/// A file of the repository.
fn text(path: &str) -> String {
    let root = Path::new(env!("CARGO_MANIFEST_DIR")).join("../..");
    fs::read_to_string(root.join(path)).unwrap_or_else(|error| panic!("{path}: {error}"))
}

/// Ten of something, in the order of the tags.
fn ten<T: std::fmt::Debug>(items: Vec<T>) -> [T; 10] {
    items.try_into().expect("ten of them")
}

fn names() -> Vec<String> {
    let name = |tag: [u8; 4]| String::from_utf8(tag.to_vec()).unwrap();
    KNOWN.map(name).to_vec()
}

/// The lines between two lines of a text.
fn between<'a>(text: &'a str, first: &str, last: &str) -> Vec<&'a str> {
    let lines = text.lines().skip_while(|line| *line != first).skip(1);
    let body: Vec<&str> = lines.take_while(|line| *line != last).collect();
    assert!(!body.is_empty(), "no lines after {first}");
    body
}

/// The named entries of the source.
fn entries(source: &str) -> HashMap<&str, Entry> {
    let mut named = HashMap::new();
    for line in source.lines() {
        let Some(name) = line
            .strip_prefix("const ")
            .and_then(|line| line.strip_suffix(": Entry = Entry {"))
        else {
            continue;
        };
        let fields: HashMap<&str, &str> = between(source, line, "};")
            .into_iter()
            .map(|field| {
                field
                    .trim()
                    .trim_end_matches(',')
                    .split_once(": ")
                    .expect("a field")
            })
            .collect();
        let flag = |field| match fields[field] {
            "true" => true,
            "false" => false,
            other => panic!("{name}: {field} is {other}"),
        };
        let entry = Entry {
            allowed: flag("allowed"),
            turn: fields["turn"].parse().expect("a turn"),
            must: flag("must"),
            again: flag("again"),
        };
        assert_eq!(fields.len(), 4, "{name}");
        assert!(named.insert(name, entry).is_none(), "{name} twice");
    }
    named
}

/// The constant `NESTING` of crates/b3d_rule_nesting_table.
fn constant() -> Table {
    let source = text("crates/b3d_rule_nesting_table/src/lib.rt");
    let named = entries(&source);
    let lines = between(&source, "const NESTING: [[Entry; 10]; 10] = [", "];");
    let columns: Vec<&str> = lines[0]
        .trim()
        .trim_start_matches('/')
        .split_whitespace()
        .collect();
    assert_eq!(columns, names(), "the columns that the comment names");
    let row = |(line, tag): (&&str, String)| {
        let (cells, comment) = line.trim().split_once("], // ").expect("a row");
        assert_eq!(comment, tag, "the row that the comment names");
        let cells = cells.strip_prefix('[').expect("a row");
        match cells.strip_suffix("; 10") {
            Some(name) => [named[name]; 10],
            None => ten(cells.split(", ").map(|name| named[name]).collect()),
        }
    };
    assert_eq!(lines.len(), 11);
    ten(lines[1..].iter().zip(names()).map(row).collect())
}

/// The cells of a line of a table on the page.
fn cells(line: &str) -> Vec<&str> {
    line.trim_matches('|').split('|').map(str::trim).collect()
}

/// The rows of the table on the page that begins with these cells.
fn rows<'a>(page: &'a str, head: &[&str]) -> Vec<Vec<&'a str>> {
    let mut lines = page.lines().skip_while(|line| cells(line) != head);
    lines.next().unwrap_or_else(|| panic!("no table {head:?}"));
    lines.next().expect("the line under the head");
    lines
        .take_while(|line| line.starts_with('|'))
        .map(cells)
        .collect()
}

fn entry(cell: &str) -> Entry {
    if cell == "-" {
        return Entry::default();
    }
    let (turn, number) = cell
        .split_once(", ")
        .unwrap_or_else(|| panic!("cell {cell}"));
    let (_, must, again) = *NUMBERS
        .iter()
        .find(|(words, _, _)| *words == number)
        .unwrap_or_else(|| panic!("number {number}"));
    Entry {
        allowed: true,
        turn: turn.parse().expect("a turn"),
        must,
        again,
    }
}

/// The table of docs/NESTING.md.
fn page() -> Table {
    let page = text("docs/NESTING.md");
    let names = names();
    let mut head = vec!["Inside"];
    head.extend(names.iter().map(String::as_str));
    let row = |(cells, name): (Vec<&str>, &String)| {
        assert_eq!(cells[0], name, "the order of the rows");
        ten(cells[1..].iter().map(|cell| entry(cell)).collect())
    };
    let rows = rows(&page, &head);
    assert_eq!(rows.len(), 10);
    ten(rows.into_iter().zip(&names).map(row).collect())
}

fn index(tag: [u8; 4]) -> usize {
    KNOWN
        .iter()
        .position(|known| *known == tag)
        .expect("a known tag")
}

/// What the page says of these chunks: number and place.
fn expected(table: &Table, order: &Order) -> (u32, u32) {
    let row = &table[index(order.inside)];
    let owed = |after: u8, before: u8| {
        row.iter()
            .any(|entry| entry.must && after < entry.turn && entry.turn < before)
    };
    let (mut turn, mut spent) = (0, false);
    for (&tag, &place) in order.tags.iter().zip(&order.places) {
        let entry = row[index(tag)];
        let stands = entry.allowed
            && (turn < entry.turn && !owed(turn, entry.turn)
                || turn == entry.turn && (entry.again || !spent));
        if !stands {
            return (4, place);
        }
        spent = !entry.again || turn == entry.turn && spent;
        turn = entry.turn;
    }
    match owed(turn, u8::MAX) {
        true => (8, order.head),
        false => (0, 0),
    }
}

#[test]
fn the_page_shows_the_constant() {
    let (page, constant, names) = (page(), constant(), names());
    for (inside, tags) in names.iter().enumerate() {
        for (tag, name) in names.iter().enumerate() {
            assert_eq!(
                page[inside][tag], constant[inside][tag],
                "{name} inside {tags}"
            );
        }
    }
}

#[test]
fn every_order_is_judged_by_the_page() {
    let table = page();
    let mut met = [0; 9];
    for order in orders(4) {
        let answer = judge(Mode::Strict, &order.file);
        let found = (answer.number, answer.place);
        assert_eq!(
            found,
            expected(&table, &order),
            "{:?} inside {:?}",
            order.tags,
            order.inside
        );
        met[answer.number as usize] += 1;
    }
    println!("numbers met: {met:?}");
    assert!(met[0] > 50 && met[4] > 1000 && met[8] > 1, "{met:?}");
}

#[test]
fn the_examples_of_the_page_hold() {
    let page = text("docs/NESTING.md");
    let tag = |name: &str| -> [u8; 4] { name.as_bytes().try_into().expect("a tag") };
    let rows = rows(&page, &["Inside", "Chunks", "Answer"]);
    assert!(rows.len() > 10);
    for row in rows {
        let chunks = row[1].split(", ").filter(|name| *name != "none");
        let order = order(tag(row[0]), &chunks.map(tag).collect::<Vec<_>>());
        let says = row[2].split(':').next().unwrap();
        let expected = match (says, says.strip_prefix("4 at chunk ")) {
            ("accepted", _) => (0, 0),
            ("8", _) => (8, order.head),
            (_, Some(chunk)) => (
                4,
                order.places[chunk.parse::<usize>().expect("a chunk") - 1],
            ),
            _ => panic!("answer {says}"),
        };
        let answer = judge(Mode::Strict, &order.file);
        assert_eq!((answer.number, answer.place), expected, "{row:?}");
    }
}
