//! Tables as text: a header line, then a line for each row, with a tab between
//! cells. What is printed is read back to the same words and names.

use kelompuris::columns::{Kind, Table, HEAD};

/// How floats are written.
#[derive(Clone, Copy, Debug, PartialEq, Eq)]
pub enum Floats {
    /// The shortest decimal that reads back as the same float; `nan:` and the bits of what is not a number.
    Decimal,
    /// The bits as 8 hex digits, as in older texts.
    Hex,
}

/// What stands behind the columns of `scene.tsv`, and in its one row.
const FLOATS: &str = "floats";
const DECIMAL: &str = "decimal";

/// Version and n_texs as text, and how floats are written.
pub fn print_head(words: [u32; 2]) -> String {
    let cells = cells(&HEAD, &words, &[]).join("\t");
    format!("{}\t{FLOATS}\n{cells}\t{DECIMAL}\n", HEAD.header())
}

/// Such a text. Without that column, which older texts do not have, floats are in hex.
pub fn parse_head(text: &[u8]) -> Result<([u32; 2], Floats), String> {
    let text = String::from_utf8_lossy(text);
    let mut lines: Vec<&str> = text.lines().collect();
    let mut floats = Floats::Hex;
    if let Some(header) = lines.first().and_then(|line| line.strip_suffix("\tfloats")) {
        lines[0] = header;
        for (line, number) in lines[1..].iter_mut().zip(2..) {
            match line.rsplit_once('\t') {
                Some((cells, DECIMAL)) => *line = cells,
                Some((_, cell)) => {
                    return Err(format!("line {number}, {FLOATS}: cannot read \"{cell}\""))
                }
                None => return Err(format!("line {number}: 1 cells, not 3")),
            }
        }
        floats = Floats::Decimal;
    }
    let words = parse(
        &HEAD,
        lines.join("\n").as_bytes(),
        Floats::Hex,
        &mut Vec::new(),
    )?;
    match words[..] {
        [version, n_texs] => Ok(([version, n_texs], floats)),
        _ => Err("not just one row".to_string()),
    }
}

/// The table as text; `names` holds the bytes of the names.
pub fn print(table: &Table, words: &[u32], names: &[u8]) -> String {
    let mut text = table.header() + "\n";
    for row in words.chunks(table.words()) {
        text += &cells(table, row, names).join("\t");
        text.push('\n');
    }
    text
}

/// The cells of a row.
pub fn cells(table: &Table, row: &[u32], names: &[u8]) -> Vec<String> {
    let mut left = row;
    let cells = table.kinds().map(|kind| {
        let (own, rest) = left.split_at(kind.words());
        left = rest;
        print_cell(kind, own, names)
    });
    cells.collect()
}

/// The words of the rows; names are added to `names`.
pub fn parse(
    table: &Table,
    text: &[u8],
    floats: Floats,
    names: &mut Vec<u8>,
) -> Result<Vec<u32>, String> {
    let text = text.strip_suffix(b"\n").unwrap_or(text);
    let mut lines = text.split(|&byte| byte == b'\n').zip(1..);
    let header = table.header();
    let columns = table.kinds().count();
    let first = lines.next().map_or(&b""[..], |(line, _)| line);
    if first != header.as_bytes() {
        return Err(other_header(&header, first, columns));
    }
    let mut words = Vec::new();
    for (line, number) in lines {
        let cells = line.split(|&byte| byte == b'\t');
        let found = cells.clone().count();
        if found != columns {
            return Err(format!("line {number}: {found} cells, not {columns}"));
        }
        for (column, (kind, cell)) in table.kinds().zip(cells).enumerate() {
            let Some(own) = parse_cell(kind, cell, floats, names) else {
                let cell = String::from_utf8_lossy(cell);
                let name = header.split('\t').nth(column).unwrap_or_default();
                return Err(format!("line {number}, {name}: cannot read \"{cell}\""));
            };
            words.extend_from_slice(&own[..kind.words()]);
        }
    }
    Ok(words)
}

/// What is wrong with a first line: a text of an older version lacks the last
/// columns.
fn other_header(header: &str, line: &[u8], columns: usize) -> String {
    let older = header
        .as_bytes()
        .strip_prefix(line)
        .and_then(|rest| rest.strip_prefix(b"\t"));
    match older {
        Some(rest) if !line.is_empty() => {
            let missing = String::from_utf8_lossy(rest).replace('\t', ", ");
            let found = line.split(|&byte| byte == b'\t').count();
            format!("line 1: {found} columns, not {columns}: an older width, without {missing}")
        }
        _ => "line 1: not the column names of this table".to_string(),
    }
}

fn print_cell(kind: Kind, words: &[u32], names: &[u8]) -> String {
    match kind {
        Kind::Name => escape(name(names, words)),
        Kind::Whole => (words[0] as i32).to_string(),
        Kind::Float => decimal(f32::from_bits(words[0])),
    }
}

/// The words of a cell, as many as its kind takes.
fn parse_cell(kind: Kind, cell: &[u8], floats: Floats, names: &mut Vec<u8>) -> Option<[u32; 2]> {
    match kind {
        Kind::Name => {
            let name = unescape(cell)?;
            let place = word(names.len());
            names.extend_from_slice(&name);
            Some([place, word(name.len())])
        }
        Kind::Whole => {
            let whole: i32 = std::str::from_utf8(cell).ok()?.parse().ok()?;
            Some([whole as u32, 0])
        }
        Kind::Float => match floats {
            Floats::Decimal => Some([from_decimal(cell)?, 0]),
            Floats::Hex if cell.len() == 8 => Some([hex(cell)?, 0]),
            Floats::Hex => None,
        },
    }
}

/// The shortest decimal that reads back as this float; of what is not a number its bits.
pub fn decimal(value: f32) -> String {
    if value.is_nan() {
        return format!("{NOT_A_NUMBER}{:08x}", value.to_bits());
    }
    let text = format!("{value:?}");
    match text.strip_suffix(".0") {
        Some(whole) => whole.to_string(),
        None => text,
    }
}

/// What stands before the bits of what is not a number.
const NOT_A_NUMBER: &str = "nan:";

/// The bits of a decimal, the nearest float's. One that is too large for a float is none.
fn from_decimal(cell: &[u8]) -> Option<u32> {
    let text = std::str::from_utf8(cell).ok()?;
    if let Some(digits) = text.strip_prefix(NOT_A_NUMBER) {
        let bits = hex(digits.as_bytes()).filter(|_| digits.len() == 8)?;
        return f32::from_bits(bits).is_nan().then_some(bits);
    }
    let value: f32 = text.parse().ok()?;
    let has_letters = text
        .bytes()
        .any(|byte| byte.is_ascii_alphabetic() && byte | 0x20 != b'e');
    let same_kind = match has_letters {
        // inf and infinity, with a sign or not.
        true => value.is_infinite(),
        false => value.is_finite(),
    };
    same_kind.then(|| value.to_bits())
}

/// A size as a word. One that is no word is far past every limit, and so is
/// the highest word.
fn word(size: usize) -> u32 {
    u32::try_from(size).unwrap_or(u32::MAX)
}

/// The bytes of a name place and name length.
fn name<'a>(names: &'a [u8], words: &[u32]) -> &'a [u8] {
    let place = words[0] as usize;
    &names[place..place + words[1] as usize]
}

/// Bytes outside 33 to 126 and the backslash as \xNN.
fn escape(name: &[u8]) -> String {
    let mut text = String::new();
    for &byte in name {
        match byte {
            b'\\' | 0..=32 | 127..=255 => text += &format!("\\x{byte:02x}"),
            _ => text.push(byte as char),
        }
    }
    text
}

/// The bytes of an escaped name. Any byte but a backslash stands for itself.
fn unescape(cell: &[u8]) -> Option<Vec<u8>> {
    let mut name = Vec::with_capacity(cell.len());
    let mut left = cell.iter().copied();
    while let Some(byte) = left.next() {
        if byte != b'\\' {
            name.push(byte);
            continue;
        }
        let (b'x', high, low) = (left.next()?, left.next()?, left.next()?) else {
            return None;
        };
        name.push(hex(&[high, low])? as u8);
    }
    Some(name)
}

/// The number of some hex digits, at most eight.
fn hex(digits: &[u8]) -> Option<u32> {
    let digit = |&digit: &u8| (digit as char).to_digit(16);
    digits
        .iter()
        .map(digit)
        .try_fold(0, |number, digit| Some(number << 4 | digit?))
}

#[cfg(test)]
mod tests {
    use super::{
        decimal, escape, from_decimal, parse, parse_head, print, print_head, unescape, Floats,
    };
    use kelompuris::columns::TABLES;

    #[test]
    fn every_byte_of_a_name_comes_back() {
        let name: Vec<u8> = (0..=255).collect();
        assert_eq!(unescape(escape(&name).as_bytes()), Some(name));
        assert_eq!(escape(b"a b\\\xff~"), "a\\x20b\\x5c\\xff~");
        for wrong in ["\\", "\\x", "\\x4", "\\x4g", "\\n", "a\\x+1"] {
            assert_eq!(unescape(wrong.as_bytes()), None, "{wrong}");
        }
    }

    #[test]
    fn any_words_come_back() {
        let words = [3, 0xFFFF_FFFF, 0x8000_0000, 0x7FC0_0001];
        let text = print(&TABLES[7], &words, b"");
        assert_eq!(
            text,
            "vertex\tweight\n3\tnan:ffffffff\n-2147483648\tnan:7fc00001\n"
        );
        let back = parse(
            &TABLES[7],
            text.as_bytes(),
            Floats::Decimal,
            &mut Vec::new(),
        );
        assert_eq!(back, Ok(words.to_vec()));
        let older = "vertex\tweight\n3\tffffffff\n-2147483648\t7fc00001\n";
        let back = parse(&TABLES[7], older.as_bytes(), Floats::Hex, &mut Vec::new());
        assert_eq!(back, Ok(words.to_vec()));
    }

    #[test]
    fn decimals_read_back() {
        let cases = [
            (0, "0"),
            (0x8000_0000, "-0"),
            (0x3F00_0000, "0.5"),
            (0x3F80_0000, "1"),
            (0xBF80_0000, "-1"),
            (0x3DCC_CCCD, "0.1"),
            (1, "1e-45"),
            (0x007F_FFFF, "1.1754942e-38"),
            (0x7F7F_FFFF, "3.4028235e38"),
            (0x7F80_0000, "inf"),
            (0xFF80_0000, "-inf"),
            (0x7F80_0001, "nan:7f800001"),
            (0xFFC0_0000, "nan:ffc00000"),
            // Eight digits, which would be a float in hex.
            (0x4B80_0000, "16777216"),
        ];
        for (bits, text) in cases {
            assert_eq!(decimal(f32::from_bits(bits)), text);
            assert_eq!(from_decimal(text.as_bytes()), Some(bits), "{text}");
        }
        // Each exponent and both signs, with mantissas of all kinds.
        for high in 0..512_u32 {
            for low in [
                0, 1, 2, 0x2A_AAAA, 0x40_0000, 0x55_5555, 0x7F_FFFE, 0x7F_FFFF,
            ] {
                let bits = high << 23 | low;
                let text = decimal(f32::from_bits(bits));
                assert_eq!(from_decimal(text.as_bytes()), Some(bits), "{text}");
            }
        }
    }

    #[test]
    fn what_is_no_decimal() {
        for text in [
            "",
            "one",
            "nan",
            "NaN",
            "nan:",
            "nan:3f800000",
            "nan:7fc0001",
            "0,5",
            "1e50",
            "-1e50",
            "3f800000",
            " 1",
            "1 ",
            "0x10",
        ] {
            assert_eq!(from_decimal(text.as_bytes()), None, "{text}");
        }
        for (text, value) in [
            ("+1", 1.0),
            (".5", 0.5),
            ("1.", 1.0),
            ("1E3", 1000.0),
            ("Inf", f32::INFINITY),
        ] {
            assert_eq!(
                from_decimal(text.as_bytes()),
                Some(f32::to_bits(value)),
                "{text}"
            );
        }
    }

    #[test]
    fn heads_of_both_forms() {
        let text = print_head([1, 2]);
        assert_eq!(text, "version\tn_texs\tfloats\n1\t2\tdecimal\n");
        assert_eq!(parse_head(text.as_bytes()), Ok(([1, 2], Floats::Decimal)));
        assert_eq!(
            parse_head(b"version\tn_texs\n1\t2\n"),
            Ok(([1, 2], Floats::Hex))
        );
        for wrong in [
            "",
            "version\tn_texs\tfloats\n",
            "version\tn_texs\tfloats\n1\t2\n",
            "version\tn_texs\tfloats\n1\t2\tbinary\n",
            "version\tn_texs\tfloats\n1\t2\tdecimal\n1\t2\tdecimal\n",
            "version\tn_texs\n1\t2\tdecimal\n",
        ] {
            assert!(parse_head(wrong.as_bytes()).is_err(), "{wrong}");
        }
    }

    #[test]
    fn rows_have_the_words_of_the_format() {
        let words = TABLES.each_ref().map(|table| table.words());
        assert_eq!(words, [9, 17, 21, 9, 42, 4, 3, 2, 4, 11]);
    }
}
