//! Numbers in columns, after document 01, "Numbers in columns".

/// An integer field: `Ok(None)` where it is blank, `Err` where its form is bad.
pub fn read_int(cell: &[u8]) -> Result<Option<i64>, ()> {
    read(cell, None)
}

/// A decimal field with `d` digits after the point; the number is the one without the point.
pub fn read_dec(cell: &[u8], d: usize) -> Result<Option<i64>, ()> {
    read(cell, Some(d))
}

fn read(cell: &[u8], decimals: Option<usize>) -> Result<Option<i64>, ()> {
    let text: String = cell.iter().map(|&b| b as char).collect();
    let rest = text.trim_start_matches(' ');
    if rest.is_empty() {
        return Ok(None);
    }
    let (minus, digits) = match rest.strip_prefix('-') {
        Some(tail) => (true, tail),
        None => (false, rest),
    };
    let plain = match decimals {
        None => digits.to_string(),
        Some(d) => {
            let (whole, part) = digits.split_once('.').ok_or(())?;
            if whole.is_empty() || part.len() != d {
                return Err(());
            }
            format!("{whole}{part}")
        }
    };
    if plain.is_empty() || !plain.bytes().all(|b| b.is_ascii_digit()) {
        return Err(());
    }
    let n: i64 = plain.parse().map_err(|_| ())?;
    Ok(Some(if minus { -n } else { n }))
}

fn ten(n: usize) -> i128 {
    10i128.pow(n as u32)
}

pub fn holds_int(v: i64, w: usize) -> bool {
    let v = v as i128;
    -(ten(w - 1) - 1) <= v && v <= ten(w) - 1
}

pub fn holds_dec(v: i64, w: usize) -> bool {
    let v = v as i128;
    -(ten(w - 2) - 1) <= v && v <= ten(w - 1) - 1
}

/// Filled with zeros at the left, minus first.
pub fn write_int(v: i64, w: usize) -> Vec<u8> {
    if v < 0 {
        format!("-{:0>1$}", -(v as i128), w - 1).into_bytes()
    } else {
        format!("{v:0>w$}").into_bytes()
    }
}

/// Right-aligned with blanks, no spare leading zero.
pub fn write_dec(v: i64, w: usize, d: usize) -> Vec<u8> {
    let size = (v as i128).abs();
    let text = format!("{}{}.{:0>3$}", if v < 0 { "-" } else { "" }, size / ten(d), size % ten(d), d);
    format!("{text:>w$}").into_bytes()
}

pub fn is_text(b: u8) -> bool {
    (32..=126).contains(&b)
}

/// The refusals and answers of document 01 that more than one file names.
pub const LENGTH: u8 = 1;
pub const BARRED: u8 = 2;
pub const TYPE: u8 = 3;
pub const SEPARATOR: u8 = 4;
pub const REQUIRED: u8 = 5;
pub const FORM: u8 = 6;
pub const RANGE: u8 = 7;
pub const LETTER: u8 = 8;
pub const CHECK: u8 = 9;
pub const WIDE: u8 = 10;
pub const SHORT: u8 = 11;

/// A refusal: its number and its column.
pub type Refusal = (u8, usize);
