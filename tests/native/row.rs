//! A line of a file format and its record, over the format's table: document 01 ("Numbers in columns", "The phase line", "Order"), document
//! 02 ("Automatic arrivals", "No thirtieth of February", "The old Calnet cards"), docs/RECORDS.md ("Rows of file formats"). The tables are
//! in formats.rs and cards.rs, dates and times in moment.rs.
use crate::calendar::days;
use crate::moment::Moment;
use crate::number::*;

/// What stands in a field.
#[derive(Clone, Copy)]
pub enum Field {
    Text,
    /// Required text, which does not begin with a blank.
    Begun,
    /// Required text, which is not all blank.
    Filled,
    /// Text that is all blank or does not begin with a blank.
    Flush,
    /// One of these bytes.
    Letters(&'static [u8]),
    /// Digits after the point, and the ends of the range.
    Dec(usize, i64, i64),
    /// Any number.
    Num(Number),
    /// A date or a time, its numbers there or missing together.
    Marked(&'static Moment),
}
use Field::*;

/// A number by itself: digits after the point where it has one, the ends of the range, whether it must be there.
#[derive(Clone, Copy)]
pub struct Number {
    pub decimals: Option<usize>,
    pub low: i64,
    pub high: i64,
    pub required: bool,
    /// Whether it is a day, of the year and the month that are the two numbers before it.
    pub is_day: bool,
}

impl Number {
    fn read(&self, cell: &[u8]) -> Result<Option<i64>, ()> {
        self.decimals.map_or_else(|| read_int(cell), |d| read_dec(cell, d))
    }

    fn holds(&self, v: i64, w: usize) -> bool {
        self.decimals.map_or_else(|| holds_int(v, w), |_| holds_dec(v, w))
    }

    fn write(&self, v: i64, w: usize) -> Vec<u8> {
        self.decimals.map_or_else(|| write_int(v, w), |d| write_dec(v, w, d))
    }
}

impl Field {
    /// The number, where the field is one by itself.
    pub fn number(self) -> Option<Number> {
        match self {
            Dec(d, low, high) => Some(Number { decimals: Some(d), low, high, required: false, is_day: false }),
            Num(number) => Some(number),
            _ => None,
        }
    }
}

pub struct Format {
    pub kind: u8,
    /// The letter of column 1, which is no field, where the format has one.
    pub key: Option<u8>,
    /// First and last columns; every other column is blank.
    pub fields: &'static [(usize, usize, Field)],
    /// The header's words and the columns they begin in.
    pub words: &'static [(usize, &'static str)],
    pub width: usize,
    pub numbers: usize,
    texts: usize,
}

/// A field, and where a record has it: the index of its first number, or the place of its first text byte.
#[derive(Clone, Copy)]
pub struct Placed {
    pub first: usize,
    pub last: usize,
    pub field: Field,
    pub at: usize,
}

impl Placed {
    pub fn width(&self) -> usize {
        self.last - self.first + 1
    }

    /// The lowest and the highest of a number: of its range, or what the column holds.
    pub fn ends(&self, n: Number) -> (i64, i64) {
        let digits = self.width() as u32 - n.decimals.is_some() as u32;
        (n.low.max(1 - 10i64.pow(digits - 1)), n.high.min(10i64.pow(digits) - 1))
    }
}

impl Format {
    pub const fn new(kind: u8, fields: &'static [(usize, usize, Field)], words: &'static [(usize, &'static str)]) -> Format {
        let (mut i, mut numbers, mut texts) = (0, 0, 0);
        while i < fields.len() {
            match fields[i].2 {
                Dec(..) | Num(..) => numbers += 1,
                Marked(..) => numbers += 3,
                _ => texts += fields[i].1 - fields[i].0 + 1,
            }
            i += 1;
        }
        Format { kind, key: None, fields, words, width: fields[i - 1].1, numbers, texts }
    }

    /// A card, named by the letter of column 1.
    pub const fn card(key: u8, kind: u8, fields: &'static [(usize, usize, Field)]) -> Format {
        Format { key: Some(key), ..Format::new(kind, fields, &[]) }
    }

    /// The size of a record.
    pub const fn record(&self) -> usize {
        self.first_text() + self.texts
    }

    /// Where a record's numbers begin, after the kind and the flags, and its text.
    pub const fn first_number(&self) -> usize {
        1 + self.numbers
    }
    const fn first_text(&self) -> usize {
        self.first_number() + 8 * self.numbers
    }

    pub fn placed(&self) -> impl Iterator<Item = Placed> {
        let (mut number, mut text) = (0, self.first_text());
        self.fields.iter().map(move |&(first, last, field)| {
            let (next, size) = match field {
                Dec(..) | Num(..) => (&mut number, 1),
                Marked(..) => (&mut number, 3),
                _ => (&mut text, last - first + 1),
            };
            *next += size;
            Placed { first, last, field, at: *next - size }
        })
    }

    fn number_bytes(&self, i: usize) -> std::ops::Range<usize> {
        let from = self.first_number() + 8 * i;
        from..from + 8
    }

    pub fn put(&self, record: &mut [u8], i: usize, v: i64) {
        record[1 + i] = 1;
        record[self.number_bytes(i)].copy_from_slice(&v.to_be_bytes());
    }

    pub fn get(&self, record: &[u8], i: usize) -> Option<i64> {
        (record[1 + i] == 1).then(|| i64::from_be_bytes(record[self.number_bytes(i)].try_into().unwrap()))
    }

    /// Whether a number is in its range and, where it is a day, exists: year and month stand before it and were in theirs.
    fn allows(&self, record: &[u8], f: Placed, n: Number, v: i64) -> bool {
        let before = |k: usize| self.get(record, f.at - k).unwrap();
        (n.low..=n.high).contains(&v) && (!n.is_day || v <= days(before(2), before(1)))
    }

    pub fn read_line(&self, line: &[u8]) -> Result<Vec<u8>, Refusal> {
        self.judge_bytes(line)?;
        self.read_columns(line)
    }

    /// What is judged of a line before its columns.
    pub fn judge_bytes(&self, line: &[u8]) -> Result<(), Refusal> {
        if line.len() > self.width {
            return Err((LENGTH, 0));
        }
        line.iter().position(|&b| !is_text(b)).map_or(Ok(()), |i| Err((BARRED, i + 1)))
    }

    pub fn read_columns(&self, line: &[u8]) -> Result<Vec<u8>, Refusal> {
        let mut full = line.to_vec();
        full.resize(self.width, b' ');
        let mut record = vec![0; self.record()];
        record[0] = self.kind;
        let mut column = 1 + self.key.is_some() as usize;
        for f in self.placed() {
            if let Some(other) = (column..f.first).find(|&c| full[c - 1] != b' ') {
                return Err((SEPARATOR, other));
            }
            self.read_field(&full[f.first - 1..f.last], f, &mut record).map_err(|n| (n, f.first))?;
            column = f.last + 1;
        }
        Ok(record)
    }

    fn read_field(&self, cell: &[u8], f: Placed, record: &mut [u8]) -> Result<(), u8> {
        if let Some(n) = f.field.number() {
            return match n.read(cell).map_err(|()| FORM)? {
                None if n.required => Err(REQUIRED),
                None => Ok(()),
                Some(v) if !self.allows(record, f, n, v) => Err(RANGE),
                Some(v) => Ok(self.put(record, f.at, v)),
            };
        }
        match f.field {
            Marked(moment) => {
                for (i, v) in moment.read(cell)?.into_iter().enumerate() {
                    self.put(record, f.at + i, v);
                }
            }
            Letters(set) if !set.contains(&cell[0]) => return Err(LETTER),
            field => {
                judge_text(field, cell)?;
                record[f.at..f.at + cell.len()].copy_from_slice(cell);
            }
        }
        Ok(())
    }

    fn is_record(&self, r: &[u8]) -> bool {
        let numbers = (0..self.numbers).all(|i| match r[1 + i] {
            0 => r[self.number_bytes(i)].iter().all(|&b| b == 0),
            f => f == 1,
        });
        let together = |f: Placed| !matches!(f.field, Marked(..)) || (r[1 + f.at] == r[2 + f.at] && r[2 + f.at] == r[3 + f.at]);
        r[0] == self.kind && numbers && self.placed().all(together)
    }

    pub fn write_line(&self, record: &[u8], room: usize) -> Result<Vec<u8>, Refusal> {
        if record.len() < self.record() || !self.is_record(&record[..self.record()]) {
            return Err((FORM, 0));
        }
        if room < self.width {
            return Err((SHORT, 0));
        }
        let mut line = vec![b' '; self.width];
        if let Some(key) = self.key {
            line[0] = key;
        }
        for f in self.placed() {
            line[f.first - 1..f.last].copy_from_slice(&self.write_field(record, f)?);
        }
        Ok(line)
    }

    fn write_field(&self, record: &[u8], f: Placed) -> Result<Vec<u8>, Refusal> {
        let w = f.width();
        if let Some(n) = f.field.number() {
            return match self.get(record, f.at) {
                None if n.required => Err((REQUIRED, f.first)),
                None => Ok(vec![b' '; w]),
                Some(v) if !n.holds(v, w) => Err((WIDE, f.first)),
                Some(v) if !self.allows(record, f, n, v) => Err((RANGE, f.first)),
                Some(v) => Ok(n.write(v, w)),
            };
        }
        match f.field {
            Marked(moment) => {
                let values: Vec<i64> = (f.at..f.at + 3).filter_map(|i| self.get(record, i)).collect();
                if values.is_empty() {
                    return Ok(vec![b' '; w]);
                }
                moment.write(&values).map_err(|n| (n, f.first))
            }
            field => {
                let cell = &record[f.at..f.at + w];
                judge_text(field, cell).map_err(|n| (n, f.first))?;
                if let Some(i) = cell.iter().position(|&b| !is_text(b)) {
                    return Err((BARRED, f.first + i));
                }
                match field {
                    Letters(set) if !set.contains(&cell[0]) => Err((LETTER, f.first)),
                    _ => Ok(cell.to_vec()),
                }
            }
        }
    }
}

pub fn is_blank(cell: &[u8]) -> bool {
    cell.iter().all(|&b| b == b' ')
}

fn judge_text(field: Field, cell: &[u8]) -> Result<(), u8> {
    match field {
        Begun if cell[0] == b' ' => Err(REQUIRED),
        Filled if is_blank(cell) => Err(REQUIRED),
        Flush if cell[0] == b' ' && !is_blank(cell) => Err(FORM),
        _ => Ok(()),
    }
}
