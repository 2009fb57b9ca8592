//! Dates and times of the file formats: three numbers with a mark between them, judged as a whole (document 01, "The phase line"; document
//! 02, "Automatic arrivals").
use crate::number::*;
use crate::row::is_blank;

/// A date or a time: three numbers with a mark between them.
pub struct Moment {
    pub mark: u8,
    pub parts: [Part; 3],
    /// Whether three numbers, each in its range, are one.
    pub exists: fn(&[i64]) -> bool,
}

/// One of the numbers of a date or a time, a decimal where it has digits after a point.
pub struct Part {
    pub width: usize,
    pub decimals: Option<usize>,
    pub low: i64,
    pub high: i64,
}

impl Part {
    fn read(&self, cell: &[u8]) -> Option<i64> {
        self.decimals.map_or_else(|| read_int(cell), |d| read_dec(cell, d)).unwrap_or(None)
    }

    fn holds(&self, v: i64) -> bool {
        self.decimals.map_or_else(|| holds_int(v, self.width), |_| holds_dec(v, self.width))
    }

    fn in_range(&self, v: i64) -> bool {
        (self.low..=self.high).contains(&v)
    }

    /// Filled with zeros; no number in range is negative.
    fn write(&self, v: i64) -> String {
        let cell = self.decimals.map_or_else(|| write_int(v, self.width), |d| write_dec(v, self.width, d));
        cell.iter().map(|&b| if b == b' ' { '0' } else { b as char }).collect()
    }
}

impl Moment {
    fn in_range(&self, values: &[i64]) -> bool {
        self.parts.iter().zip(values).all(|(p, &v)| p.in_range(v)) && (self.exists)(values)
    }

    /// The numbers of a cell, none where it is blank; the form of all before the range of any.
    pub fn read(&self, cell: &[u8]) -> Result<Vec<i64>, u8> {
        if is_blank(cell) {
            return Ok(Vec::new());
        }
        let mut values = Vec::new();
        let mut from = 0;
        for p in &self.parts {
            if from > 0 && cell[from - 1] != self.mark {
                return Err(FORM);
            }
            values.push(p.read(&cell[from..from + p.width]).ok_or(FORM)?);
            from += p.width + 1;
        }
        if self.in_range(&values) {
            Ok(values)
        } else {
            Err(RANGE)
        }
    }

    pub fn write(&self, values: &[i64]) -> Result<Vec<u8>, u8> {
        let each = || self.parts.iter().zip(values);
        if !each().all(|(p, &v)| p.holds(v)) {
            return Err(WIDE);
        }
        if !self.in_range(values) {
            return Err(RANGE);
        }
        let cells: Vec<String> = each().map(|(p, &v)| p.write(v)).collect();
        Ok(cells.join(&char::from(self.mark).to_string()).into_bytes())
    }
}
