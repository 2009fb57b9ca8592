//! Document 003's example blocks, their lines laid out by its tables, and lines and cells to put into them.
use crate::block;
use crate::row::{Field, Format};
use crate::rows::{File, ARRIVALS, PHASES};

pub struct Example {
    pub file: &'static File,
    /// Header, rows and comments, the closing line.
    pub block: Vec<u8>,
    /// A line that is not in document 003, with a value in every column of the table.
    pub full: Vec<u8>,
    /// Short lines, to be put in the place of each line of the block.
    pub short: Vec<&'static [u8]>,
}

impl Example {
    /// The block's lines without their newlines.
    pub fn lines(&self) -> Vec<&[u8]> {
        self.block.strip_suffix(b"\n").unwrap().split(|&b| b == b'\n').collect()
    }

    /// The rows, and after them the full one.
    pub fn rows(&self) -> Vec<&[u8]> {
        let rows = self.lines().into_iter().skip(1).filter(|l| l.len() == self.file.format.width);
        rows.chain([&self.full[..]]).collect()
    }
}

/// Lines that close a block or only seem to, short comments and what only seems to be one.
const SHORT_LINES: [&[u8]; 19] = [
    b"", b" ", b"   ", b"\r", b" \r", b"\x1f", b"\n", b"\n\n ()", b" ()", b" ()   ", b" (", b" (x) x", b" (\tx", b" (x)\r", b"  ()",
    b" x()", b"()", b" ()\n ()", b" )(",
];

/// sample/phases.isf; and short phase lines.
pub fn phases() -> Example {
    let full = b"ABC12 123.45 234.5 PKPbcdif 12:34:56.789 -12.3 123.4 -23.4 1234.5 -123.4 TAS 123.4 1234567.8 12.34 \
        mci mbmle<-1.2 12345678901 AGNCY DEPLOYED 00 AUTHR REPTR BHZ BHN c -12.3456 -123.4567 12345.6 1234.5";
    let rows: [&[u8]; 4] = [b"A", b"ABCDEF", b"ABCDE   0.5", b"ABCDE   0.50"];
    Example {
        file: &PHASES,
        block: include_bytes!("../../sample/phases.isf").to_vec(),
        full: full.to_vec(),
        short: SHORT_LINES.into_iter().chain(rows).collect(),
    }
}

/// Document 003's arrivals: the values of each line in the order of the table.
const ARRIVAL_LINES: [[&str; 28]; 4] = [
    [
        "IDC_SEIS", "BBB", "BP0.5_4.0", "1996/08/16", "03:41:40.523", "P", "256.3", "16.2", "13.4", "228.6", "0.33", "4.5", "0.2",
        "IDC_REB", "11618391", "411", "ISC", "IR", "", "TAP", "TAP", "???", "", "", "24.4453", "121.7783", "37.0", "0.0",
    ],
    [
        "IDC_SEIS", "BBB", "BP0.2_1.0", "1996/08/16", "03:42:04.531", "S", "334.7", "18.6", "8.2", "338.6", "0.33", "9.1", "1.2",
        "IDC_REB", "11618393", "412", "ISC", "IR", "", "TAP", "TAP", "???", "", "", "24.4453", "121.7783", "37.0", "0.0",
    ],
    [
        "IDC_SEIS", "DLBC", "BP0.2_2.0", "1996/08/16", "03:42:58.584", "P", "166.7", "16.5", "16.5", "1.5", "0.33", "2.0", "0.4",
        "IDC_REB", "11618396", "413", "ISC", "IR", "", "TAP", "TAP", "???", "", "", "24.4280", "121.7410", "113.0", "0.0",
    ],
    [
        "IDC_SEIS", "DLBC", "BP0.4_6.0", "1996/08/16", "03:44:59.808", "", "", "", "", "", "", "", "",
        "IDC_REB", "11621022", "414", "ISC", "IR", "", "TAP", "TAP", "???", "", "", "24.4280", "121.7410", "113.0", "0.0",
    ],
];

/// Every column of the arrival table with a value.
const FULL_ARRIVAL: [&str; 28] = [
    "NETWORK89", "STA45", "BEAM56789012", "1996/08/16", "23:59:59.999", "PKPbcdif", "123.4", "-12.3", "123.4", "1234567.8", "12.34", "-23.4",
    "234.5", "AUTHOR789", "12345678", "901", "AGNCY", "DEPLOYED", "00", "AUTHR", "REPTR", "BHZ", "BHN", "c", "-12.3456", "-123.4567",
    "12345.6", "1234.5",
];

/// The arrivals with a comment after the first and the third; and short arrival lines, also such as have a blank network or no station.
pub fn arrivals() -> Example {
    let format = &ARRIVALS.format;
    let [first, second, third, fourth] = ARRIVAL_LINES.map(|values| laid(format, &values));
    let lines = [block::header(format), first, b" (#OrigID 12345678)".to_vec(), second, third, b" (x)".to_vec(), fourth, vec![]];
    let rows: [&[u8]; 11] = [
        b"A", b"NETWORK8", b"NETWORK89 A", b"          STA", b"              A", b"           (x)", b" ETWORK89 STA", b"         STA",
        b"NETWORK89xSTA", b"NETWORK89 STA   BEAM         1996/08/1", b"DATA_TYPE ARRIVAL:AUTOMATIC ISF2.1",
    ];
    Example {
        file: &ARRIVALS,
        block: lines.into_iter().flat_map(|l| [l, b"\n".to_vec()].concat()).collect(),
        full: laid(format, &FULL_ARRIVAL),
        short: SHORT_LINES.into_iter().chain(rows).collect(),
    }
}

/// A line of these values, one for each field: text from its first column on, numbers up to their last.
fn laid(format: &Format, values: &[&str]) -> Vec<u8> {
    let mut line = vec![b' '; format.width];
    assert_eq!(format.fields.len(), values.len());
    for (&(first, last, field), value) in format.fields.iter().zip(values) {
        let at = if matches!(field, Field::Dec(..)) { last - value.len() } else { first - 1 };
        line[at..at + value.len()].copy_from_slice(value.as_bytes());
    }
    line
}

/// Dates or times in and out of range, of good and bad form.
pub fn marked_cells(mark: u8) -> &'static [&'static str] {
    match mark {
        b':' => &[
            "            ", "00:00:00.000", "23:59:59.999", "24:60:60.000", "-1:-1:-1.000", "-0:-0:-0.000", "12:xx:00.000", "x12:3:04.005",
            "  :  :      ", " 1: 2: 3.004",
        ],
        _ => &[
            "          ", "0000/01/01", "9999/12/31", "0000/13/32", "0000/00/00", "-001/-1/-1", "-000/-0/-0", "1996/xx/16", "x199/6/816",
            "    /  /  ", " 996/ 8/ 6", "1996-08-16", "1996/02/29", "1900/02/28", "1999/04/31",
        ],
    }
}

/// Where two bytes of such a cell are changed: in each of its parts, and across its marks.
pub fn marked_places(mark: u8) -> &'static [usize] {
    match mark {
        b':' => &[0, 1, 3, 6, 7, 10],
        _ => &[0, 2, 3, 4, 5, 7, 8],
    }
}
