//! The file formats as tables: document 01's phase line, and document 02's automatic arrivals by the table of document 003, the days of
//! their dates by "No thirtieth of February".
use crate::calendar::days;
use crate::moment::{Moment, Part};
use crate::row::Field::{self, *};
use crate::row::Format;

const fn dec(d: usize) -> Field {
    Dec(d, i64::MIN, i64::MAX)
}
const fn int(width: usize, low: i64, high: i64) -> Part {
    Part { width, decimals: None, low, high }
}

const AZIMUTH: Field = Dec(1, 0, 3600);
const LATITUDE: Field = Dec(4, -900000, 900000);
const LONGITUDE: Field = Dec(4, -1800000, 1800000);
const TIME: Field = Marked(&Moment {
    mark: b':',
    parts: [int(2, 0, 23), int(2, 0, 59), Part { width: 6, decimals: Some(3), low: 0, high: 59999 }],
    exists: |_| true,
});
const DATE: Field = Marked(&Moment {
    mark: b'/',
    parts: [int(4, 0, 9999), int(2, 1, 12), int(2, 1, 31)],
    exists: |date| date[2] <= days(date[0], date[1]),
});

pub const PHASE: Format = Format::new(
    3,
    &[
        (1, 5, Begun),
        (7, 12, Dec(2, 0, 18000)),
        (14, 18, AZIMUTH),
        (20, 27, Text),
        (29, 40, TIME),
        (42, 46, dec(1)),
        (48, 52, AZIMUTH),
        (54, 58, dec(1)),
        (60, 65, dec(1)),
        (67, 72, dec(1)),
        (74, 74, Letters(b"T_ ")),
        (75, 75, Letters(b"A_ ")),
        (76, 76, Letters(b"S_ ")),
        (78, 82, dec(1)),
        (84, 92, dec(1)),
        (94, 98, dec(2)),
        (100, 100, Letters(b"am_ ")),
        (101, 101, Letters(b"cd_ ")),
        (102, 102, Letters(b"ieq_ ")),
        (104, 108, Text),
        (109, 109, Letters(b"<> ")),
        (110, 113, dec(1)),
        (115, 122, Text),
        (123, 125, Text),
        (127, 131, Text),
        (133, 140, Text),
        (142, 143, Text),
        (145, 149, Text),
        (151, 155, Text),
        (157, 159, Text),
        (161, 163, Text),
        (165, 165, Text),
        (167, 174, LATITUDE),
        (176, 184, LONGITUDE),
        (186, 192, dec(1)),
        (194, 199, dec(1)),
    ],
    &[
        (1, "Sta"),
        (9, "Dist"),
        (15, "EvAz"),
        (20, "Phase"),
        (33, "Time"),
        (43, "TRes"),
        (49, "Azim"),
        (54, "AzRes"),
        (62, "Slow"),
        (69, "SRes"),
        (74, "Def"),
        (80, "SNR"),
        (90, "Amp"),
        (96, "Per"),
        (100, "Qual"),
        (105, "Magnitude"),
        (118, "ArrID"),
        (127, "Agy"),
        (133, "Deploy"),
        (142, "Ln"),
        (145, "Auth"),
        (151, "Rep"),
        (157, "PCh"),
        (161, "ACh"),
        (165, "L"),
        (169, "Lat"),
        (179, "Lon"),
        (187, "Elev"),
        (195, "Depth"),
    ],
);

pub const ARRIVAL: Format = Format::new(
    5,
    &[
        (1, 9, Flush),       // network
        (11, 15, Filled),    // station
        (17, 28, Text),      // beam
        (30, 39, DATE),
        (41, 52, TIME),
        (54, 61, Text),      // phase
        (63, 67, AZIMUTH),
        (69, 73, dec(1)),    // slowness
        (75, 79, dec(1)),    // signal to noise
        (81, 89, dec(1)),    // amplitude
        (91, 95, dec(2)),    // period
        (97, 101, dec(1)),   // short-term average
        (103, 107, dec(1)),  // duration
        (109, 117, Text),    // author of the detection
        (119, 126, Text),    // detection, and its extension
        (127, 129, Text),
        (131, 135, Text),    // agency, deployment, location
        (137, 144, Text),
        (146, 147, Text),
        (149, 153, Text),    // author and reporter of the data
        (155, 159, Text),
        (161, 163, Text),    // phase and amplitude channel
        (165, 167, Text),
        (169, 169, Text),    // long period motion
        (171, 178, LATITUDE),
        (180, 188, LONGITUDE),
        (190, 196, dec(1)),  // elevation
        (198, 203, dec(1)),  // depth
    ],
    &[
        (1, "Net"),
        (11, "Sta"),
        (17, "BeamID"),
        (33, "Date"),
        (44, "Time"),
        (54, "Phase"),
        (64, "Azim"),
        (70, "Slow"),
        (77, "SNR"),
        (87, "Amp"),
        (93, "Per"),
        (99, "STA"),
        (105, "Dur"),
        (109, "Author"),
        (122, "DetID"),
        (131, "Agy"),
        (137, "Deploy"),
        (146, "Ln"),
        (149, "Auth"),
        (155, "Rep"),
        (161, "PCh"),
        (165, "ACh"),
        (169, "L"),
        (173, "Lat"),
        (183, "Lon"),
        (191, "Elev"),
        (199, "Depth"),
    ],
);

/// The sizes that the papers state: a line, a record, and the blank columns.
const fn has_sizes(f: &Format, width: usize, record: usize, blank: usize) -> bool {
    let (mut i, mut left) = (0, width);
    while i < f.fields.len() {
        left -= f.fields[i].1 - f.fields[i].0 + 1;
        i += 1;
    }
    f.width == width && f.record() == record && left == blank
}
const _: () = assert!(has_sizes(&PHASE, 199, 231, 28));
const _: () = assert!(has_sizes(&ARRIVAL, 203, 240, 26));
