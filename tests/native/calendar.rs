//! The Gregorian calendar carried over all years, after document 02, "No thirtieth of February".

/// Every fourth year, of the hundreds every fourth; so counted forward and backward from year 0, which is one.
fn is_leap(year: i64) -> bool {
    year % 4 == 0 && (year % 100 != 0 || year % 400 == 0)
}

/// How many days a month from 1 to 12 has.
pub fn days(year: i64, month: i64) -> i64 {
    match month {
        2 if is_leap(year) => 29,
        2 => 28,
        4 | 6 | 9 | 11 => 30,
        _ => 31,
    }
}
