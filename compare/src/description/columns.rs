//! The numbers in the columns of an epoch line and of a P line.

use super::calendar::Calendar;

/// The first and the last column of a field; the first column of a line is 1.
type Columns = (usize, usize);

/// The columns of the three coordinates.
const COORDINATES: [Columns; 3] = [(5, 18), (19, 32), (33, 46)];

/// The numbers of an epoch line, or nothing where one is not by the description.
pub fn calendar(line: &[u8]) -> Option<Calendar> {
    Some(Calendar {
        year: whole(line, (4, 7))?,
        month: whole(line, (9, 10))?,
        day: whole(line, (12, 13))?,
        hour: whole(line, (15, 16))?,
        minute: whole(line, (18, 19))?,
        second: decimal(unsigned(line, (21, 31))?, 8)?,
    })
}

/// The position of a P line in metres, or nothing where a coordinate is not by the description.
pub fn position(line: &[u8]) -> Option<[f64; 3]> {
    let mut position = [0.0; 3];
    for (metres, columns) in position.iter_mut().zip(COORDINATES) {
        *metres = coordinate(line, columns)?;
    }
    Some(position)
}

/// What stands in the columns behind the blanks, if the line has these columns.
fn unsigned(line: &[u8], (first, last): Columns) -> Option<&str> {
    let field = line.get(first - 1..last)?;
    let text = str::from_utf8(field).ok()?;
    Some(text.trim_start_matches(' '))
}

/// Blanks, then digits.
fn whole(line: &[u8], columns: Columns) -> Option<i64> {
    number(unsigned(line, columns)?)
}

/// Blanks, perhaps a minus, digits, a point and six digits: kilometres that become the metres nearest to them.
fn coordinate(line: &[u8], columns: Columns) -> Option<f64> {
    let text = unsigned(line, columns)?;
    match text.strip_prefix('-') {
        None => Some(metres(decimal(text, 6)?)),
        Some(rest) => Some(0.0 - metres(decimal(rest, 6)?)),
    }
}

/// Digits, a point and so many digits, as a whole number of the last one.
fn decimal(text: &str, decimals: usize) -> Option<i64> {
    let (before, behind) = text.split_once('.')?;
    number(before)?;
    number(behind)?;
    (behind.len() == decimals).then(|| number(&[before, behind].concat()))?
}

/// One or more digits and nothing else.
fn number(text: &str) -> Option<i64> {
    let digits = !text.is_empty() && text.bytes().all(|byte| byte.is_ascii_digit());
    digits.then(|| text.parse().expect("an i64 holds the digits of a field"))
}

/// The double nearest to so many millimetres, in metres: the language's own reading of a decimal, which rounds once.
fn metres(millimetres: i64) -> f64 {
    let text = format!("{}.{:03}", millimetres / 1000, millimetres % 1000);
    text.parse().expect("digits and a point are a double")
}
