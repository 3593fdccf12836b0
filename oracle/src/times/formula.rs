//! The conversion by formula: a year that begins in March has its leap day at its end, so the days before a month are (153 m + 2) / 5, and the days before a year
//! of the cycle follow from counts of leap years. No table, and no walk over years.

use crate::Side;

/// Days of the cycle of 400 years, and from 1 March of year 0 to 1 January 1970.
const CYCLE: i64 = 146_097;
const EPOCH: i64 = 719_468;

/// Days since 1 January 1970; a day past its month's end counts on into the next.
pub fn days_of(year: i64, month: i64, day: i64) -> i64 {
    let year = if month <= 2 { year - 1 } else { year };
    let cycle = year.div_euclid(400);
    let of_cycle = year.rem_euclid(400);
    let of_year = (153 * ((month + 9) % 12) + 2) / 5 + day - 1;
    cycle * CYCLE + of_cycle * 365 + of_cycle / 4 - of_cycle / 100 + of_year - EPOCH
}

/// Year, month and day.
pub fn date_of(days: i64) -> (i64, i64, i64) {
    let days = days + EPOCH;
    let cycle = days.div_euclid(CYCLE);
    let day = days.rem_euclid(CYCLE);
    let year = (day - day / 1_460 + day / 36_524 - day / 146_096) / 365;
    let of_year = day - (365 * year + year / 4 - year / 100);
    let month = (5 * of_year + 2) / 153;
    let of_month = of_year - (153 * month + 2) / 5 + 1;
    let month = if month < 10 { month + 3 } else { month - 9 };
    (cycle * 400 + year + i64::from(month <= 2), month, of_month)
}

/// The number of decimal digits, none if a byte is another.
fn number(digits: &[u8]) -> Option<u64> {
    digits.iter().try_fold(0, |n, byte| byte.is_ascii_digit().then(|| n * 10 + u64::from(byte - b'0')))
}

/// What a stamp says: days, the second of the day (a second 60 counts as the next), whether it was 60, picoseconds of the second.
fn parts(stamp: &[u8]) -> Option<(i64, u64, bool, u64)> {
    let (whole, fraction) = match stamp.len() {
        17 => (stamp, &[][..]),
        21 | 24 | 27 | 30 if stamp[17] == b'.' => (&stamp[..17], &stamp[18..]),
        _ => return None,
    };
    if whole[8] != b'-' || whole[11] != b':' || whole[14] != b':' {
        return None;
    }
    let at = |from: usize, to: usize| number(&whole[from..to]);
    let (year, month, day) = (at(0, 4)? as i64, at(4, 6)? as i64, at(6, 8)? as i64);
    let (hour, minute, second) = (at(9, 11)?, at(12, 14)?, at(15, 17)?);
    if !(1..=12).contains(&month) || hour > 23 || minute > 59 || second > 60 {
        return None;
    }
    // A day exists if it comes back from its number of days.
    let days = days_of(year, month, day);
    if day < 1 || date_of(days) != (year, month, day) {
        return None;
    }
    let picos = number(fraction)? * 10_u64.pow(12 - fraction.len() as u32);
    Some((days, (hour * 60 + minute) * 60 + second, second == 60, picos))
}

pub struct Formula;

impl Side for Formula {
    fn read(stamp: &[u8]) -> Result<(u64, u64), u8> {
        let (days, seconds, leaps, picos) = parts(stamp).ok_or(6)?;
        match u64::try_from(days) {
            Ok(days) if !leaps => {
                Ok(((days * 86_400 + seconds) * 1_000 + picos / 1_000_000_000, picos % 1_000_000_000))
            }
            _ => Err(33),
        }
    }

    fn write(millis: u64, picos: u64, area: &mut [u8]) -> Result<usize, u8> {
        if picos > 999_999_999 || millis / 86_400_000 > 2_932_896 {
            return Err(34);
        }
        let (year, month, day) = date_of((millis / 86_400_000) as i64);
        let seconds = millis / 1_000 % 86_400;
        let (hour, minute, second) = (seconds / 3_600, seconds / 60 % 60, seconds % 60);
        let mut text = [0; 30];
        let mut len = 0;
        put(&mut text, &mut len, year as u64, 4);
        put(&mut text, &mut len, month as u64, 2);
        put(&mut text, &mut len, day as u64, 2);
        mark(&mut text, &mut len, b'-');
        put(&mut text, &mut len, hour, 2);
        mark(&mut text, &mut len, b':');
        put(&mut text, &mut len, minute, 2);
        mark(&mut text, &mut len, b':');
        put(&mut text, &mut len, second, 2);
        // Groups of three zeros at the end go, and the point with the last.
        let mut fraction = millis % 1_000 * 1_000_000_000 + picos;
        let mut digits = 12;
        while digits > 0 && fraction % 1_000 == 0 {
            fraction /= 1_000;
            digits -= 3;
        }
        if digits > 0 {
            mark(&mut text, &mut len, b'.');
            put(&mut text, &mut len, fraction, digits);
        }
        area.get_mut(..len).ok_or(9)?.copy_from_slice(&text[..len]);
        Ok(len)
    }
}

fn mark(text: &mut [u8; 30], len: &mut usize, byte: u8) {
    text[*len] = byte;
    *len += 1;
}

fn put(text: &mut [u8; 30], len: &mut usize, mut n: u64, digits: usize) {
    for place in text[*len..*len + digits].iter_mut().rev() {
        *place = b'0' + (n % 10) as u8;
        n /= 10;
    }
    *len += digits;
}
