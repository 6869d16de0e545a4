//! Calendar dates and their shift (document 01, "UIDs, dates, lists").

use crate::vr::Vr;

const DIGITS: usize = 8;
const DAYS_IN_ERA: i64 = 146_097; // 400 Gregorian years

/// A real day of the Gregorian calendar, carried back to the year 1; years 0001 to 9999 (D5).
#[derive(Clone, Copy, Debug, PartialEq, Eq)]
pub struct Date {
    year: i64,
    month: i64,
    day: i64,
}

impl Date {
    /// The day, if there is such a day.
    fn new(year: i64, month: i64, day: i64) -> Option<Date> {
        let is_real = (1..=9999).contains(&year)
            && (1..=12).contains(&month)
            && (1..=days_in_month(year, month)).contains(&day);
        is_real.then_some(Date { year, month, day })
    }

    /// Reads eight digits, year first; `None` if they are no digits or no real day.
    fn from_digits(digits: &[u8]) -> Option<Date> {
        let year = number(&digits[..4])?;
        let month = number(&digits[4..6])?;
        let day = number(&digits[6..8])?;
        Date::new(year, month, day)
    }

    /// The eight digits of the day.
    fn digits(self) -> [u8; DIGITS] {
        let mut rest = self.year * 10_000 + self.month * 100 + self.day;
        let mut digits = [b'0'; DIGITS];
        for digit in digits.iter_mut().rev() {
            *digit += (rest % 10) as u8;
            rest /= 10;
        }
        digits
    }

    /// The day so many days later; `None` if it leaves the years.
    fn shifted(self, days: i64) -> Option<Date> {
        Date::from_day_number(self.day_number() + days)
    }

    /// Days since the first of March of the year 0, which begins a round of 400 years. A year that begins in March
    /// has its leap day at its end, so the months before it always have the same lengths.
    fn day_number(self) -> i64 {
        let year = if self.month > 2 { self.year } else { self.year - 1 };
        let month = (self.month + 9) % 12; // March is 0
        let day_of_year = (153 * month + 2) / 5 + self.day - 1;
        year * 365 + year / 4 - year / 100 + year / 400 + day_of_year
    }

    /// The day with this number; `None` if it lies outside the years.
    fn from_day_number(number: i64) -> Option<Date> {
        if number < 0 {
            return None; // before March of the year 0
        }
        let (era, day_of_era) = (number / DAYS_IN_ERA, number % DAYS_IN_ERA);
        let year_of_era =
            (day_of_era - day_of_era / 1_460 + day_of_era / 36_524 - day_of_era / 146_096) / 365;
        let day_of_year = day_of_era - (365 * year_of_era + year_of_era / 4 - year_of_era / 100);
        let month = (5 * day_of_year + 2) / 153;
        let day = day_of_year - (153 * month + 2) / 5 + 1;
        let year = era * 400 + year_of_era;
        if month < 10 { Date::new(year, month + 3, day) } else { Date::new(year + 1, month - 9, day) }
    }
}

fn days_in_month(year: i64, month: i64) -> i64 {
    match month {
        2 if is_leap_year(year) => 29,
        2 => 28,
        4 | 6 | 9 | 11 => 30,
        _ => 31,
    }
}

fn is_leap_year(year: i64) -> bool {
    year % 4 == 0 && (year % 100 != 0 || year % 400 == 0)
}

/// The number that decimal digits stand for; `None` if one of them is none.
fn number(digits: &[u8]) -> Option<i64> {
    digits
        .iter()
        .try_fold(0, |number, digit| digit.is_ascii_digit().then(|| number * 10 + i64::from(digit - b'0')))
}

/// Moves every date of a DA or DT value by so many days, in place. `None` if one of them is malformed, no real day,
/// or leaves the years (refusal 12). An empty value has no date (D3).
pub fn shift_value(vr: Vr, value: &mut [u8], days: i64) -> Option<()> {
    if value.is_empty() {
        return Some(());
    }
    let dates = if vr == Vr::DA { without_padding(value) } else { value };
    for part in dates.split_mut(|&byte| byte == b'\\') {
        let (date, rest) = part.split_at_mut_checked(DIGITS)?;
        if vr == Vr::DA && !rest.is_empty() {
            return None;
        }
        date.copy_from_slice(&Date::from_digits(date)?.shifted(days)?.digits());
    }
    Some(())
}

/// A DA value without the one space it may end with (D2). In a DT the space belongs to the rest of the last value,
/// which is not judged (D4).
fn without_padding(value: &mut [u8]) -> &mut [u8] {
    let length = value.strip_suffix(b" ").map_or(value.len(), <[u8]>::len);
    &mut value[..length]
}

#[cfg(test)]
mod tests {
    use super::*;

    fn date(year: i64, month: i64, day: i64) -> Date {
        Date::new(year, month, day).expect("a real day")
    }

    /// The day after, found without day numbers; `None` after the last one.
    fn day_after(date: Date) -> Option<Date> {
        let Date { year, month, day } = date;
        Date::new(year, month, day + 1)
            .or_else(|| Date::new(year, month + 1, 1))
            .or_else(|| Date::new(year + 1, 1, 1))
    }

    #[test]
    fn d5_every_day_of_the_years_has_its_own_number_in_order() {
        let mut today = date(1, 1, 1);
        let mut count = 1;
        while let Some(tomorrow) = day_after(today) {
            assert_eq!(tomorrow.day_number(), today.day_number() + 1, "{tomorrow:?}");
            assert_eq!(Date::from_day_number(tomorrow.day_number()), Some(tomorrow));
            today = tomorrow;
            count += 1;
        }
        assert_eq!(today, date(9999, 12, 31));
        assert_eq!(count, 3_652_059);
    }

    #[test]
    fn d5_leap_years_are_gregorian() {
        let with_leap_day = |year| Date::new(year, 2, 29).is_some();
        assert_eq!(
            [4, 1900, 2000, 2019, 2020, 2100, 2400].map(with_leap_day),
            [true, false, true, false, true, false, true]
        );
    }

    #[test]
    fn d5_shifts_do_not_leave_the_years() {
        assert_eq!(date(1, 1, 1).shifted(-1), None);
        assert_eq!(date(1, 1, 1).shifted(-36_500), None);
        assert_eq!(date(9999, 12, 31).shifted(1), None);
        assert_eq!(date(9999, 12, 31).shifted(36_500), None);
        assert_eq!(date(1, 1, 1).shifted(3_652_058), Some(date(9999, 12, 31)));
        assert_eq!(date(101, 1, 1).shifted(-36_500), Some(date(1, 1, 25)));
    }

    #[test]
    fn digits_are_read_back() {
        assert_eq!(&date(1, 2, 3).digits(), b"00010203");
        assert_eq!(Date::from_digits(b"99991231"), Some(date(9999, 12, 31)));
        for none in
            [b"00000101", b"20200001", b"20201301", b"20200100", b"20200432", b"2020 101", b"+2020101"]
        {
            assert_eq!(Date::from_digits(none), None);
        }
    }
}
