//! Dates as year, month and day.
use std::time::{SystemTime, UNIX_EPOCH};

/// The date of the clock, in universal time.
pub fn today() -> String {
    let seconds = SystemTime::now().duration_since(UNIX_EPOCH).map_or(0, |time| time.as_secs());
    of_day(seconds / 86_400)
}

/// Whether a text is a date: four digits of the year, two of the month and two of the day.
pub fn is_date(text: &str) -> bool {
    let parts: Vec<&str> = text.split('-').collect();
    let digits = |part: &str, count: usize| part.len() == count && part.bytes().all(|byte| byte.is_ascii_digit());
    let [year, month, day] = parts[..] else {
        return false;
    };
    if !digits(year, 4) || !digits(month, 2) || !digits(day, 2) {
        return false;
    }
    let number = |part: &str| part.parse::<u64>().unwrap_or(0);
    let (year, month, day) = (number(year), number(month), number(day));
    (1..=12).contains(&month) && (1..=days_of_month(year, month)).contains(&day)
}

/// The date of a day counted from 1970-01-01.
fn of_day(mut day: u64) -> String {
    let mut year = 1970;
    while day >= days_of_year(year) {
        day -= days_of_year(year);
        year += 1;
    }
    let mut month = 1;
    while day >= days_of_month(year, month) {
        day -= days_of_month(year, month);
        month += 1;
    }
    format!("{year:04}-{month:02}-{:02}", day + 1)
}

fn is_leap(year: u64) -> bool {
    year % 4 == 0 && (year % 100 != 0 || year % 400 == 0)
}

fn days_of_year(year: u64) -> u64 {
    365 + u64::from(is_leap(year))
}

fn days_of_month(year: u64, month: u64) -> u64 {
    match month {
        2 => 28 + u64::from(is_leap(year)),
        4 | 6 | 9 | 11 => 30,
        _ => 31,
    }
}

#[cfg(test)]
mod tests {
    use super::*;

    #[test]
    fn days_have_their_dates() {
        for (day, date) in [(0, "1970-01-01"), (58, "1970-02-28"), (59, "1970-03-01"), (11_016, "2000-02-29"), (20_454, "2026-01-01")] {
            assert_eq!(of_day(day), date);
            assert!(is_date(date));
        }
        assert!(is_date(&today()));
    }

    #[test]
    fn what_is_no_date() {
        for text in ["", "2026-1-1", "2026-13-01", "2026-00-10", "2026-02-29", "2026-04-31", "26-01-01", "2026-01-01-", "2026-01-+1"] {
            assert!(!is_date(text), "{text}");
        }
        assert!(is_date("2024-02-29"));
    }
}
