//! Stands in for the crate `time`: dates of the proleptic Gregorian calendar, years
//! -9999 to 9999 with year 0 a leap year, as docs/SEMANTICS.md gives their meaning.
//! It counts how often it is asked, so that such cases can be told apart.

use std::cell::Cell;

thread_local! {
    static ASKED: Cell<u64> = const { Cell::new(0) };
}

/// How often this thread has asked for a month.
pub fn asked() -> u64 {
    ASKED.get()
}

/// A month, day, hour or year that does not exist.
#[derive(Debug, Clone, Copy, PartialEq, Eq)]
pub struct ComponentRange;

#[derive(Debug, Clone, Copy, PartialEq, Eq)]
pub enum Month {
    January = 1,
    February,
    March,
    April,
    May,
    June,
    July,
    August,
    September,
    October,
    November,
    December,
}

const MONTHS: [Month; 12] = [
    Month::January,
    Month::February,
    Month::March,
    Month::April,
    Month::May,
    Month::June,
    Month::July,
    Month::August,
    Month::September,
    Month::October,
    Month::November,
    Month::December,
];

impl TryFrom<u8> for Month {
    type Error = ComponentRange;

    fn try_from(number: u8) -> Result<Self, ComponentRange> {
        ASKED.set(ASKED.get() + 1);
        let index = usize::from(number).checked_sub(1).ok_or(ComponentRange)?;
        MONTHS.get(index).copied().ok_or(ComponentRange)
    }
}

#[derive(Debug, Clone, Copy, PartialEq, Eq)]
pub enum Weekday {
    Monday,
    Tuesday,
    Wednesday,
    Thursday,
    Friday,
    Saturday,
    Sunday,
}

const WEEK: [Weekday; 7] = [
    Weekday::Monday,
    Weekday::Tuesday,
    Weekday::Wednesday,
    Weekday::Thursday,
    Weekday::Friday,
    Weekday::Saturday,
    Weekday::Sunday,
];

/// A day; the fields in this order give the order of days.
#[derive(Debug, Clone, Copy, PartialEq, Eq, PartialOrd, Ord)]
pub struct Date {
    year: i32,
    month: u8,
    day: u8,
}

/// A day and a time of it.
#[derive(Debug, Clone, Copy, PartialEq, Eq, PartialOrd, Ord)]
pub struct PrimitiveDateTime {
    date: Date,
    seconds: u32,
}

fn is_leap(year: i32) -> bool {
    year % 4 == 0 && (year % 100 != 0 || year % 400 == 0)
}

fn days_in(year: i32, month: u8) -> u8 {
    match month {
        2 if is_leap(year) => 29,
        2 => 28,
        4 | 6 | 9 | 11 => 30,
        _ => 31,
    }
}

impl Date {
    pub fn from_calendar_date(year: i32, month: Month, day: u8) -> Result<Self, ComponentRange> {
        let month = month as u8;
        let exists = (-9999..=9999).contains(&year) && (1..=days_in(year, month)).contains(&day);
        let date = Self { year, month, day };
        if exists { Ok(date) } else { Err(ComponentRange) }
    }

    pub fn with_hms(self, hour: u8, minute: u8, second: u8) -> Result<PrimitiveDateTime, ComponentRange> {
        if hour > 23 || minute > 59 || second > 59 {
            return Err(ComponentRange);
        }
        let seconds = u32::from(hour) * 3600 + u32::from(minute) * 60 + u32::from(second);
        Ok(PrimitiveDateTime { date: self, seconds })
    }

    /// Counted from 1 January of year 1, a Monday.
    pub fn weekday(self) -> Weekday {
        let before = self.year - 1;
        let leaps = before.div_euclid(4) - before.div_euclid(100) + before.div_euclid(400);
        let earlier: i32 = (1..self.month).map(|m| i32::from(days_in(self.year, m))).sum();
        let days = before * 365 + leaps + earlier + i32::from(self.day) - 1;
        WEEK[days.rem_euclid(7) as usize]
    }

    pub fn previous_day(self) -> Option<Self> {
        let (year, month) = match (self.day, self.month) {
            (1, 1) => (self.year - 1, 12),
            (1, month) => (self.year, month - 1),
            (day, _) => return Some(Self { day: day - 1, ..self }),
        };
        let day = days_in(year, month);
        (year >= -9999).then_some(Self { year, month, day })
    }
}

#[cfg(test)]
mod tests {
    use super::*;

    fn date(year: i32, month: u8, day: u8) -> Date {
        Date::from_calendar_date(year, Month::try_from(month).unwrap(), day).unwrap()
    }

    #[test]
    fn weekdays_of_known_days() {
        assert_eq!(date(1970, 1, 1).weekday(), Weekday::Thursday);
        assert_eq!(date(2026, 3, 29).weekday(), Weekday::Sunday);
        assert_eq!(date(1582, 10, 15).weekday(), Weekday::Friday);
        assert_eq!(date(0, 1, 1).weekday(), Weekday::Saturday);
    }

    #[test]
    fn each_day_follows_the_one_before() {
        let mut day = date(2001, 1, 1);
        for _ in 0..2_000 * 366 {
            let before = day.previous_day().unwrap();
            assert!(before < day);
            assert_eq!((before.weekday() as u8 + 1) % 7, day.weekday() as u8);
            day = before;
        }
    }

    #[test]
    fn leap_days() {
        assert!(Date::from_calendar_date(0, Month::February, 29).is_ok());
        assert!(Date::from_calendar_date(-4, Month::February, 29).is_ok());
        assert!(Date::from_calendar_date(1900, Month::February, 29).is_err());
        assert!(date(2026, 1, 1).with_hms(24, 0, 0).is_err());
    }
}
