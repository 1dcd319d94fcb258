//! Civil dates, and the days after them: of the kit's `jiff`, what the sources of Ropepeach use.

/// A number of days.
#[derive(Clone, Copy, Debug, PartialEq, Eq)]
pub struct Span(i64);

/// There is no such date from the year 1 to the year 9999.
#[derive(Clone, Copy, Debug, PartialEq, Eq)]
pub struct Error(());

/// What can be taken for a number of days.
pub trait ToSpan {
    /// So many days.
    fn days(self) -> Span;
}

impl ToSpan for i64 {
    fn days(self) -> Span {
        Span(self)
    }
}

/// Civil dates.
pub mod civil {
    use crate::{Error, Span};

    /// Days before 1 March of the year 0, counted from 1 January 1970.
    const BEFORE_1970: i64 = 719_468;
    /// 400 years always have as many days.
    const DAYS_OF_ERA: i64 = 146_097;

    /// A date of the Gregorian calendar.
    #[derive(Clone, Copy, Debug, PartialEq, Eq)]
    pub struct Date {
        year: i16,
        month: i8,
        day: i8,
    }

    /// The date of these numbers, which the caller knows to be one.
    pub fn date(year: i16, month: i8, day: i8) -> Date {
        Date { year, month, day }
    }

    impl Date {
        /// Its year.
        pub fn year(self) -> i16 {
            self.year
        }

        /// Its month, from 1.
        pub fn month(self) -> i8 {
            self.month
        }

        /// Its day of the month, from 1.
        pub fn day(self) -> i8 {
            self.day
        }

        /// The date so many days later, if it is from the year 1 to the year 9999.
        pub fn checked_add(self, span: Span) -> Result<Date, Error> {
            match self.days_after_1970().checked_add(span.0) {
                Some(days @ -719_162..=2_932_896) => Ok(Date::of_day(days)),
                _ => Err(Error(())),
            }
        }

        // Years begin with March, so that a leap day is the last of its year.
        fn days_after_1970(self) -> i64 {
            let month = i64::from(self.month);
            let year = i64::from(self.year) - i64::from(month <= 2);
            let year_of_era = year.rem_euclid(400);
            let day_of_year = (153 * ((month + 9) % 12) + 2) / 5 + i64::from(self.day) - 1;
            let day_of_era = 365 * year_of_era + year_of_era / 4 - year_of_era / 100 + day_of_year;
            DAYS_OF_ERA * year.div_euclid(400) + day_of_era - BEFORE_1970
        }

        fn of_day(days: i64) -> Date {
            let day_of_era = (days + BEFORE_1970).rem_euclid(DAYS_OF_ERA);
            let leap_days = day_of_era / 1460 - day_of_era / 36_524 + day_of_era / 146_096;
            let year_of_era = (day_of_era - leap_days) / 365;
            let day_of_year = day_of_era - (365 * year_of_era + year_of_era / 4 - year_of_era / 100);
            let from_march = (5 * day_of_year + 2) / 153;
            let month = if from_march < 10 { from_march + 3 } else { from_march - 9 };
            let year = 400 * (days + BEFORE_1970).div_euclid(DAYS_OF_ERA) + year_of_era + i64::from(month <= 2);
            let day = day_of_year - (153 * from_march + 2) / 5 + 1;
            Date { year: year as i16, month: month as i8, day: day as i8 }
        }
    }
}

#[cfg(test)]
mod tests {
    use super::ToSpan;
    use super::civil::date;

    fn days_of(year: i16, month: i8) -> i8 {
        match month {
            2 if year % 4 == 0 && (year % 100 != 0 || year % 400 == 0) => 29,
            2 => 28,
            4 | 6 | 9 | 11 => 30,
            _ => 31,
        }
    }

    #[test]
    fn each_day_from_1970_to_9999() {
        let first = date(1970, 1, 1);
        let mut days = 0i64;
        for year in 1970..=9999 {
            for month in 1..=12 {
                for day in 1..=days_of(year, month) {
                    assert_eq!(first.checked_add(days.days()), Ok(date(year, month, day)));
                    assert_eq!(date(year, month, day).checked_add((-days).days()), Ok(first));
                    days += 1;
                }
            }
        }
        assert_eq!(days, 2_932_897);
        assert!(first.checked_add(days.days()).is_err());
        assert!(first.checked_add(i64::MAX.days()).is_err());
    }
}
