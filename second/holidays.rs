//! The closed days of the TARGET rule (P3), for any years that a Target may ask for.
//!
//! No book is needed for them. Days have the numbers of the rules: day 0 is 1 January 2000, a
//! Saturday, so that a Sunday has the remainder 1 by 7.

use std::ops::RangeInclusive;

use crate::book::{refuse_if, Refusal};

pub const FIRST_YEAR: u64 = 2_000;
pub const LAST_YEAR: u64 = 2_178;
pub const MAX_YEARS: u64 = 8;
/// So many days of each year are closed.
pub const DAYS_A_YEAR: u64 = 6;

const YEARS: RangeInclusive<u64> = FIRST_YEAR..=LAST_YEAR;
/// The days of the months in a common year.
const MONTHS: [u64; 12] = [31, 28, 31, 30, 31, 30, 31, 31, 30, 31, 30, 31];

/// P3, Target: writes the closed days at the front of the list and returns their number.
pub fn target(first: u64, last: u64, list: &mut [u64]) -> Result<usize, Refusal> {
    refuse_if(5, (list.len() as u128) < words_needed(first, last))?;
    let outside = !YEARS.contains(&first) || !YEARS.contains(&last);
    let too_many = years_between(first, last) > u128::from(MAX_YEARS);
    refuse_if(23, outside || first > last || too_many)?;
    let days = closed_days(first, last);
    list[..days.len()].copy_from_slice(&days);
    Ok(days.len())
}

/// The number of years from the first to the last, wherever they lie. There are none where the first
/// comes after the last. All years that 64 bits can name are 2^64 of them, which needs a wider word.
pub fn years_between(first: u64, last: u64) -> u128 {
    if first > last {
        0
    } else {
        u128::from(last) - u128::from(first) + 1
    }
}

/// How many words a list needs to hold the closed days of the years.
pub fn words_needed(first: u64, last: u64) -> u128 {
    years_between(first, last) * u128::from(DAYS_A_YEAR)
}

/// The closed days of the years from the first to the last, rising. No year is before 2000.
pub fn closed_days(first: u64, last: u64) -> Vec<u64> {
    let mut new_year: u64 = (FIRST_YEAR..first).map(days_of_year).sum();
    let mut days = Vec::new();
    for year in first..=last {
        days.extend(closed_days_of(year, new_year));
        new_year += days_of_year(year);
    }
    days
}

/// 1 January, Good Friday, Easter Monday, 1 May, 25 and 26 December, whatever the weekday. They rise
/// in this order, as Easter Monday is never later than 26 April. The number of 1 January is given.
fn closed_days_of(year: u64, new_year: u64) -> [u64; DAYS_A_YEAR as usize] {
    let date = |month, day| new_year + days_before(year, month, day);
    let easter = easter(year, date(3, 21));
    [
        date(1, 1),
        easter - 2,
        easter + 1,
        date(5, 1),
        date(12, 25),
        date(12, 26),
    ]
}

fn is_leap(year: u64) -> bool {
    year % 400 == 0 || (year % 4 == 0 && year % 100 != 0)
}

fn days_of_year(year: u64) -> u64 {
    MONTHS.iter().sum::<u64>() + u64::from(is_leap(year))
}

/// How many days of the year come before a date. Months and days are counted from 1.
fn days_before(year: u64, month: usize, day: u64) -> u64 {
    let months: u64 = MONTHS[..month - 1].iter().sum();
    let leap_day = u64::from(month > 2 && is_leap(year));
    months + leap_day + day - 1
}

/// Easter Sunday of the year, as a day number. The number of 21 March is given.
///
/// This is Gauss's rule for the Gregorian calendar. Easter is the first Sunday after the church's
/// full moon of spring, which falls on 21 March or up to 28 days after it, so on 18 April at the
/// latest. Before the two exceptions below it may be 29 days after it:
///
/// - From one year to the next the moon comes 11 days earlier, or 19 days later where it would come
///   before 21 March. After 19 years the moons begin anew (`year % 19`).
/// - With each century year that is no leap year the moon falls one day later in the calendar from
///   then on (`century - century / 4`).
/// - The cycle of 19 years is a little too long for the moon in the sky. So the moon is put one day
///   earlier eight times in 2,500 years (`(8 * century + 13) / 25`).
/// - The 15 is what fits the start of all this.
/// - There are two exceptions. A moon 29 days after 21 March is put one day earlier, or Easter could
///   be as late as 26 April. A moon 28 days after it is put one day earlier in the last eight years of
///   a cycle, since the moons of one cycle are to fall on different days.
fn easter(year: u64, march_21: u64) -> u64 {
    let (century, year_of_cycle) = (year / 100, year % 19);
    let shift = 15 + century - century / 4 - (8 * century + 13) / 25;
    let mut moon = (19 * year_of_cycle + shift) % 30;
    if moon == 29 || (moon == 28 && year_of_cycle > 10) {
        moon -= 1;
    }
    let day_after = march_21 + moon + 1;
    (day_after..day_after + 7)
        .find(|&day| is_sunday(day))
        .expect("each week has a Sunday")
}

fn is_sunday(day: u64) -> bool {
    day % 7 == 1
}

#[cfg(test)]
mod tests {
    use super::*;

    /// The number of a date, day by day from 1 January 2000 on.
    fn day_number(date: (u64, usize, u64)) -> u64 {
        let (mut number, mut at) = (0, (FIRST_YEAR, 1, 1));
        while at != date {
            at = next_date(at);
            number += 1;
        }
        number
    }

    fn next_date((year, month, day): (u64, usize, u64)) -> (u64, usize, u64) {
        let length = match month {
            2 if year % 4 == 0 && year != 2_100 => 29,
            2 => 28,
            4 | 6 | 9 | 11 => 30,
            _ => 31,
        };
        match (month, day) {
            (12, 31) => (year + 1, 1, 1),
            _ if day == length => (year, month + 1, 1),
            _ => (year, month, day + 1),
        }
    }

    fn days_of(year: u64) -> Vec<u64> {
        closed_days(year, year)
    }

    fn easter_of(year: u64) -> u64 {
        days_of(year)[1] + 2
    }

    /// A Target with a list of so many 77s: the answer and the list as the call leaves it.
    fn target_in(first: u64, last: u64, words: usize) -> (Result<usize, Refusal>, Vec<u64>) {
        let mut list = vec![77; words];
        (target(first, last, &mut list), list)
    }

    /// Checks that a Target is refused and leaves its list alone.
    fn assert_refused(first: u64, last: u64, words: usize, number: Refusal) {
        let refused = (Err(number), vec![77; words]);
        assert_eq!(
            target_in(first, last, words),
            refused,
            "{first} {last} {words}"
        );
    }

    /// Checks that a Target is done, writes the days of its years and leaves the other words alone.
    fn assert_done(first: u64, last: u64, words: usize) {
        let (answer, list) = target_in(first, last, words);
        let count = 6 * (last - first + 1) as usize;
        assert_eq!(answer, Ok(count), "{first} {last} {words}");
        let years: Vec<u64> = (first..=last).flat_map(days_of).collect();
        assert_eq!(list[..count], years);
        assert!(list[count..].iter().all(|&word| word == 77));
    }

    #[test]
    fn the_year_2000() {
        let days = [0, 111, 114, 121, 359, 360];
        assert_eq!(days_of(2_000), days);
        assert_eq!(target_in(2_000, 2_000, 6), (Ok(6), days.to_vec()));
    }

    #[test]
    fn fixed_days_are_counted_day_by_day() {
        for (year, month, day, number) in [
            (2_000, 2, 29, 59),
            (2_000, 3, 1, 60),
            (2_000, 12, 31, 365),
            (2_001, 1, 1, 366),
            (2_004, 2, 29, 1_520),
            (2_100, 1, 1, 36_525),
            (2_100, 3, 1, 36_584),
            (2_101, 1, 1, 36_890),
        ] {
            assert_eq!(day_number((year, month, day)), number);
            let years: u64 = (FIRST_YEAR..year).map(days_of_year).sum();
            assert_eq!(years + days_before(year, month, day), number);
        }
        for year in YEARS {
            let days = days_of(year);
            for (place, month, day) in [(0, 1, 1), (3, 5, 1), (4, 12, 25), (5, 12, 26)] {
                assert_eq!(days[place], day_number((year, month, day)), "{year}");
            }
        }
    }

    /// Easter Sundays from 2000 to 2040, in rising years.
    const EASTERS: [(usize, u64); 41] = [
        (4, 23), // 2000
        (4, 15),
        (3, 31),
        (4, 20),
        (4, 11),
        (3, 27), // 2005
        (4, 16),
        (4, 8),
        (3, 23),
        (4, 12),
        (4, 4), // 2010
        (4, 24),
        (4, 8),
        (3, 31),
        (4, 20),
        (4, 5), // 2015
        (3, 27),
        (4, 16),
        (4, 1),
        (4, 21),
        (4, 12), // 2020
        (4, 4),
        (4, 17),
        (4, 9),
        (3, 31),
        (4, 20), // 2025
        (4, 5),
        (3, 28),
        (4, 16),
        (4, 1),
        (4, 21), // 2030
        (4, 13),
        (3, 28),
        (4, 17),
        (4, 9),
        (3, 25), // 2035
        (4, 13),
        (4, 5),
        (4, 25),
        (4, 10),
        (4, 1), // 2040
    ];

    #[test]
    fn known_easters() {
        for (year, (month, day)) in YEARS.zip(EASTERS) {
            assert_eq!(easter_of(year), day_number((year, month, day)), "{year}");
        }
        for (year, month, day) in [
            (2_049, 4, 18),
            (2_076, 4, 19),
            (2_100, 3, 28),
            (2_106, 4, 18),
            (2_133, 4, 19),
            (2_160, 3, 23),
        ] {
            assert_eq!(easter_of(year), day_number((year, month, day)), "{year}");
        }
    }

    #[test]
    fn easter_is_a_sunday_from_22_march_to_25_april() {
        for year in YEARS {
            let easter = easter_of(year);
            assert_eq!(easter % 7, 1, "{year}");
            assert!(easter >= day_number((year, 3, 22)), "{year}");
            assert!(easter <= day_number((year, 4, 25)), "{year}");
        }
    }

    /// The church's full moons of spring from 1900 to 2199, by the remainder of the year by 19.
    const MOONS: [(usize, u64); 19] = [
        (4, 14),
        (4, 3),
        (3, 23),
        (4, 11),
        (3, 31),
        (4, 18),
        (4, 8),
        (3, 28),
        (4, 16),
        (4, 5),
        (3, 25),
        (4, 13),
        (4, 2),
        (3, 22),
        (4, 10),
        (3, 30),
        (4, 17),
        (4, 7),
        (3, 27),
    ];

    #[test]
    fn easter_is_the_sunday_after_the_full_moon_of_the_tables() {
        for year in YEARS {
            let (month, day) = MOONS[(year % 19) as usize];
            let moon = day_number((year, month, day));
            let easter = easter_of(year);
            assert!(moon < easter && easter <= moon + 7, "{year}");
        }
    }

    /// Easter by the anonymous rule that Butcher, Meeus and Jones published, letter by letter.
    fn anonymous_easter(year: u64) -> (u64, usize, u64) {
        let (a, b, c) = (year % 19, year / 100, year % 100);
        let (d, e, f) = (b / 4, b % 4, (b + 8) / 25);
        let g = (b - f + 1) / 3;
        let h = (19 * a + b - d - g + 15) % 30;
        let (i, k) = (c / 4, c % 4);
        let l = (32 + 2 * e + 2 * i - h - k) % 7;
        let m = (a + 11 * h + 22 * l) / 451;
        let sum = h + l - 7 * m + 114;
        (year, (sum / 31) as usize, sum % 31 + 1)
    }

    #[test]
    fn two_rules_for_easter_agree() {
        assert_eq!(anonymous_easter(2_000), (2_000, 4, 23));
        assert_eq!(anonymous_easter(2_049), (2_049, 4, 18));
        for year in YEARS {
            assert_eq!(
                easter_of(year),
                day_number(anonymous_easter(year)),
                "{year}"
            );
        }
    }

    #[test]
    fn the_days_of_all_years_rise_up_to_the_last_day() {
        let days = closed_days(FIRST_YEAR, LAST_YEAR);
        assert_eq!(days.len(), 6 * 179);
        assert!(days.windows(2).all(|pair| pair[0] < pair[1]));
        assert!(*days.last().unwrap() <= crate::book::LAST_DAY);
    }

    #[test]
    fn a_book_takes_the_days_of_any_target() {
        use crate::book::Book;
        for first in YEARS {
            for last in first..=LAST_YEAR.min(first + MAX_YEARS - 1) {
                let opened = Book::open(2, 1, &closed_days(first, last));
                assert!(opened.is_ok(), "{first} {last}");
            }
        }
    }

    #[test]
    fn the_list_has_six_words_a_year() {
        assert_refused(2_000, 2_000, 0, 5);
        assert_refused(2_000, 2_000, 5, 5);
        assert_done(2_000, 2_000, 6);
        assert_done(2_000, 2_000, 7);
        assert_refused(2_093, 2_100, 47, 5);
        assert_done(2_093, 2_100, 48);
        assert_done(2_093, 2_100, 49);
        assert_done(2_093, 2_100, 4_096);
    }

    #[test]
    fn the_years_are_2000_to_2178() {
        assert_refused(1_999, 1_999, 6, 23);
        assert_done(2_000, 2_000, 6);
        assert_done(2_178, 2_178, 6);
        assert_refused(2_179, 2_179, 6, 23);
        assert_refused(1_999, 2_001, 18, 23);
        assert_done(2_000, 2_007, 48);
        assert_done(2_171, 2_178, 48);
        assert_refused(2_172, 2_179, 48, 23);
        assert_refused(0, 0, 4_096, 23);
        assert_refused(u64::MAX, u64::MAX, 4_096, 23);
    }

    #[test]
    fn at_most_eight_years() {
        assert_refused(2_000, 2_008, 54, 23);
        assert_refused(2_170, 2_178, 54, 23);
        assert_refused(2_000, 2_178, 1_074, 23);
        assert_refused(2_000, 2_681, 4_096, 23);
    }

    #[test]
    fn a_short_list_comes_first() {
        assert_refused(2_000, 2_008, 53, 5);
        assert_refused(2_000, 2_008, 48, 5);
        assert_refused(2_000, 2_178, 1_073, 5);
        assert_refused(2_000, 2_682, 4_096, 5);
        assert_refused(1_999, 1_999, 5, 5);
        assert_refused(2_179, 2_179, 5, 5);
        assert_refused(u64::MAX, u64::MAX, 5, 5);
    }

    #[test]
    fn reversed_years_need_no_words() {
        for words in [0, 5, 6, 48, 4_096] {
            assert_refused(2_001, 2_000, words, 23);
            assert_refused(2_178, 2_000, words, 23);
            assert_refused(2_000, 1_999, words, 23);
            assert_refused(u64::MAX, u64::MAX - 1, words, 23);
            assert_refused(u64::MAX, 0, words, 23);
        }
    }

    #[test]
    fn no_number_of_years_overflows() {
        // So many years begin with the year 0; six times these pass or wrap a word of 32 or 64 bits.
        for years in [
            u64::MAX,
            u64::MAX / 6,
            u64::MAX / 6 + 1,
            1 << 63,
            1 << 62,
            1 << 32,
            1 << 31,
            u64::from(u32::MAX) / 6 + 1,
        ] {
            for words in [0, 48, 4_096] {
                assert_refused(0, years - 1, words, 5);
                assert_refused(u64::MAX - years + 1, u64::MAX, words, 5);
            }
        }
        assert_refused(0, u64::MAX, 0, 5);
        assert_refused(0, u64::MAX, 4_096, 5);
        assert_eq!(words_needed(0, u64::MAX), 6 << 64);
    }
}
