//! Rows of rates: mostly such that a Close has one to use, at times until there is no place for more.

use std::io::{self, Write};

use crate::book::{LAST_DAY, MAX_ROWS};
use crate::Generator;

impl<W: Write> Generator<W> {
    /// A starting day: today, soon, on the coming weekend, held already, far ahead, or a wrong one.
    fn starting_day(&mut self) -> u64 {
        let today = self.player.book.today;
        let held: Vec<u64> = self.player.book.rows.keys().copied().collect();
        match self.random.below(20) {
            0..=4 => today,
            5..=8 => today + self.random.between(1, 9),
            9..=11 => today / 7 * 7 + 7 + self.random.below(2),
            12..=15 if !held.is_empty() => self.random.pick(&held),
            16 => today.saturating_sub(self.random.between(1, 9)),
            17 => self.random.pick(&[LAST_DAY, LAST_DAY + 1]),
            _ => today + self.random.between(10, 400),
        }
    }

    pub fn rate_arguments(&mut self) -> Vec<u64> {
        let rate = if self.random.percent(4) {
            101
        } else {
            self.rate()
        };
        vec![self.starting_day(), rate]
    }

    /// Enters rows for the days, in the order given or in falling or rising order.
    fn enter_rows(&mut self, mut days: Vec<u64>) -> io::Result<()> {
        let order = self.random.below(3);
        if order > 0 {
            days.sort();
        }
        if order > 1 {
            days.reverse();
        }
        for day in days {
            let rate = self.rate();
            self.call("rate", &[day, rate])?;
        }
        Ok(())
    }

    /// Rows before a Close. If none has started, one for today mostly is among them, at times with others,
    /// but for a Close that is refused by 20 anyway. If one has started, there seldom is another.
    pub fn rows_before_close(&mut self) -> io::Result<()> {
        if self.player.book.rate_today().is_some() {
            return if self.random.percent(5) {
                self.plausible("rate")
            } else {
                Ok(())
            };
        }
        let mut days = Vec::new();
        for _ in 0..self.random.pick(&[0, 0, 1, 4]) {
            days.push(self.starting_day());
        }
        let today = self.player.book.today;
        let is_last = self.player.book.calendar.next_after(today).is_none();
        if !self.random.percent(if is_last { 60 } else { 4 }) {
            days.push(today);
        }
        self.enter_rows(days)
    }

    /// A book whose places for rows run out, before one of them has started or after, and days in which
    /// some of them start.
    pub fn rates_ahead(&mut self) -> io::Result<()> {
        self.open_rightly_or_not()?;
        self.enter_pairs(3)?;
        let (today, step) = (self.player.book.today, self.random.pick(&[1, 1, 2, 7, 30]));
        if self.random.percent(50) {
            let rate = self.rate();
            self.call("rate", &[today, rate])?;
        }
        let ahead = (1..=MAX_ROWS as u64 + 1).map(|number| today + number * step);
        self.enter_rows(ahead.collect())?;
        for _ in 0..self.random.between(3, 20) {
            if self.random.percent(40) {
                self.plausible("rate")?;
            }
            let close = self.close_arguments();
            self.call("close", &close)?;
            self.close_day()?;
        }
        Ok(())
    }
}

#[cfg(test)]
mod tests {
    use super::*;
    use crate::journal::CallSet;

    #[test]
    fn most_closes_have_a_row_to_use() {
        let (mut used, mut refused) = (0, 0);
        for seed in 0..200 {
            let mut generator = Generator::new(seed, 10_000, CallSet::all(), Vec::new());
            generator.noise = 0;
            generator.open_any().unwrap();
            generator.close_day().unwrap();
            match generator.player.book.last_close {
                Some(_) => used += 1,
                None => refused += 1,
            }
        }
        assert!(used >= 180 && refused > 0, "{used}, {refused}");
    }
}
