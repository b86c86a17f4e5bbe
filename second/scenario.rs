//! The lives of books that a journal is strung together from.

use std::io::{self, Write};

use crate::book::{LAST_DAY, MAX_SETTLEMENT_DAY, MEMBERS};
use crate::journal::NAMES;
use crate::Generator;

impl<W: Write> Generator<W> {
    pub fn any_scenario(&mut self) -> io::Result<()> {
        self.readings = self.random.pick(&[5, 20, 40, 60]);
        self.noise = self.random.pick(&[0, 2, 5, 10, 25]);
        self.targets = self.random.pick(&[0, 0, 1, 3]);
        match self.random.below(200) {
            0..=15 => self.mixed_life(),
            16..=30 => self.stages(),
            31..=42 => self.auctions(),
            43..=45 => self.full_auction(),
            46..=55 => self.matching(),
            56..=64 => self.months(),
            65..=71 => self.refusals(),
            72..=75 => self.openings(),
            76..=79 => self.refused_open(),
            80..=84 => self.end_of_calendar(),
            85..=90 => self.crowd(),
            91..=98 => self.heavy_crowd(),
            99 | 100 => self.many_legs(),
            101 | 102 => self.long_life(),
            103 | 104 => self.scrawl(),
            105..=110 => self.jams(),
            111..=118 => self.everybody_paid(),
            119..=142 => self.twins(),
            143..=149 => self.targets(),
            150 | 151 => self.long_targets(),
            152..=154 => self.targets_amid_life(),
            155..=157 => self.each_call_after_a_target(),
            158..=163 => self.opened_by_targets(),
            164..=183 => self.first_come(),
            184..=187 => self.one_price_for_all(),
            188..=191 => self.crowd_of_prices(),
            _ => self.rates_ahead(),
        }
    }

    pub fn open_any(&mut self) -> io::Result<()> {
        let first = self.first_day();
        let terms = u64::from(self.random.percent(65));
        self.open_book(first, terms)
    }

    /// Calls of all kinds, some kinds more than others.
    pub fn mixed_life(&mut self) -> io::Result<()> {
        if !self.random.percent(5) {
            self.open_any()?;
        }
        // A kind stands in the urn as often as it is to be drawn.
        let kinds = NAMES[1..8].iter().chain(&["again", "rate"]);
        let urn: Vec<&str> = kinds
            .flat_map(|&name| vec![name; self.random.pick(&[1, 2, 4, 10])])
            .collect();
        for _ in 0..self.random.between(20, 200) {
            let name = self.random.pick(&urn);
            let needs_obligation = ["cancel", "deliver", "offer"].contains(&name);
            if needs_obligation
                && self.player.book.obligations.is_empty()
                && self.random.percent(90)
            {
                let day = self.settlement_day();
                self.enter_pair(day)?;
            }
            self.plausible(name)?;
        }
        Ok(())
    }

    /// Some obligations are taken day by day through notice, grace, buy-in and the last day.
    fn stages(&mut self) -> io::Result<()> {
        self.open_any()?;
        self.life_of_stages()
    }

    pub fn life_of_stages(&mut self) -> io::Result<()> {
        for _ in 0..self.random.between(1, 12) {
            let day = self.settlement_day();
            self.enter_pair(day)?;
        }
        let activity = self.random.pick(&[0, 20, 60, 120]);
        let days = self.player.book.terms.last + self.random.between(1, 8);
        for _ in 0..days {
            if self.is_done() {
                return Ok(());
            }
            for name in ["enter", "deliver", "offer", "offer", "cancel", "withdraw"] {
                if self.random.below(300) < activity {
                    self.plausible(name)?;
                }
            }
            self.offers_of_the_day(4)?;
            self.close_day()?;
            if self.random.percent(4) {
                self.plausible("month")?;
            }
        }
        Ok(())
    }

    pub fn close_day(&mut self) -> io::Result<()> {
        self.rows_before_close()?;
        let mut arguments = self.close_arguments();
        arguments[1] = arguments[1].max(1_152);
        self.call("close", &arguments).map(|_| ())
    }

    pub fn close_days(&mut self, days: u64) -> io::Result<()> {
        for _ in 0..days {
            self.close_day()?;
        }
        Ok(())
    }

    /// Up to so many offers for obligations in their buy-in days, and at times what empties them.
    fn offers_of_the_day(&mut self, most: u64) -> io::Result<()> {
        for _ in 0..self.random.between(0, most) {
            let terms = self.player.book.terms;
            let calendar = self.player.book.calendar.clone();
            let today = self.player.book.today;
            let found = self.obligation_where(|o| {
                let age = calendar.clearing_days_between(o.day, today);
                o.outstanding() > 0 && age >= terms.grace && age <= terms.last + 1
            });
            let Some(number) = found else {
                return Ok(());
            };
            let offer = self.offer_for(number);
            self.call("offer", &offer)?;
        }
        if self.random.percent(10) {
            let deliver = self.deliver_arguments();
            self.call("deliver", &deliver)?;
        }
        if self.random.percent(4) {
            self.cancel_by_both()?;
        }
        Ok(())
    }

    /// Both parties' wishes, at times repeated or with a delivery between them.
    fn cancel_by_both(&mut self) -> io::Result<()> {
        let Some(number) = self.obligation_where(|o| o.outstanding() > 0) else {
            return Ok(());
        };
        let parties = &self.player.book.obligations[number];
        let mut wishes = [parties.seller, parties.buyer];
        if self.random.percent(50) {
            wishes.reverse();
        }
        self.call("cancel", &[number as u64, wishes[0]])?;
        if self.random.percent(30) {
            self.call("cancel", &[number as u64, wishes[0]])?;
        }
        if self.random.percent(30) {
            self.call("deliver", &[number as u64, 1])?;
        }
        self.call("cancel", &[number as u64, wishes[1]])?;
        if self.random.percent(30) {
            let again = self.random.pick(&wishes);
            self.call("cancel", &[number as u64, again])?;
        }
        self.call("status", &[number as u64]).map(|_| ())
    }

    /// A few obligations, and many offers on their buy-in days.
    pub fn auctions(&mut self) -> io::Result<()> {
        self.open_any()?;
        let delay = self.random.below(3);
        for _ in 0..self.random.between(1, 4) {
            let delay = if self.random.percent(70) {
                delay
            } else {
                self.random.below(3)
            };
            let day = self.day_after(delay);
            self.enter_pair(day)?;
        }
        let readings = std::mem::replace(&mut self.readings, 2);
        let days = self.player.book.terms.grace + self.random.between(0, 2);
        self.close_days(days)?;
        self.readings = readings;
        for _ in 0..self.random.between(3, 7) {
            let most = self.random.pick(&[0, 3, 6, 6, 12, 12, 25, 66]);
            self.offers_of_the_day(most)?;
            if most == 66 {
                for _ in 0..self.random.between(0, 40) {
                    self.plausible("offer")?;
                }
            }
            // A Month leaves the offers alone.
            if self.random.percent(15) {
                self.month_in_full()?;
            }
            self.close_day()?;
        }
        Ok(())
    }

    /// 64 offers on one day for several obligations, some of which are emptied before the Close:
    /// their offers still count.
    fn full_auction(&mut self) -> io::Result<()> {
        (self.readings, self.noise) = (5, self.random.pick(&[0, 2]));
        self.open_any()?;
        let day = self.day_after(0);
        for _ in 0..self.random.between(3, 6) {
            self.enter_pair(day)?;
        }
        let days = self.player.book.terms.grace + self.random.between(1, 2);
        self.close_days(days)?;
        for _ in 0..self.random.between(58, 75) {
            self.plausible("offer")?;
        }
        for _ in 0..self.random.between(1, 2) {
            self.empty_one()?;
        }
        for _ in 0..self.random.between(2, 12) {
            self.plausible("offer")?;
        }
        self.close_days(5)
    }

    /// Delivers or cancels all that is outstanding of one obligation.
    fn empty_one(&mut self) -> io::Result<()> {
        if self.random.percent(40) {
            return self.cancel_by_both();
        }
        let Some(number) = self.obligation_where(|o| o.outstanding() > 0) else {
            return Ok(());
        };
        let outstanding = self.player.book.obligations[number].outstanding();
        self.call("deliver", &[number as u64, outstanding])
            .map(|_| ())
    }

    /// Many legs alike: which one matches, if any, is a close call.
    fn matching(&mut self) -> io::Result<()> {
        if self.random.percent(50) {
            self.open_any()?;
        }
        for _ in 0..self.random.between(1, 12) {
            let leg = self.new_leg();
            for _ in 0..self.random.between(1, 5) {
                let mut alike = leg;
                alike[4] = self.near_amount(leg[4]).max(1);
                if self.random.percent(20) {
                    let place = self.random.place(6);
                    alike[place] = self.new_leg()[place];
                }
                self.call("enter", &alike)?;
            }
            if self.random.percent(30) {
                self.plausible("withdraw")?;
            }
            for _ in 0..self.random.between(1, 5) {
                let [member, other, side, quantity, amount, day] = leg;
                let amount = self.near_amount(amount).max(1);
                self.call("enter", &[other, member, 1 - side, quantity, amount, day])?;
            }
            if self.random.percent(25) {
                self.close_day()?;
            }
        }
        Ok(())
    }

    /// Few debtors, several creditors whose claims like to be equal.
    pub fn months(&mut self) -> io::Result<()> {
        self.open_any()?;
        if self.random.percent(30) {
            self.plausible("month")?;
        }
        let quantities = [
            self.random.between(1, 9),
            self.random.between(1, 50),
            self.random.between(1, 100_000),
        ];
        let debtors = self.random.between(1, 3);
        for _ in 0..self.random.between(1, 14) {
            let seller = self.random.below(debtors) * 11;
            let buyer = (seller + self.random.between(1, 31)) % MEMBERS as u64;
            let (quantity, day) = (self.random.pick(&quantities), self.player.book.today);
            self.call("enter", &[seller, buyer, 0, quantity, 1_000, day])?;
            self.call("enter", &[buyer, seller, 1, quantity, 1_000, day])?;
        }
        for _ in 0..self.random.between(1, 5) {
            for _ in 0..self.random.below(4) {
                self.close_day()?;
            }
            for _ in 0..self.random.between(1, 3) {
                self.plausible("month")?;
            }
        }
        Ok(())
    }

    /// Spoiled calls of all kinds, now on the book as it is, now on a new one.
    fn refusals(&mut self) -> io::Result<()> {
        if self.random.percent(40) {
            self.open_any()?;
            for _ in 0..self.random.between(0, 4) {
                let day = self.settlement_day();
                self.enter_pair(day)?;
            }
        }
        for _ in 0..self.random.between(10, 80) {
            self.any_spoiled()?;
            if self.random.percent(20) {
                self.reading()?;
            }
        }
        for _ in 0..self.random.below(6) {
            self.spoiled("open")?;
        }
        Ok(())
    }

    /// One Open after another, good and bad, with just enough after each to tell the book.
    fn openings(&mut self) -> io::Result<()> {
        for _ in 0..self.random.between(5, 20) {
            match self.random.below(6) {
                0 => self.open_any()?,
                1 => self.long_open()?,
                2 => {
                    let day = self
                        .random
                        .pick(&[0, 1, 2, 7, 8, 9, 65_532, 65_533, 65_534, 65_535, 65_537]);
                    self.open_book(day, 1)?;
                }
                3 => {
                    let day = self.first_day();
                    self.call("open", &[day, 1, 2, day, day + 1])?;
                }
                _ => self.spoiled("open")?,
            }
            if self.random.percent(30) {
                self.plausible("again")?;
            }
            let today = self.player.book.today;
            self.enter_pair(today)?;
            if self.random.percent(30) {
                self.close_day()?;
                self.enter_pair(today)?;
            }
        }
        Ok(())
    }

    /// A refused Open, by any of its numbers.
    pub fn open_wrongly(&mut self) -> io::Result<()> {
        let day = self.first_day();
        let weekend = day / 7 * 7 + self.random.below(2);
        let refused: [&[u64]; 9] = [
            &[day, 2, 0],
            &[day, u64::MAX, 2, 5, 5],
            &[day, 1, 2, 9, 9],
            &[day, 1, 2, 9, 8],
            &[day, 1, 1, LAST_DAY + 1],
            &[day, 1, 1, day],
            &[weekend, 1, 0],
            &[LAST_DAY, 0, 0],
            &[day + 70_000 / 7 * 7, 1, 0],
        ];
        let arguments = self.random.pick(&refused).to_vec();
        self.call("open", &arguments).map(|_| ())
    }

    /// The book that a refused Open returns, and some life in it.
    fn refused_open(&mut self) -> io::Result<()> {
        self.open_wrongly()?;
        let days = self.random.between(0, 36);
        self.enter_pair(2)?;
        self.enter_pair(3)?;
        self.close_days(days)?;
        for _ in 0..self.random.between(0, 20) {
            let name = NAMES[1 + self.random.place(NAMES.len() - 1)];
            self.plausible(name)?;
        }
        Ok(())
    }

    /// A book near the last day there is, or near the last settlement day.
    fn end_of_calendar(&mut self) -> io::Result<()> {
        let end = self.random.pick(&[LAST_DAY, LAST_DAY, MAX_SETTLEMENT_DAY]);
        let first = end / 7 * 7 - self.random.pick(&[7, 7, 14, 28]) + self.random.between(2, 6);
        let terms = self.random.below(2);
        self.open_book(first, terms)?;
        for _ in 0..self.random.between(2, 45) {
            self.close_day()?;
            if self.random.percent(10) {
                self.plausible("again")?;
            }
            if self.random.percent(15) {
                self.plausible("month")?;
            }
            if self.random.percent(40) {
                let mut leg = self.leg_arguments();
                if self.random.percent(60) {
                    leg[5] = self
                        .random
                        .between(MAX_SETTLEMENT_DAY - 8, MAX_SETTLEMENT_DAY + 3);
                }
                self.call("enter", &leg)?;
            }
            if self.random.percent(10) {
                self.any_spoiled()?;
            }
        }
        Ok(())
    }

    /// All legs at once: 64 obligations, or a few less.
    fn fill_book(&mut self, leg: impl Fn(u64, u64) -> [u64; 6]) -> io::Result<()> {
        let in_turn = self.random.percent(50);
        let count = if self.random.percent(80) {
            64
        } else {
            self.random.between(50, 63)
        };
        for place in 0..2 * count {
            let (number, side) = if in_turn {
                (place / 2, place % 2)
            } else {
                (place % count, place / count)
            };
            self.call("enter", &leg(number, side))?;
        }
        self.enter_when_full()
    }

    fn enter_when_full(&mut self) -> io::Result<()> {
        for _ in 0..self.random.below(4) {
            self.plausible("enter")?;
            self.spoiled("enter")?;
        }
        Ok(())
    }

    /// Legs without end, waiting, withdrawn and matched.
    fn many_legs(&mut self) -> io::Result<()> {
        (self.readings, self.noise) = (3, self.random.pick(&[0, 2]));
        self.open_any()?;
        for _ in 0..self.random.between(120, 150) {
            self.plausible("enter")?;
            if self.random.percent(15) {
                self.plausible("withdraw")?;
            }
        }
        self.enter_when_full()
    }

    /// 64 obligations that come to their last day together, with 64 offers: 192 lines.
    fn crowd(&mut self) -> io::Result<()> {
        (self.readings, self.noise) = (3, self.random.pick(&[0, 0, 1]));
        let first = self.random.between(0, 8_000) * 7 + 2;
        let (terms, delay) = (u64::from(self.random.percent(70)), self.random.below(2));
        self.open_book(first, terms)?;
        let day = self.day_after(delay);
        let (spread, quantity) = (
            self.random.between(1, 31),
            self.random.pick(&[2, 3, 10, 1_000, 100_000]),
        );
        let price = self.random.between(95_000, 105_000);
        self.fill_book(|number, side| {
            let parties = [number % 32, (number % 32 + 1 + number % spread) % 32];
            let amount = quantity * price + number % 7;
            [
                parties[side as usize],
                parties[1 - side as usize],
                side,
                quantity,
                amount,
                day,
            ]
        })?;
        let last = self.player.book.terms.last;
        let until = self
            .player
            .book
            .calendar
            .clearing_days_between(self.player.book.today, day)
            + last;
        // Early and large offers take lines away from the last day, so that many crowds have none.
        let (early, large) = (self.random.pick(&[0, 0, 30]), self.random.pick(&[0, 10]));
        for left in (1..=until).rev() {
            if left < 5 && self.random.percent(early) {
                self.offers_of_the_day(6)?;
            }
            self.close_day()?;
        }
        let all_in_turn = self.random.percent(70);
        for number in 0..64 {
            let number = if all_in_turn {
                number
            } else {
                self.random.below(64)
            };
            let most = if self.random.percent(large) {
                quantity
            } else {
                1
            };
            let offer = [
                number,
                number * 15,
                self.random.between(1, most),
                self.random.between(90_000, 95_000),
            ];
            self.call("offer", &offer)?;
        }
        self.plausible("offer")?;
        self.close_day()?;
        self.jam()?;
        self.close_day()?;
        self.jam()?;
        self.plausible("month")?;
        self.plausible("month")
    }

    /// The largest accounts there can be: the most obligations, quantity, price and rate.
    fn heavy_crowd(&mut self) -> io::Result<()> {
        (self.readings, self.noise) = (3, 0);
        let first = self.random.between(0, 8_000) * 7 + 2;
        self.open_book(first, 0)?;
        let day = self.player.book.today;
        let (sellers, buyers) = (
            self.random.pick(&[1, 1, 3]),
            self.random.pick(&[1, 1, 1, 2]),
        );
        self.fill_book(|number, side| {
            let parties = [number % sellers, 31 - number % buyers];
            [
                parties[side as usize],
                parties[1 - side as usize],
                side,
                100_000,
                20_000_000_000,
                day,
            ]
        })?;
        self.call("rate", &[day, 100])?;
        for _ in 0..self.random.between(34, 37) {
            self.call("close", &[150_000, 1_152, 0])?;
        }
        if self.random.percent(85) {
            self.month_in_full()?;
        }
        for _ in 0..2 {
            self.plausible("month")?;
        }
        Ok(())
    }

    /// Hundreds of Closes with Months, and obligations all along the way.
    fn long_life(&mut self) -> io::Result<()> {
        (self.readings, self.noise) = (self.random.pick(&[1, 10]), self.random.pick(&[0, 1, 3]));
        self.open_any()?;
        let days = self.random.between(150, 400);
        self.cast.delays = (0..20).map(|_| self.random.between(0, days)).collect();
        for _ in 0..self.random.between(5, 50) {
            let day = self.settlement_day();
            self.enter_pair(day)?;
        }
        for day in 1..=days {
            if self.is_done() {
                return Ok(());
            }
            if self.random.percent(10) {
                let name = self
                    .random
                    .pick(&["enter", "deliver", "cancel", "withdraw"]);
                self.plausible(name)?;
            }
            self.offers_of_the_day(2)?;
            self.close_day()?;
            if day % 21 == 0 {
                self.plausible("month")?;
            }
        }
        Ok(())
    }

    /// The printer jams in one book after another.
    pub fn jams(&mut self) -> io::Result<()> {
        (self.readings, self.noise) = (self.random.pick(&[2, 20]), self.random.pick(&[0, 2]));
        for _ in 0..self.random.between(2, 4) {
            self.open_for_jams()?;
            self.life_with_jams()?;
        }
        Ok(())
    }

    /// A new book, accepted or refused, at times one that can have few Closes or none.
    fn open_for_jams(&mut self) -> io::Result<()> {
        match self.random.below(10) {
            0..=4 => self.open_any(),
            5..=7 => self.open_wrongly(),
            _ => {
                let first = LAST_DAY - self.random.between(2, 4);
                self.open_book(first, 1)
            }
        }
    }

    /// No Close, refused Closes, then a few accepted ones with what must leave their lines alone.
    pub fn life_with_jams(&mut self) -> io::Result<()> {
        self.jam()?;
        for _ in 0..self.random.below(3) {
            self.refused_close()?;
            self.jam()?;
        }
        for delay in 0..self.random.below(4) {
            let day = self.day_after(delay);
            self.enter_pair(day)?;
        }
        for _ in 0..self.random.below(6) {
            self.close_day()?;
            self.jam()?;
            for _ in 0..self.random.below(4) {
                self.anything_but_a_close()?;
                self.jam()?;
            }
        }
        Ok(())
    }

    fn anything_but_a_close(&mut self) -> io::Result<()> {
        match self.random.below(8) {
            0 | 1 => self.refused_close(),
            2 | 3 => self.month_in_full(),
            4 => self.empty_one(),
            5 => {
                let day = self.settlement_day();
                self.enter_pair(day)
            }
            _ => {
                let name = self
                    .random
                    .pick(&["enter", "withdraw", "cancel", "deliver"]);
                self.plausible(name)
            }
        }
    }

    /// A Close that is refused by 3 or by 5.
    pub fn refused_close(&mut self) -> io::Result<()> {
        let mut arguments = self.close_arguments();
        if self.random.percent(50) {
            arguments[0] = self.random.pick(&[0, 150_001]);
        } else {
            arguments[1] = self.random.pick(&[0, 6, 1_151]);
        }
        self.call("close", &arguments).map(|_| ())
    }

    /// The lines of the latest Close once more, at times twice in a row.
    pub fn jam(&mut self) -> io::Result<()> {
        for _ in 0..self.random.pick(&[1, 1, 2]) {
            self.plausible("again")?;
        }
        Ok(())
    }

    /// Lines that are no calls, one after another, or none on the book.
    fn scrawl(&mut self) -> io::Result<()> {
        for _ in 0..self.random.between(5, 40) {
            if self.is_done() {
                return Ok(());
            }
            match self.random.below(9) {
                0 => self.comment()?,
                1 => self.reading()?,
                2 => self.ask_rules()?,
                _ => self.malformed_line()?,
            }
        }
        Ok(())
    }
}
