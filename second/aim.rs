//! Plausible calls in the present state of the book, and spoiled ones.

use std::collections::BTreeSet;
use std::io::{self, Write};

use crate::book::{
    owed, LegState, Obligation, CLOSE_WORDS, LAST_DAY, LINE_WORDS, MAX_SETTLEMENT_DAY, MEMBERS,
};
use crate::journal::{NAMES, RULES};
use crate::{Cast, Generator};

/// Numbers at and beside every limit of the rules, and at the ends of the machine's words.
const EDGES: [u64; 69] = [
    0,
    1,
    2,
    3,
    5,
    6,
    7,
    8,
    30,
    31,
    32,
    33,
    48,
    54,
    63,
    64,
    65,
    99,
    100,
    101,
    127,
    128,
    129,
    191,
    192,
    255,
    256,
    999,
    1_000,
    1_151,
    1_152,
    1_153,
    1_999,
    2_000,
    2_178,
    2_179,
    4_096,
    4_097,
    50_000,
    59_999,
    60_000,
    60_001,
    65_532,
    65_533,
    65_534,
    65_535,
    65_536,
    99_999,
    100_000,
    100_001,
    150_000,
    150_001,
    200_000,
    200_001,
    10_000_000,
    10_000_001,
    19_999_999_999,
    20_000_000_000,
    20_000_000_001,
    0x7fff_ffff,
    0x8000_0000,
    0xffff_ffff,
    0x1_0000_0000,
    1 << 53,
    i64::MAX as u64,
    1 << 63,
    u64::MAX - 1,
    u64::MAX,
    1_000_000_000_000_000_000,
];

/// The largest good value of each argument of the calls whose arguments are no lists.
fn limits(name: &str) -> &'static [u64] {
    match name {
        "enter" => &[31, 31, 1, 100_000, 20_000_000_000, 60_000],
        "withdraw" => &[127, 31],
        "cancel" => &[63, 31],
        "deliver" => &[63, 100_000],
        "offer" => &[63, 999, 100_000, 200_000],
        "close" => &[150_000, 4_096, u64::MAX],
        "rate" => &[65_535, 100],
        "again" => &[4_096, u64::MAX],
        "target" => &[2_178, 2_178, 4_096, u64::MAX],
        "open" => &[65_535, 1],
        "status" => &[63],
        _ => &[31],
    }
}

/// The arguments of a Month.
pub fn month_words(collected: &[u64], places: u64, fill: u64) -> Vec<u64> {
    let mut words = vec![collected.len() as u64];
    words.extend(collected);
    words.extend([places, fill]);
    words
}

/// The n-th weekday after a day that is in none of the closed days.
fn nth_open_day(closed: &BTreeSet<u64>, day: u64, n: u64) -> u64 {
    let is_open = |day: &u64| (2..=6).contains(&(day % 7)) && !closed.contains(day);
    (0..n).fold(day, |day, _| (day + 1..).find(is_open).unwrap_or(day))
}

impl<W: Write> Generator<W> {
    // ------------------------------------------------------------ numbers

    pub fn edge(&mut self) -> u64 {
        if self.random.percent(80) {
            self.random.pick(&EDGES)
        } else {
            self.random.any_size()
        }
    }

    /// A fill for lent lists; the large ones can't be mistaken for a result.
    pub fn fill(&mut self) -> u64 {
        match self.random.below(6) {
            0 => 0,
            1 => self.edge(),
            2 => u64::MAX,
            _ => self.random.next(),
        }
    }

    pub fn price(&mut self) -> u64 {
        match self.random.below(10) {
            0 => self.random.pick(&[
                1, 2, 49_999, 50_000, 99_999, 100_004, 100_005, 149_999, 150_000,
            ]),
            1 => self.random.between(1, 150_000),
            _ => self.random.between(95_000, 105_000),
        }
    }

    pub fn rate(&mut self) -> u64 {
        match self.random.below(6) {
            0 => self.random.pick(&[0, 1, 99, 100]),
            1 => self.random.between(0, 100),
            _ => self.random.between(8, 12),
        }
    }

    // ------------------------------------------------------------ a new book

    /// A first day, and closed days that like to fall on the days of the stages.
    pub fn open_arguments(&mut self, first: u64, terms: u64) -> Vec<u64> {
        let mut closed = BTreeSet::new();
        match self.random.below(8) {
            0 | 1 => {}
            2 => closed
                .extend((0..64).map(|_| self.random.between(first.saturating_sub(9), first + 300))),
            3 => {
                let start = first + self.random.between(1, 40);
                closed.extend(start..start + self.random.between(2, 30));
            }
            _ => self.close_stage_days(&mut closed, first, terms),
        }
        if self.random.percent(20) {
            closed.extend([0, 1, 7, LAST_DAY]);
        }
        closed.retain(|&day| day <= LAST_DAY);
        while closed.len() > 64 {
            closed.pop_last();
        }
        if !self.random.percent(3) {
            closed.remove(&first);
        }
        let mut arguments = vec![first, terms, closed.len() as u64];
        arguments.extend(closed);
        arguments
    }

    fn close_stage_days(&mut self, closed: &mut BTreeSet<u64>, first: u64, terms: u64) {
        let stages: [u64; 8] = if terms == 0 {
            [1, 28, 29, 30, 31, 34, 35, 36]
        } else {
            [1, 6, 7, 10, 11, 12, 13, 14]
        };
        for _ in 0..self.random.between(1, 3) {
            let delay = self.random.between(0, 4);
            let day = nth_open_day(closed, first, delay);
            for n in stages {
                if self.random.percent(40) {
                    let stage = nth_open_day(closed, day, n);
                    closed.extend(stage..=stage + self.random.below(2));
                }
            }
        }
    }

    /// A weekday to begin with.
    pub fn first_day(&mut self) -> u64 {
        let day = match self.random.below(10) {
            0..=3 => self.random.between(2, 60),
            4 => self.random.between(59_900, 60_010),
            _ => self.random.between(2, 59_000),
        };
        day / 7 * 7 + self.random.between(2, 6)
    }

    /// Begins a new life with a new cast.
    pub fn open_book(&mut self, first: u64, terms: u64) -> io::Result<()> {
        self.change_cast();
        let arguments = self.open_arguments(first, terms);
        self.call("open", &arguments).map(|_| ())
    }

    pub fn change_cast(&mut self) {
        self.cast = self.new_cast();
    }

    fn new_cast(&mut self) -> Cast {
        let size = self.random.pick(&[2, 3, 3, 4, 6, 10, 32]);
        let mut members: Vec<u64> = (0..MEMBERS as u64).collect();
        while members.len() > size {
            let leaves = self.random.place(members.len());
            members.swap_remove(leaves);
        }
        let quantities = (0..self.random.between(1, 5))
            .map(|_| self.quantity())
            .collect();
        let latest = self.random.pick(&[0, 1, 3, 10]);
        let delays = (0..self.random.between(1, 4))
            .map(|_| self.random.between(0, latest))
            .collect();
        Cast {
            members,
            quantities,
            delays,
        }
    }

    fn quantity(&mut self) -> u64 {
        match self.random.below(8) {
            0 => self.random.pick(&[1, 2, 99_999, 100_000]),
            1 => self.random.between(1, 100_000),
            2..=4 => self.random.between(1, 12),
            _ => self.random.between(1, 2_000),
        }
    }

    // ------------------------------------------------------------ legs

    /// A member of the cast, and another one.
    pub fn pair(&mut self) -> (u64, u64) {
        let first = self.random.place(self.cast.members.len());
        let step = 1 + self.random.place(self.cast.members.len() - 1);
        let second = (first + step) % self.cast.members.len();
        (self.cast.members[first], self.cast.members[second])
    }

    /// The n-th clearing day after today, or the last one that may be entered.
    pub fn day_after(&self, n: u64) -> u64 {
        let book = &self.player.book;
        let next = |day: u64| {
            book.calendar
                .next_after(day)
                .filter(|&next| next <= MAX_SETTLEMENT_DAY)
        };
        (0..n).fold(book.today, |day, _| next(day).unwrap_or(day))
    }

    pub fn settlement_day(&mut self) -> u64 {
        if self.random.percent(4) {
            let today = self.player.book.today;
            return (today + self.random.below(30)).saturating_sub(self.random.below(12));
        }
        let delay = self.random.place(self.cast.delays.len());
        self.day_after(self.cast.delays[delay])
    }

    pub fn amount(&mut self, quantity: u64) -> u64 {
        match self.random.below(8) {
            0 => self.random.pick(&[
                1,
                2,
                3,
                1_000,
                199,
                200,
                201,
                20_000_000_000,
                19_999_999_999,
            ]),
            1 | 2 => self.random.pick(&[
                9_997_501, 9_999_799, 9_999_800, 9_999_999, 10_000_000, 10_000_001, 10_000_002,
                10_000_200, 10_000_201, 10_002_499, 10_002_501, 10_002_502,
            ]),
            3 => self.random.between(1, 20_000_000_000),
            _ => quantity * self.random.between(95_000, 105_000) + self.random.below(quantity),
        }
    }

    /// An amount within, at or just over one of the tolerances of the one given.
    pub fn near_amount(&mut self, amount: u64) -> u64 {
        let difference = match self.random.below(10) {
            0..=3 => 0,
            4 => self.random.pick(&[1, 199, 200]),
            5 => self.random.pick(&[200, 201]),
            6 => self.random.pick(&[2_499, 2_500]),
            7 => self.random.pick(&[2_500, 2_501]),
            _ => self.random.below(3_000),
        };
        if self.random.percent(50) {
            amount + difference
        } else {
            amount.saturating_sub(difference)
        }
    }

    pub fn new_leg(&mut self) -> [u64; 6] {
        let (member, other) = self.pair();
        let quantity = self.random.place(self.cast.quantities.len());
        let quantity = self.cast.quantities[quantity];
        let side = self.random.below(2);
        [
            member,
            other,
            side,
            quantity,
            self.amount(quantity),
            self.settlement_day(),
        ]
    }

    /// The leg that a leg waits for, with another amount.
    fn counter_leg(&mut self, leg: usize) -> [u64; 6] {
        let leg = self.player.book.legs[leg].clone();
        let amount = self.near_amount(leg.amount);
        [
            leg.other,
            leg.member,
            u64::from(leg.delivers),
            leg.quantity,
            amount,
            leg.day,
        ]
    }

    fn waiting_leg(&mut self) -> Option<usize> {
        let legs = &self.player.book.legs;
        let is_waiting = |&leg: &usize| legs[leg].state == LegState::Waiting;
        let waiting: Vec<usize> = (0..legs.len()).filter(is_waiting).collect();
        (!waiting.is_empty()).then(|| self.random.pick(&waiting))
    }

    pub fn leg_arguments(&mut self) -> Vec<u64> {
        match self.waiting_leg() {
            Some(leg) if self.random.percent(60) => self.counter_leg(leg).to_vec(),
            _ => self.new_leg().to_vec(),
        }
    }

    /// Enters both legs of an obligation, in either order.
    pub fn enter_pair(&mut self, day: u64) -> io::Result<()> {
        let mut leg = self.new_leg();
        leg[5] = day;
        self.call("enter", &leg)?;
        let [member, other, side, quantity, amount, day] = leg;
        let near = if self.random.percent(80) {
            amount
        } else {
            self.near_amount(amount)
        };
        self.call(
            "enter",
            &[other, member, 1 - side.min(1), quantity, near, day],
        )
        .map(|_| ())
    }

    // ------------------------------------------------------------ obligations

    /// An obligation of the book that has the property, if there is one.
    pub fn obligation_where(&mut self, holds: impl Fn(&Obligation) -> bool) -> Option<usize> {
        let all = &self.player.book.obligations;
        let some: Vec<usize> = (0..all.len())
            .filter(|&number| holds(&all[number]))
            .collect();
        (!some.is_empty()).then(|| self.random.pick(&some))
    }

    pub fn obligation(&mut self) -> usize {
        let open = self.obligation_where(|o| o.outstanding() > 0);
        let any = self.obligation_where(|_| true);
        let found = match self.random.below(20) {
            0..=14 => open.or(any),
            15..=18 => any,
            _ => None,
        };
        found.unwrap_or_else(|| self.player.book.obligations.len() + self.random.place(2))
    }

    fn copy_of(&self, number: usize) -> Option<Obligation> {
        self.player.book.obligations.get(number).cloned()
    }

    fn withdraw_arguments(&mut self) -> Vec<u64> {
        let waiting = self.waiting_leg().filter(|_| self.random.percent(70));
        let held = self.player.book.legs.len();
        let leg = waiting.unwrap_or_else(|| self.random.place(held + 2));
        let own = self.player.book.legs.get(leg).map(|leg| leg.member);
        let own = own.filter(|_| self.random.percent(70));
        vec![leg as u64, own.unwrap_or_else(|| self.random.below(32))]
    }

    pub fn cancel_arguments(&mut self) -> Vec<u64> {
        let number = self.obligation();
        let stranger = self.random.below(32);
        let member = match (self.copy_of(number), self.random.below(5)) {
            (Some(o), 0 | 1) => o.seller,
            (Some(o), 2 | 3) => o.buyer,
            _ => stranger,
        };
        vec![number as u64, member]
    }

    pub fn deliver_arguments(&mut self) -> Vec<u64> {
        let number = self.obligation();
        let outstanding = self.copy_of(number).map_or(5, |o| o.outstanding());
        let quantity = match self.random.below(8) {
            0 => outstanding,
            1 => outstanding + 1,
            2 => outstanding.saturating_sub(1),
            3 => 1,
            _ => self.random.between(1, outstanding.max(1)),
        };
        vec![number as u64, quantity]
    }

    pub fn offer_arguments(&mut self) -> Vec<u64> {
        let book = &self.player.book;
        let (today, terms, calendar) = (book.today, book.terms, book.calendar.clone());
        let in_time = self.obligation_where(|o| {
            o.outstanding() > 0 && terms.in_buy_in(calendar.clearing_days_between(o.day, today))
        });
        let number = in_time
            .filter(|_| self.random.percent(85))
            .unwrap_or_else(|| self.obligation());
        self.offer_for(number)
    }

    /// An offer whose price and quantity like to tie with others', and to stand at the cap.
    pub fn offer_for(&mut self, number: usize) -> Vec<u64> {
        let obligation = self.copy_of(number);
        let outstanding = obligation.as_ref().map_or(5, |o| o.outstanding()).max(1);
        let cap = obligation.and_then(|o| o.grace_price).unwrap_or(100_000) * 108 / 100;
        let held = self.player.book.offers.len();
        let tie = (held > 0).then(|| self.player.book.offers[self.random.place(held)].clone());
        let price = match (self.random.below(12), &tie) {
            (0..=3, Some(offer)) => offer.price,
            (4, _) => cap,
            (5, _) => cap + 1,
            (6, _) => cap.saturating_sub(1),
            (7, _) => self.random.between(1, 200_000),
            _ => self.random.between(cap * 9 / 10, cap),
        };
        let quantity = match (self.random.below(10), &tie) {
            (0..=2, Some(offer)) => offer.quantity,
            (3, _) => outstanding,
            (4, _) => outstanding + 1,
            (5, _) => 1,
            (6, _) => self.quantity(),
            _ => self.random.between(1, outstanding.div_ceil(3)),
        };
        let supplier = self.random.pick(&[0, 1, 7, 500, 998, 999]);
        vec![number as u64, supplier, quantity, price]
    }

    pub fn close_arguments(&mut self) -> Vec<u64> {
        let words = match self.random.below(40) {
            0 => self.random.pick(&[0, 1, 31, 33, 1_151, 1_153, 4_096]),
            1..=9 => self.random.between(1_152, 1_300),
            _ => CLOSE_WORDS as u64,
        };
        vec![self.price(), words, self.fill()]
    }

    /// A list that mostly is long enough. The short ones like to be long enough for the lines that
    /// there are.
    pub fn again_arguments(&mut self) -> Vec<u64> {
        let enough = (self.player.book.lines_to_show().len() * LINE_WORDS) as u64;
        let words = match self.random.below(20) {
            0 => 1_151,
            1 => enough,
            2 => self.random.pick(&[0, 1, 6, enough + 1, 1_146, 1_150]),
            3 | 4 => 4_096,
            5 | 6 => self.random.between(1_153, 1_300),
            _ => CLOSE_WORDS as u64,
        };
        vec![words, self.fill()]
    }

    // ------------------------------------------------------------ months

    /// A Month; every fourth one is empty.
    pub fn month_arguments(&mut self) -> Vec<u64> {
        let collected = if self.random.percent(25) {
            Vec::new()
        } else {
            self.collected_amounts()
        };
        let places = if self.random.percent(6) {
            self.list_length()
        } else {
            MEMBERS
        };
        month_words(&collected, places as u64, self.fill())
    }

    /// Collected amounts: in full, in part, nothing, a few cents, or too much.
    fn collected_amounts(&mut self) -> Vec<u64> {
        let owed = self.owed();
        let manner = self.random.below(10);
        let mut collected: Vec<u64> = owed.iter().map(|&owed| self.paid(owed, manner)).collect();
        if self.random.percent(12) {
            let member = self.random.place(MEMBERS);
            collected[member] = match self.random.below(4) {
                0 => self.edge(),
                _ => owed[member] + 1,
            };
        }
        if self.random.percent(6) {
            collected.resize(self.list_length(), 0);
        }
        collected
    }

    /// What each member owes now.
    pub fn owed(&self) -> [u64; MEMBERS] {
        owed(&self.player.book.accounts)
    }

    fn paid(&mut self, owed: u64, manner: u64) -> u64 {
        match manner {
            0..=2 => owed,
            3 => 0,
            4 => owed.min(self.random.below(4)),
            5 => self.random.pick(&[0, owed]),
            6 => owed.saturating_sub(1),
            _ => self.random.between(0, owed),
        }
    }

    fn list_length(&mut self) -> usize {
        match self.random.below(30) {
            0 => self.random.pick(&[4_096, 4_097]),
            _ => self.random.pick(&[0, 1, 31, 33, 64]),
        }
    }

    // ------------------------------------------------------------ any call

    pub fn arguments(&mut self, name: &str) -> Vec<u64> {
        match name {
            "open" => {
                let first = self.first_day();
                let terms = self.random.below(2);
                self.open_arguments(first, terms)
            }
            "enter" => self.leg_arguments(),
            "withdraw" => self.withdraw_arguments(),
            "cancel" => self.cancel_arguments(),
            "deliver" => self.deliver_arguments(),
            "offer" => self.offer_arguments(),
            "close" => self.close_arguments(),
            "month" => self.month_arguments(),
            "again" => self.again_arguments(),
            "target" => self.target_arguments(),
            "rate" => self.rate_arguments(),
            "status" => vec![self.obligation() as u64],
            "rules" => vec![],
            _ => vec![self.party()],
        }
    }

    /// A member, mostly one that sells or buys.
    fn party(&mut self) -> u64 {
        let number = self.obligation();
        match (self.copy_of(number), self.random.below(8)) {
            (_, 0) => self.random.below(32),
            (Some(o), 1..=5) => o.seller,
            (Some(o), _) => o.buyer,
            (None, _) => self.random.pick(&self.cast.members),
        }
    }

    pub fn plausible(&mut self, name: &str) -> io::Result<()> {
        if name == "close" {
            self.rows_before_close()?;
        }
        let arguments = self.arguments(name);
        self.call(name, &arguments).map(|_| ())
    }

    pub fn reading(&mut self) -> io::Result<()> {
        let empty = self.player.book.obligations.is_empty();
        let first = usize::from(empty && self.random.percent(70)) * 2;
        let name = if self.random.percent(6) {
            "again"
        } else {
            self.random
                .pick(&["status", "status", "account", "look"][first..])
        };
        let arguments = self.arguments(name);
        self.bare_call(name, &arguments).map(|_| ())
    }

    /// Puts other numbers in the place of some arguments: several refusals may hold at once.
    pub fn spoil(&mut self, name: &str, arguments: &mut [u64]) {
        let limits = limits(name);
        for _ in 0..self.random.pick(&[1, 1, 1, 2, 2, 3, 6]) {
            let place = self.random.place(arguments.len());
            let old = arguments[place];
            arguments[place] = match (self.random.below(10), limits.get(place)) {
                (0..=2, Some(&limit)) => limit.saturating_add(self.random.below(2)),
                (3, _) => 0,
                (4, _) => old.saturating_add(1),
                (5, _) => old.saturating_sub(1),
                // The same number in a narrower word.
                (6, _) => old.wrapping_add(1 << self.random.pick(&[8, 16, 17, 31, 32, 35, 63])),
                _ => self.edge(),
            };
        }
    }

    pub fn spoiled(&mut self, name: &str) -> io::Result<()> {
        if name == "open" && self.random.percent(30) {
            return self.long_open();
        }
        let mut arguments = self.arguments(name);
        let length = match name {
            "target" => Some(2),
            "close" => Some(1),
            "again" => Some(0),
            _ => None,
        };
        if let Some(place) = length.filter(|_| self.random.percent(40)) {
            arguments[place] = if name == "target" {
                self.random
                    .pick(&[0, 5, 6, 7, 47, 48, 49, 53, 54, 60, 4_096, 4_097])
            } else {
                self.random
                    .pick(&[0, 1, 31, 33, 1_151, 1_152, 4_096, 4_097])
            };
        }
        if name != "month" || self.random.percent(30) {
            self.spoil(name, &mut arguments);
        }
        self.bare_call(name, &arguments).map(|_| ())
    }

    /// An Open with about as many closed days as it may have, or as a line may have.
    pub fn long_open(&mut self) -> io::Result<()> {
        let count = match self.random.below(20) {
            0 => self.random.pick(&[4_096, 4_097]),
            1 => 128,
            _ => self.random.pick(&[63, 64, 65, 66]),
        };
        let first = self.first_day();
        let mut arguments = vec![first, self.random.below(2), count];
        arguments.extend((first + 1..).take(count as usize));
        self.bare_call("open", &arguments).map(|_| ())
    }

    /// A spoiled call of any kind; Open seldom, as it ends the book. `rules` has no arguments to
    /// spoil.
    pub fn any_spoiled(&mut self) -> io::Result<()> {
        let first = usize::from(!self.random.percent(2));
        let name = NAMES[first + self.random.place(RULES - first)];
        self.spoiled(name)
    }

    /// Asks for the edition of the rules.
    pub fn ask_rules(&mut self) -> io::Result<()> {
        self.bare_call("rules", &[]).map(|_| ())
    }

    pub fn make_noise(&mut self) -> io::Result<()> {
        match self.random.below(11) {
            0..=4 => self.any_spoiled(),
            5 | 6 => self.comment(),
            7 => self.ask_rules(),
            _ => self.malformed_line(),
        }
    }
}
