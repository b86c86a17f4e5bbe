//! The settlement discipline book of one bond.
//!
//! "Rules" in the comments names a chapter of the rules and an item of it, "P" with a number the change
//! request of that number. Every call tests its refusals in rising order of their numbers and changes
//! the book only when it is accepted. The call of P3 takes no book; it is in `holidays.rs`.

use std::cmp::Reverse;
use std::collections::BTreeMap;
use std::ops::RangeInclusive;

/// Rules, Month: thirty-two accounts, so members are 0 to 31.
pub const MEMBERS: usize = 32;
/// Rules, Instructions: a book holds 128 legs over its whole life.
pub const MAX_LEGS: usize = 128;
/// Rules, Buy-in: at most 64 offers.
pub const MAX_OFFERS: usize = 64;
/// Rules, Open: at most 64 closed days.
pub const MAX_CLOSED_DAYS: usize = 64;
/// Rules, Close: a list of at least 1,152 words.
pub const CLOSE_WORDS: usize = 1_152;
/// Rules, Close: a line of six words.
pub const LINE_WORDS: usize = 6;
/// P5: a book keeps up to 16 rows.
pub const MAX_ROWS: usize = 16;
/// Rules, Days and units: days run to 65,535.
pub const LAST_DAY: u64 = 65_535;
/// Rules, Refusals, 11: J above 60,000.
pub const MAX_SETTLEMENT_DAY: u64 = 60_000;

const MAX_SUPPLIER: u64 = 999;
const MAX_RATE: u64 = 100;
const QUANTITIES: RangeInclusive<u64> = 1..=100_000;
const AMOUNTS: RangeInclusive<u64> = 1..=20_000_000_000;
const CLOSE_PRICES: RangeInclusive<u64> = 1..=150_000;
const OFFER_PRICES: RangeInclusive<u64> = 1..=200_000;

/// The kinds of a Close's lines (rules, Close).
const PENALTY: u64 = 1;
const NOTICE: u64 = 2;
pub const BOUGHT: u64 = 3;
pub const COMPENSATED: u64 = 4;

/// The number of a refusal (rules, Refusals).
pub type Refusal = u8;

/// Rules, Month: the signed accounts of all members.
pub type Accounts = [i64; MEMBERS];

/// Refuses with the number given if its condition holds.
pub fn refuse_if(number: Refusal, holds: bool) -> Result<(), Refusal> {
    if holds {
        Err(number)
    } else {
        Ok(())
    }
}

fn no_member(member: u64) -> bool {
    member >= MEMBERS as u64
}

/// A number as a place in a list; one too large for any list names no place.
pub fn place(number: u64) -> usize {
    usize::try_from(number).unwrap_or(usize::MAX)
}

// ---------------------------------------------------------------- calendar

/// Rules, Days and units: which days are clearing days.
#[derive(Clone, Debug, Default, PartialEq)]
pub struct Calendar {
    /// The closed days that fall on weekdays, rising. The others close nothing.
    closed_weekdays: Vec<u64>,
}

/// Remainder 2 to 6 by 7.
pub fn is_weekday(day: u64) -> bool {
    (2..=6).contains(&(day % 7))
}

impl Calendar {
    /// The closed days must be rising.
    fn new(closed: &[u64]) -> Self {
        let closed_weekdays = closed
            .iter()
            .copied()
            .filter(|&day| is_weekday(day))
            .collect();
        Calendar { closed_weekdays }
    }

    pub fn is_clearing(&self, day: u64) -> bool {
        day <= LAST_DAY && is_weekday(day) && self.closed_weekdays.binary_search(&day).is_err()
    }

    /// The next clearing day after a day that is at most 65,535.
    pub fn next_after(&self, day: u64) -> Option<u64> {
        (day + 1..=LAST_DAY).find(|&next| self.is_clearing(next))
    }

    /// The number of clearing days from day 0 up to the day given: five in each full week and
    /// those of the week begun, less the closed ones.
    fn count_up_to(&self, day: u64) -> u64 {
        let weekdays = day / 7 * 5 + (day % 7).saturating_sub(1);
        let closed = self
            .closed_weekdays
            .partition_point(|&closed| closed <= day);
        weekdays - closed as u64
    }

    /// The number of clearing days after the first day given up to the second (rules, Buy-in, age).
    /// It is 0 where the first is not before the second.
    pub fn clearing_days_between(&self, after: u64, up_to: u64) -> u64 {
        self.count_up_to(up_to)
            .saturating_sub(self.count_up_to(after))
    }
}

/// Rules, Open: the ages at which the stages stand.
#[derive(Clone, Copy, Debug, PartialEq)]
pub struct Terms {
    pub notice: u64,
    pub grace: u64,
    pub last: u64,
}

pub const TERMS: [Terms; 2] = [
    Terms {
        notice: 29,
        grace: 30,
        last: 35,
    },
    Terms {
        notice: 7,
        grace: 10,
        last: 13,
    },
];

impl Terms {
    /// Rules, Close: at ages above grace up to last.
    pub fn in_buy_in(&self, age: u64) -> bool {
        self.grace < age && age <= self.last
    }
}

// ---------------------------------------------------------------- sums of money

/// Rules, Close, penalty: at most 100,000 x 150,000 x 100 before the division.
fn penalty(quantity: u64, price: u64, rate: u64) -> u64 {
    (quantity * price * rate + 500_000) / 1_000_000
}

/// Rules, Close, at age = last.
fn compensation(quantity: u64, price: u64) -> u64 {
    (quantity * price + 5) / 10
}

/// Rules, Enter: the tolerance goes by the delivering amount.
fn tolerance(delivering_amount: u64) -> u64 {
    if delivering_amount <= 10_000_000 {
        200
    } else {
        2_500
    }
}

/// Rules, Buy-in: the cap over the price of the Close at age = grace.
pub fn within_cap(offer_price: u64, grace_price: u64) -> bool {
    100 * offer_price <= 108 * grace_price
}

/// Rules, Month: a negative account owes its size, any other owes nothing.
pub fn owed(accounts: &Accounts) -> [u64; MEMBERS] {
    accounts.map(|account| account.min(0).unsigned_abs())
}

/// Rules, Month: the shares of the sum collected.
fn shares(accounts: &Accounts, collected: u128) -> [u64; MEMBERS] {
    let mut shares = [0; MEMBERS];
    let claims = accounts.map(|account| account.max(0) as u128);
    let all_claims: u128 = claims.iter().sum();
    if all_claims == 0 {
        return shares;
    }
    for (share, claim) in shares.iter_mut().zip(claims) {
        *share = (collected * claim / all_claims) as u64;
    }
    let paid: u128 = shares.iter().map(|&share| u128::from(share)).sum();
    let left = (collected - paid) as usize;
    let mut creditors: Vec<usize> = (0..MEMBERS).filter(|&member| claims[member] > 0).collect();
    // The sort is stable: ties stay with the lower member first.
    creditors.sort_by_key(|&member| Reverse(collected * claims[member] % all_claims));
    for &member in creditors.iter().take(left) {
        shares[member] += 1;
    }
    shares
}

// ---------------------------------------------------------------- what a book holds

#[derive(Clone, Copy, Debug, PartialEq)]
pub enum LegState {
    Waiting,
    Withdrawn,
    Matched(usize),
}

#[derive(Clone, Debug, PartialEq)]
pub struct Leg {
    pub member: u64,
    pub other: u64,
    pub delivers: bool,
    pub quantity: u64,
    pub amount: u64,
    pub day: u64,
    pub state: LegState,
}

impl Leg {
    /// Rules, Enter: whether two legs match, but for the older one's waiting.
    fn fits(&self, new: &Leg) -> bool {
        let delivering = if self.delivers {
            self.amount
        } else {
            new.amount
        };
        self.delivers != new.delivers
            && self.member == new.other
            && self.other == new.member
            && self.quantity == new.quantity
            && self.day == new.day
            && self.amount.abs_diff(new.amount) <= tolerance(delivering)
    }
}

#[derive(Clone, Debug, PartialEq)]
pub struct Obligation {
    pub seller: u64,
    pub buyer: u64,
    pub quantity: u64,
    pub amount: u64,
    pub day: u64,
    pub delivered: u64,
    pub bought_in: u64,
    pub compensated: u64,
    pub cancelled: u64,
    pub seller_wishes: bool,
    pub buyer_wishes: bool,
    /// The price of the Close at age = grace.
    pub grace_price: Option<u64>,
}

impl Obligation {
    fn of(delivering: &Leg, receiving: &Leg) -> Self {
        Obligation {
            seller: delivering.member,
            buyer: receiving.member,
            quantity: delivering.quantity,
            amount: delivering.amount,
            day: delivering.day,
            delivered: 0,
            bought_in: 0,
            compensated: 0,
            cancelled: 0,
            seller_wishes: false,
            buyer_wishes: false,
            grace_price: None,
        }
    }

    pub fn outstanding(&self) -> u64 {
        self.quantity - self.delivered - self.bought_in - self.compensated - self.cancelled
    }

    /// Rules, Deliver: the cash for a further quantity delivered or bought in.
    /// A x t is at most 20,000,000,000 x 100,000.
    pub fn cash_for(&self, quantity: u64) -> u64 {
        let before = self.delivered + self.bought_in;
        let after = before + quantity;
        self.amount * after / self.quantity - self.amount * before / self.quantity
    }

    /// The wish of the member if it is a party.
    fn wish_of(&mut self, member: u64) -> Option<&mut bool> {
        if member == self.seller {
            Some(&mut self.seller_wishes)
        } else if member == self.buyer {
            Some(&mut self.buyer_wishes)
        } else {
            None
        }
    }

    /// Rules, Close: takes one offer and returns the quantity and the charge.
    pub fn buy_in(&mut self, offer: &Offer) -> (u64, u64) {
        let quantity = offer.quantity.min(self.outstanding());
        let value = quantity * offer.price;
        let charge = value.saturating_sub(self.cash_for(quantity));
        self.bought_in += quantity;
        (quantity, charge)
    }
}

#[derive(Clone, Debug, PartialEq)]
pub struct Offer {
    pub obligation: usize,
    pub supplier: u64,
    pub quantity: u64,
    pub price: u64,
}

/// Rules, Close: kind, obligation, quantity, cents, supplier, offer price.
pub type Line = [u64; LINE_WORDS];

/// Writes lines at the front of a lent list, which has room for them, and returns their number. The
/// words after them keep their values.
fn write_lines(lines: &[Line], list: &mut [u64]) -> usize {
    let words = lines.as_flattened();
    list[..words.len()].copy_from_slice(words);
    lines.len()
}

// ---------------------------------------------------------------- the book

#[derive(Clone, Debug, PartialEq)]
pub struct Book {
    pub today: u64,
    pub terms: Terms,
    pub calendar: Calendar,
    pub legs: Vec<Leg>,
    pub obligations: Vec<Obligation>,
    pub offers: Vec<Offer>,
    pub accounts: Accounts,
    /// Whether a Close was accepted since Open or the last accepted Month.
    pub closed_since_month: bool,
    /// P1: the lines of the latest accepted Close, if there was one since Open.
    pub last_close: Option<Vec<Line>>,
    /// P5: the rate of each row by its starting day.
    pub rows: BTreeMap<u64, u64>,
}

impl Book {
    fn fresh(today: u64, terms: Terms, calendar: Calendar) -> Self {
        Book {
            today,
            terms,
            calendar,
            legs: Vec::with_capacity(MAX_LEGS),
            obligations: Vec::with_capacity(MAX_LEGS / 2),
            offers: Vec::with_capacity(MAX_OFFERS),
            accounts: [0; MEMBERS],
            closed_since_month: false,
            last_close: None,
            rows: BTreeMap::new(),
        }
    }

    /// Rules, Open: the book that a refused Open returns.
    pub fn of_refused_open() -> Self {
        Book::fresh(2, TERMS[0], Calendar::default())
    }

    /// Rules, Open.
    pub fn open(first_day: u64, terms: u64, closed: &[u64]) -> Result<Self, Refusal> {
        refuse_if(1, terms > 1)?;
        let rising = closed.windows(2).all(|pair| pair[0] < pair[1]);
        let in_range = closed.iter().all(|&day| day <= LAST_DAY);
        refuse_if(4, closed.len() > MAX_CLOSED_DAYS || !rising || !in_range)?;
        let calendar = Calendar::new(closed);
        refuse_if(11, !calendar.is_clearing(first_day))?;
        Ok(Book::fresh(first_day, TERMS[terms as usize], calendar))
    }

    /// Rules, Enter: the leg, and the obligation plus 1, or 0.
    pub fn enter(
        &mut self,
        member: u64,
        other: u64,
        side: u64,
        quantity: u64,
        amount: u64,
        day: u64,
    ) -> Result<(u64, u64), Refusal> {
        refuse_if(
            1,
            no_member(member) || no_member(other) || member == other || side > 1,
        )?;
        refuse_if(2, !QUANTITIES.contains(&quantity))?;
        refuse_if(3, !AMOUNTS.contains(&amount))?;
        let too_early = day < self.today;
        let too_late = day > MAX_SETTLEMENT_DAY;
        refuse_if(11, too_early || too_late || !self.calendar.is_clearing(day))?;
        refuse_if(12, self.legs.len() >= MAX_LEGS)?;

        let delivers = side == 0;
        let state = LegState::Waiting;
        self.legs.push(Leg {
            member,
            other,
            delivers,
            quantity,
            amount,
            day,
            state,
        });
        let new = self.legs.len() - 1;
        let matched = self
            .lowest_fitting(new)
            .map(|old| self.match_legs(old, new));
        Ok((
            new as u64,
            matched.map_or(0, |obligation| obligation as u64 + 1),
        ))
    }

    /// The lowest waiting leg that the leg given matches.
    fn lowest_fitting(&self, new: usize) -> Option<usize> {
        let older = &self.legs[..new];
        older
            .iter()
            .position(|leg| leg.state == LegState::Waiting && leg.fits(&self.legs[new]))
    }

    fn match_legs(&mut self, old: usize, new: usize) -> usize {
        let (delivering, receiving) = if self.legs[new].delivers {
            (new, old)
        } else {
            (old, new)
        };
        let number = self.obligations.len();
        self.obligations.push(Obligation::of(
            &self.legs[delivering],
            &self.legs[receiving],
        ));
        self.legs[old].state = LegState::Matched(number);
        self.legs[new].state = LegState::Matched(number);
        number
    }

    /// Rules, Withdraw.
    pub fn withdraw(&mut self, leg: u64, member: u64) -> Result<(), Refusal> {
        refuse_if(1, no_member(member))?;
        let leg = self.legs.get_mut(place(leg)).ok_or(13)?;
        refuse_if(13, leg.state != LegState::Waiting)?;
        refuse_if(14, leg.member != member)?;
        leg.state = LegState::Withdrawn;
        Ok(())
    }

    /// Rules, Refusals: a call that names an obligation first fetches it or refuses by 13.
    fn fetch(&self, obligation: u64) -> Result<&Obligation, Refusal> {
        self.obligations.get(place(obligation)).ok_or(13)
    }

    fn fetch_mut(&mut self, obligation: u64) -> Result<&mut Obligation, Refusal> {
        self.obligations.get_mut(place(obligation)).ok_or(13)
    }

    /// Rules, Cancel: the quantity moved.
    pub fn cancel(&mut self, obligation: u64, member: u64) -> Result<u64, Refusal> {
        refuse_if(1, no_member(member))?;
        let obligation = self.fetch_mut(obligation)?;
        let outstanding = obligation.outstanding();
        let wish = obligation.wish_of(member).ok_or(14)?;
        refuse_if(14, *wish)?;
        refuse_if(15, outstanding == 0)?;
        *wish = true;
        if obligation.seller_wishes && obligation.buyer_wishes {
            obligation.cancelled += outstanding;
            Ok(outstanding)
        } else {
            Ok(0)
        }
    }

    /// Rules, Deliver: the cash.
    pub fn deliver(&mut self, obligation: u64, quantity: u64) -> Result<u64, Refusal> {
        refuse_if(2, !QUANTITIES.contains(&quantity))?;
        let today = self.today;
        let obligation = self.fetch_mut(obligation)?;
        refuse_if(15, obligation.outstanding() < quantity)?;
        refuse_if(16, today < obligation.day)?;
        let cash = obligation.cash_for(quantity);
        obligation.delivered += quantity;
        Ok(cash)
    }

    /// Rules, Buy-in: the age is the number of clearing days after J up to today.
    pub fn age(&self, obligation: &Obligation) -> u64 {
        self.calendar
            .clearing_days_between(obligation.day, self.today)
    }

    /// Rules, Offer.
    pub fn offer(
        &mut self,
        obligation: u64,
        supplier: u64,
        quantity: u64,
        price: u64,
    ) -> Result<(), Refusal> {
        refuse_if(1, supplier > MAX_SUPPLIER)?;
        refuse_if(2, !QUANTITIES.contains(&quantity))?;
        refuse_if(3, !OFFER_PRICES.contains(&price))?;
        let fetched = self.fetch(obligation)?;
        refuse_if(15, fetched.outstanding() == 0)?;
        let before = self.today < fetched.day;
        refuse_if(16, before || !self.terms.in_buy_in(self.age(fetched)))?;
        refuse_if(17, self.offers.len() >= MAX_OFFERS)?;
        let grace_price = fetched
            .grace_price
            .expect("a Close at age = grace comes before every buy-in");
        refuse_if(18, !within_cap(price, grace_price))?;
        self.offers.push(Offer {
            obligation: place(obligation),
            supplier,
            quantity,
            price,
        });
        Ok(())
    }

    /// P5, Rate: a row for a starting day. If one is held for that day, it is superseded.
    pub fn rate(&mut self, day: u64, rate: u64) -> Result<(), Refusal> {
        refuse_if(3, rate > MAX_RATE)?;
        refuse_if(24, day < self.today || day > LAST_DAY)?;
        let is_new = !self.rows.contains_key(&day);
        let held = self.rows.len();
        let waits = day > self.today && self.rate_today().is_none();
        let is_full = held == MAX_ROWS || (held + 1 == MAX_ROWS && waits);
        refuse_if(25, is_new && is_full)?;
        self.rows.insert(day, rate);
        Ok(())
    }

    /// P5: the rate of the row with the greatest starting day not after today, if one has started.
    pub fn rate_today(&self) -> Option<u64> {
        let mut started = self.rows.range(..=self.today);
        started.next_back().map(|(_, &rate)| rate)
    }

    /// Rules, Close, with the rate of P5: the number of lines.
    pub fn close(&mut self, price: u64, list: &mut [u64]) -> Result<usize, Refusal> {
        refuse_if(3, !CLOSE_PRICES.contains(&price))?;
        refuse_if(5, list.len() < CLOSE_WORDS)?;
        let next_day = self.calendar.next_after(self.today).ok_or(20)?;
        let rate = self.rate_today().ok_or(26)?;

        let mut lines = self.last_close.take().unwrap_or_default();
        lines.clear();
        for number in 0..self.obligations.len() {
            let obligation = &self.obligations[number];
            if obligation.day <= self.today && obligation.outstanding() > 0 {
                self.close_obligation(number, price, rate, &mut lines);
            }
        }
        self.offers.clear();
        self.today = next_day;
        self.closed_since_month = true;
        let count = write_lines(&lines, list);
        self.last_close = Some(lines);
        Ok(count)
    }

    /// P1, Again: the number of lines of the latest accepted Close, written as that Close wrote them.
    pub fn again(&self, list: &mut [u64]) -> Result<usize, Refusal> {
        refuse_if(5, list.len() < CLOSE_WORDS)?;
        let lines = self.last_close.as_ref().ok_or(22)?;
        Ok(write_lines(lines, list))
    }

    /// The lines that an Again would show; none where it would be refused by 22.
    pub fn lines_to_show(&self) -> &[Line] {
        self.last_close.as_deref().unwrap_or_default()
    }

    /// Rules, Close, the four items, for an obligation with J reached and something outstanding.
    fn close_obligation(&mut self, number: usize, price: u64, rate: u64, lines: &mut Vec<Line>) {
        let age = self.age(&self.obligations[number]);
        let terms = self.terms;
        let obligation = &mut self.obligations[number];
        let named = number as u64;
        let outstanding = obligation.outstanding();

        // Penalty.
        let cents = penalty(outstanding, price, rate);
        self.accounts[obligation.seller as usize] -= cents as i64;
        self.accounts[obligation.buyer as usize] += cents as i64;
        lines.push([PENALTY, named, outstanding, cents, 0, 0]);

        // Notice.
        if age == terms.notice {
            lines.push([NOTICE, named, outstanding, 0, 0, 0]);
        }

        // Rules, Buy-in: the price that the cap of the offers goes by.
        if age == terms.grace {
            obligation.grace_price = Some(price);
        }

        // Offers.
        if terms.in_buy_in(age) {
            for offer in auction_order(&self.offers, number) {
                let (quantity, charge) = obligation.buy_in(offer);
                if quantity > 0 {
                    lines.push([BOUGHT, named, quantity, charge, offer.supplier, offer.price]);
                }
            }
        }

        // Compensation.
        let left = obligation.outstanding();
        if age == terms.last && left > 0 {
            obligation.compensated += left;
            lines.push([COMPENSATED, named, left, compensation(left, price), 0, 0]);
        }
    }

    /// Rules, Month, and P2: if the list of collected amounts is empty, each debtor paid its debt in full.
    pub fn month(&mut self, collected: &[u64], payouts: &mut [u64]) -> Result<(), Refusal> {
        let wrong_length = ![0, MEMBERS].contains(&collected.len());
        refuse_if(5, wrong_length || payouts.len() != MEMBERS)?;
        let owed = owed(&self.accounts);
        let paid = if collected.is_empty() {
            &owed[..]
        } else {
            collected
        };
        refuse_if(19, paid.iter().zip(owed).any(|(&paid, owed)| paid > owed))?;
        refuse_if(21, !self.closed_since_month)?;

        let sum = paid.iter().map(|&amount| u128::from(amount)).sum();
        payouts.copy_from_slice(&shares(&self.accounts, sum));
        self.accounts = [0; MEMBERS];
        self.closed_since_month = false;
        Ok(())
    }

    /// Rules, Reading: Q, delivered, bought in, compensated, cancelled, outstanding.
    pub fn status(&self, obligation: u64) -> Result<[u64; 6], Refusal> {
        let o = self.fetch(obligation)?;
        Ok([
            o.quantity,
            o.delivered,
            o.bought_in,
            o.compensated,
            o.cancelled,
            o.outstanding(),
        ])
    }

    /// Rules, Reading: the account of a member.
    pub fn account(&self, member: u64) -> Result<i64, Refusal> {
        refuse_if(1, no_member(member))?;
        Ok(self.accounts[member as usize])
    }

    /// Rules, Reading: the lowest-numbered obligation, plus 1, that Look may name, or 0.
    pub fn look(&self, member: u64) -> Result<u64, Refusal> {
        refuse_if(1, no_member(member))?;
        let found = (0..self.obligations.len() as u64).find(|&number| self.is_late(number, member));
        Ok(found.map_or(0, |number| number + 1))
    }

    /// Rules, Reading: whether Look for the member may name the obligation.
    pub fn is_late(&self, obligation: u64, member: u64) -> bool {
        self.fetch(obligation)
            .is_ok_and(|o| o.seller == member && o.day < self.today && o.outstanding() > 0)
    }
}

/// Rules, Close, with P4: the cheaper offer comes first, and at one price the one that was entered first,
/// however large they are.
fn auction_order(offers: &[Offer], obligation: usize) -> Vec<&Offer> {
    let mut queue: Vec<&Offer> = offers
        .iter()
        .filter(|o| o.obligation == obligation)
        .collect();
    // The sort is stable: what ties stays in the order of entry.
    queue.sort_by_key(|offer| offer.price);
    queue
}

#[cfg(test)]
mod tests {
    use super::*;

    /// The n-th clearing day after a day, word by word as the rules say it under Days and units.
    fn nth_after(calendar: &Calendar, day: u64, n: u64) -> Option<u64> {
        if n == 0 {
            Some(day)
        } else {
            calendar.next_after(nth_after(calendar, day, n - 1)?)
        }
    }

    fn book(terms: u64) -> Book {
        Book::open(2, terms, &[]).unwrap()
    }

    /// Enters both legs of an obligation of member 0 towards member 1.
    fn oblige(book: &mut Book, quantity: u64, amount: u64, day: u64) -> u64 {
        book.enter(0, 1, 0, quantity, amount, day).unwrap();
        let (_, plus_1) = book.enter(1, 0, 1, quantity, amount, day).unwrap();
        plus_1 - 1
    }

    /// A book whose Close made two debtors and three creditors.
    fn debtors_and_creditors() -> Book {
        let mut book = book(1);
        for (seller, buyer, quantity) in [(0, 31, 700), (0, 5, 300), (9, 5, 1), (9, 2, 33)] {
            book.enter(seller, buyer, 0, quantity, 1_000, 2).unwrap();
            book.enter(buyer, seller, 1, quantity, 1_000, 2).unwrap();
        }
        close(&mut book, 100_000, 10);
        let expected = [(0, -1_000), (9, -34), (2, 33), (5, 301), (31, 700)];
        assert_eq!(book.accounts, accounts(&expected));
        book
    }

    /// The answer of a Month, the book and the payouts as it leaves them.
    type Ended = (Result<(), Refusal>, Book, Vec<u64>);

    /// A Month with so many places on a copy of the book.
    fn month_on(book: &Book, collected: &[u64], places: usize) -> Ended {
        let (mut book, mut payouts) = (book.clone(), vec![5; places]);
        let answer = book.month(collected, &mut payouts);
        (answer, book, payouts)
    }

    /// Checks a Month typed with just what each member owes against an empty one on the same book.
    fn assert_same_month(book: &Book, places: usize, answer: Result<(), Refusal>) {
        let empty = month_on(book, &[], places);
        assert_eq!(empty, month_on(book, &owed(&book.accounts), places));
        assert_eq!(empty.0, answer, "{places} places");
        if answer.is_err() {
            assert_eq!((&empty.1, empty.2), (book, vec![5; places]));
        }
    }

    /// The lines at the front of a list of 77s, whose other words were left as they were.
    fn lines_in(list: &[u64], count: usize) -> Vec<Line> {
        let (lines, rest) = list.split_at(count * LINE_WORDS);
        assert!(rest.iter().all(|&word| word == 77));
        lines.as_chunks().0.to_vec()
    }

    /// A Close at a rate, as the lines that it reports. Where the rate is another than before, a row for
    /// today has it.
    fn close(book: &mut Book, price: u64, rate: u64) -> Vec<Line> {
        if book.rate_today() != Some(rate) {
            book.rate(book.today, rate).unwrap();
        }
        let mut list = vec![77; CLOSE_WORDS];
        let count = book.close(price, &mut list).unwrap();
        lines_in(&list, count)
    }

    /// An Again with a list of so many words, as the lines that it shows; a refused one shows none.
    /// As it takes `&Book`, it can't change the book.
    fn again_in(book: &Book, words: usize) -> Result<Vec<Line>, Refusal> {
        let mut list = vec![77; words];
        let answer = book.again(&mut list);
        let lines = lines_in(&list, answer.unwrap_or(0));
        answer.map(|_| lines)
    }

    fn again(book: &Book) -> Result<Vec<Line>, Refusal> {
        again_in(book, CLOSE_WORDS)
    }

    /// A book of terms 1 on its second day, and the lines of its one Close.
    fn closed_book() -> (Book, Vec<Line>) {
        let mut book = book(1);
        oblige(&mut book, 1_000, 1_000, 2);
        oblige(&mut book, 3, 1_000, 2);
        let lines = close(&mut book, 100_000, 10);
        assert_eq!(lines, [[1, 0, 1_000, 1_000, 0, 0], [1, 1, 3, 3, 0, 0]]);
        (book, lines)
    }

    fn close_times(book: &mut Book, times: u64, price: u64) {
        for _ in 0..times {
            close(book, price, 0);
        }
    }

    /// A book after the Close of most lines, and these lines.
    fn full_close() -> (Book, Vec<Line>) {
        let mut book = book(1);
        for _ in 0..64 {
            oblige(&mut book, 2, 1_000, 2);
        }
        close_times(&mut book, 13, 100_000);
        for number in 0..64 {
            book.offer(number, number, 1, 100_000).unwrap();
        }
        let lines = close(&mut book, 100_000, 0);
        (book, lines)
    }

    /// A bought line of obligation 0: quantity, cents, supplier, offer price.
    type Bought = [u64; 4];

    /// A book of the terms on the n-th day of the buy-in of an obligation of 10 units for 1,000,000 cents.
    fn buy_in_day(terms: u64, n: u64) -> Book {
        let mut book = book(terms);
        oblige(&mut book, 10, 1_000_000, 2);
        let days = book.terms.grace + n;
        close_times(&mut book, days, 100_000);
        book
    }

    /// Enters offers for obligation 0, each a quantity and a price. The suppliers are 11, 12 and so on.
    fn offer_all(book: &mut Book, offers: &[(u64, u64)]) {
        for (supplier, &(quantity, price)) in (11..).zip(offers) {
            book.offer(0, supplier, quantity, price).unwrap();
        }
    }

    /// The bought lines of a Close, after the penalty.
    fn bought(book: &mut Book) -> Vec<Bought> {
        let lines = close(book, 100_000, 0);
        assert_eq!(lines[0][..2], [PENALTY, 0]);
        let bought = lines.iter().filter(|line| line[0] == BOUGHT);
        bought
            .map(|&[_, _, quantity, cents, supplier, price]| [quantity, cents, supplier, price])
            .collect()
    }

    /// Checks the bought lines of the offers on every day of the buy-in, whichever terms there are.
    fn assert_bought(offers: &[(u64, u64)], expected: &[Bought]) {
        for (terms, days) in [(0, 5), (1, 3)] {
            for day in 1..=days {
                let mut book = buy_in_day(terms, day);
                offer_all(&mut book, offers);
                assert_eq!(
                    bought(&mut book),
                    expected,
                    "terms {terms}, day {day}: {offers:?}"
                );
            }
        }
    }

    fn match_of(delivering: u64, receiving: u64, delivering_first: bool) -> u64 {
        let mut book = book(0);
        if delivering_first {
            book.enter(0, 1, 0, 5, delivering, 2).unwrap();
            book.enter(1, 0, 1, 5, receiving, 2).unwrap().1
        } else {
            book.enter(1, 0, 1, 5, receiving, 2).unwrap();
            book.enter(0, 1, 0, 5, delivering, 2).unwrap().1
        }
    }

    fn month(book: &mut Book, paid: &[(usize, u64)]) -> Result<[u64; MEMBERS], Refusal> {
        let mut collected = [0; MEMBERS];
        for &(member, amount) in paid {
            collected[member] = amount;
        }
        let mut payouts = [5; MEMBERS];
        let answer = book.month(&collected, &mut payouts);
        if answer.is_err() {
            assert_eq!(payouts, [5; MEMBERS]);
        }
        answer.map(|()| payouts)
    }

    fn accounts(of: &[(usize, i64)]) -> Accounts {
        let mut accounts = [0; MEMBERS];
        for &(member, cents) in of {
            accounts[member] = cents;
        }
        accounts
    }

    #[test]
    fn example_1_penalty_of_a_thousand() {
        assert_eq!(penalty(1_000, 100_000, 10), 1_000);
        let mut book = book(0);
        oblige(&mut book, 1_000, 1, 2);
        assert_eq!(close(&mut book, 100_000, 10), [[1, 0, 1_000, 1_000, 0, 0]]);
        assert_eq!((book.account(0), book.account(1)), (Ok(-1_000), Ok(1_000)));
    }

    #[test]
    fn example_2_penalty_rounds_half_up() {
        assert_eq!(penalty(1, 50_000, 10), 1);
        assert_eq!(penalty(1, 49_999, 10), 0);
    }

    #[test]
    fn example_3_compensation() {
        assert_eq!(compensation(1, 100_005), 10_001);
        assert_eq!(compensation(1, 100_004), 10_000);
    }

    #[test]
    fn example_4_cap() {
        assert!(within_cap(107_998, 99_999));
        assert!(!within_cap(107_999, 99_999));
        let mut book = book(0);
        oblige(&mut book, 10, 1_000_000, 2);
        close_times(&mut book, 30, 50_000);
        assert_eq!(book.offer(0, 1, 1, 1), Err(16)); // age = grace
        close(&mut book, 99_999, 0);
        assert_eq!(book.offer(0, 1, 1, 107_998), Ok(()));
        assert_eq!(book.offer(0, 1, 1, 107_999), Err(18));
    }

    #[test]
    fn examples_5_and_6_tolerance() {
        for first in [false, true] {
            assert_eq!(match_of(10_000_000, 10_000_200, first), 1);
            assert_eq!(match_of(10_000_000, 10_000_201, first), 0);
            assert_eq!(match_of(10_000_001, 10_002_501, first), 1);
            assert_eq!(match_of(10_000_001, 10_002_502, first), 0);
            // Below, and with the amounts on either side of 10,000,000.
            assert_eq!(match_of(10_000_000, 9_999_800, first), 1);
            assert_eq!(match_of(10_000_000, 9_999_799, first), 0);
            assert_eq!(match_of(10_000_001, 9_997_501, first), 1);
            assert_eq!(match_of(10_000_001, 9_997_500, first), 0);
            assert_eq!(match_of(9_999_900, 10_000_101, first), 0);
        }
    }

    #[test]
    fn example_7_part_deliveries() {
        let mut book = book(0);
        oblige(&mut book, 3, 1_000, 2);
        assert_eq!(
            [(); 3].map(|()| book.deliver(0, 1)),
            [Ok(333), Ok(333), Ok(334)]
        );
        assert_eq!(book.deliver(0, 1), Err(15));
        assert_eq!(book.status(0), Ok([3, 3, 0, 0, 0, 0]));
    }

    #[test]
    fn example_8_shares() {
        let two = shares(&accounts(&[(3, 200), (9, 100), (4, -300)]), 100);
        assert_eq!((two[3], two[9], two[4]), (67, 33, 0));
        let three = shares(&accounts(&[(0, 100), (1, 100), (31, 100), (2, -300)]), 100);
        assert_eq!((three[0], three[1], three[31], three[2]), (34, 33, 33, 0));
    }

    #[test]
    fn example_9_clearing_days() {
        let calendar = Calendar::new(&[]);
        assert_eq!(nth_after(&calendar, 2, 30), Some(44));
        assert_eq!(nth_after(&calendar, 2, 35), Some(51));
        assert_eq!(nth_after(&Calendar::new(&[44]), 2, 30), Some(45));
    }

    #[test]
    fn example_10_auction() {
        let mut book = book(0);
        oblige(&mut book, 10, 1_000_000, 2);
        close_times(&mut book, 31, 100_000);
        book.offer(0, 11, 7, 101_000).unwrap();
        book.offer(0, 12, 5, 100_500).unwrap();
        book.offer(0, 13, 7, 101_000).unwrap();
        let lines = close(&mut book, 100_000, 0);
        assert_eq!(
            lines,
            [
                [1, 0, 10, 0, 0, 0],
                [3, 0, 5, 2_500, 12, 100_500],
                [3, 0, 5, 5_000, 11, 101_000]
            ]
        );
        assert_eq!(book.status(0), Ok([10, 0, 10, 0, 0, 0]));
    }

    #[test]
    fn at_one_price_the_earlier_offer_comes_first() {
        assert_bought(
            &[(10, 101_000), (12, 101_000)],
            &[[10, 10_000, 11, 101_000]],
        );
        assert_bought(
            &[(12, 101_000), (10, 101_000)],
            &[[10, 10_000, 11, 101_000]],
        );
        assert_bought(
            &[(10, 101_000), (10, 101_000)],
            &[[10, 10_000, 11, 101_000]],
        );
        // The small lot gives all it has, the large one the rest. The large one alone would be one line.
        let both = [[2, 2_000, 11, 101_000], [8, 8_000, 12, 101_000]];
        assert_bought(&[(2, 101_000), (12, 101_000)], &both);
        assert_bought(&[(12, 101_000), (2, 101_000)], &[[10, 10_000, 11, 101_000]]);
        // All give all they have, so that only the order of the lines shows who came first.
        let lots = [1, 3, 2].map(|quantity| (quantity, 101_000));
        let lines = [
            [1, 1_000, 11, 101_000],
            [3, 3_000, 12, 101_000],
            [2, 2_000, 13, 101_000],
        ];
        assert_bought(&lots, &lines);
    }

    #[test]
    fn a_lower_price_comes_first_whatever_the_entry() {
        let offers = [
            (3, 101_000),
            (9, 101_000),
            (4, 100_900),
            (1, 101_001),
            (2, 100_900),
        ];
        let lines = [
            [4, 3_600, 13, 100_900],
            [2, 1_800, 15, 100_900],
            [3, 3_000, 11, 101_000],
            [1, 1_000, 12, 101_000],
        ];
        assert_bought(&offers, &lines);
    }

    #[test]
    fn an_offer_behind_the_last_unit_has_no_line() {
        let offers = [4, 6, 1].map(|quantity| (quantity, 101_000));
        assert_bought(&offers, &[[4, 4_000, 11, 101_000], [6, 6_000, 12, 101_000]]);
    }

    #[test]
    fn offers_for_other_obligations_are_not_taken() {
        let mut book = book(1);
        for _ in 0..2 {
            oblige(&mut book, 10, 1_000_000, 2);
        }
        close_times(&mut book, 11, 100_000);
        for (number, supplier, quantity) in [(0, 1, 3), (1, 2, 9), (0, 2, 9), (1, 1, 3)] {
            book.offer(number, supplier, quantity, 101_000).unwrap();
        }
        let expected = [
            [1, 0, 10, 0, 0, 0],
            [3, 0, 3, 3_000, 1, 101_000],
            [3, 0, 7, 7_000, 2, 101_000],
            [1, 1, 10, 0, 0, 0],
            [3, 1, 9, 9_000, 2, 101_000],
            [3, 1, 1, 1_000, 1, 101_000],
        ];
        assert_eq!(close(&mut book, 100_000, 0), expected);
        assert_eq!(again(&book), Ok(expected.to_vec()));
    }

    #[test]
    fn what_stands_between_two_offers_leaves_their_order() {
        let mut book = buy_in_day(1, 1);
        book.offer(0, 11, 2, 101_000).unwrap();
        for (answer, supplier, quantity, price) in [
            (1, 1_000, 5, 101_000),
            (2, 12, 0, 101_000),
            (3, 12, 5, 200_001),
            (18, 12, 5, 108_001),
        ] {
            assert_eq!(book.offer(0, supplier, quantity, price), Err(answer));
        }
        assert_eq!(book.close(0, &mut [77; CLOSE_WORDS]), Err(3));
        assert_eq!(again(&book), Ok(vec![[1, 0, 10, 0, 0, 0]]));
        month(&mut book, &[]).unwrap();
        book.cancel(0, 0).unwrap();
        book.deliver(0, 3).unwrap();
        book.offer(0, 12, 9, 101_000).unwrap();
        let expected = [[2, 2_000, 11, 101_000], [5, 5_000, 12, 101_000]];
        assert_eq!(bought(&mut book), expected);
    }

    #[test]
    fn the_offers_of_the_day_before_are_not_taken() {
        let mut book = buy_in_day(1, 1);
        offer_all(&mut book, &[(1, 101_000), (2, 101_000)]);
        assert_eq!(bought(&mut book).len(), 2);
        book.offer(0, 21, 1, 101_000).unwrap();
        book.offer(0, 22, 9, 101_000).unwrap();
        let expected = [[1, 1_000, 21, 101_000], [6, 6_000, 22, 101_000]];
        assert_eq!(bought(&mut book), expected);
    }

    #[test]
    fn sixty_four_offers_at_one_price_stay_in_their_order() {
        for (quantity, lines) in [(2_080, 64), (2_079, 64), (2_016, 63), (1, 1)] {
            let mut book = book(1);
            oblige(&mut book, quantity, 1, 2);
            close_times(&mut book, 13, 100_000);
            let offers: Vec<(u64, u64)> = (1..=64).map(|units| (units, 7)).collect();
            offer_all(&mut book, &offers);
            assert_eq!(book.offer(0, 1, 1, 7), Err(17));
            let bought = bought(&mut book);
            let suppliers: Vec<u64> = bought.iter().map(|line| line[2]).collect();
            assert_eq!(
                suppliers,
                (11..11 + lines).collect::<Vec<u64>>(),
                "{quantity}"
            );
        }
    }

    #[test]
    fn the_cash_goes_on_in_the_order_of_the_offers() {
        // 1 of 3 units is worth 333 cents of 1,000 and the other two 667; in the other order the two are
        // worth 666 and the one 334.
        for (quantities, cents) in [([1, 2], [1, 1]), ([2, 1], [2, 0])] {
            let mut book = book(1);
            oblige(&mut book, 3, 1_000, 2);
            close_times(&mut book, 11, 100_000);
            offer_all(&mut book, &quantities.map(|quantity| (quantity, 334)));
            let charges: Vec<u64> = bought(&mut book).iter().map(|line| line[1]).collect();
            assert_eq!(charges, cents);
        }
    }

    #[test]
    fn ages_are_counts_of_clearing_days() {
        let calendar = Calendar::new(&[4, 7, 9, 16, 17, 18, 65_533, 65_535]);
        for from in 0..60 {
            for to in 0..60 {
                let plain = (from + 1..=to)
                    .filter(|&day| calendar.is_clearing(day))
                    .count();
                assert_eq!(calendar.clearing_days_between(from, to), plain as u64);
            }
        }
        assert_eq!(calendar.next_after(65_531), Some(65_532));
        assert_eq!(calendar.next_after(65_532), None);
        assert_eq!(nth_after(&calendar, 65_531, 2), None);
    }

    #[test]
    fn open_refuses_in_order() {
        let open = |day, terms, closed: &[u64]| Book::open(day, terms, closed).err();
        let too_many: Vec<u64> = (100..165).collect();
        assert_eq!(open(u64::MAX, 2, &[5, 5]), Some(1));
        assert_eq!(open(0, 1, &[5, 5]), Some(4));
        assert_eq!(open(2, 1, &[65_536]), Some(4));
        assert_eq!(open(2, 1, &too_many), Some(4));
        assert_eq!(open(2, 1, &too_many[..64]), None);
        assert_eq!(open(2, 0, &[2]), Some(11));
        assert_eq!(open(1, 0, &[]), Some(11));
        assert_eq!(open(65_533 + 7, 0, &[]), Some(11));
        assert_eq!(open(65_533, 0, &[0, 65_535]), None);
    }

    #[test]
    fn enter_refuses_in_order() {
        let mut book = Book::open(59_996, 0, &[59_998]).unwrap();
        assert_eq!(book.enter(32, 1, 2, 0, 0, 0), Err(1));
        assert_eq!(book.enter(1, 1, 0, 0, 0, 0), Err(1));
        assert_eq!(book.enter(1, 0, 0, 100_001, 0, 0), Err(2));
        assert_eq!(book.enter(1, 0, 0, 100_000, 20_000_000_001, 0), Err(3));
        for day in [59_995, 59_998, 60_001, 60_002, u64::MAX] {
            assert_eq!(book.enter(1, 0, 0, 1, 1, day), Err(11));
        }
        for leg in 0..128 {
            assert_eq!(book.enter(1, 0, 0, 1, 1, 60_000), Ok((leg, 0)));
        }
        assert_eq!(book.enter(1, 0, 0, 1, 1, 60_001), Err(11));
        assert_eq!(book.enter(0, 1, 1, 1, 1, 60_000), Err(12)); // although it would match
    }

    #[test]
    fn the_lowest_waiting_leg_matches() {
        let mut book = book(0);
        book.enter(0, 1, 0, 5, 1_201, 2).unwrap(); // too far
        book.enter(0, 1, 0, 5, 1_150, 2).unwrap(); // withdrawn below
        book.enter(0, 1, 0, 5, 1_100, 2).unwrap();
        book.enter(0, 1, 0, 5, 1_000, 2).unwrap();
        book.withdraw(1, 0).unwrap();
        assert_eq!(book.enter(1, 0, 1, 5, 1_000, 2), Ok((4, 1)));
        assert_eq!(book.legs[2].state, LegState::Matched(0));
        assert_eq!(book.obligations[0].amount, 1_100);
        assert_eq!(book.enter(1, 0, 1, 5, 1_000, 2), Ok((5, 2)));
        assert_eq!(book.legs[3].state, LegState::Matched(1));
        assert_eq!(book.withdraw(2, 0), Err(13));
        assert_eq!(book.withdraw(1, 1), Err(13));
        assert_eq!(book.withdraw(0, 1), Err(14));
        assert_eq!(book.withdraw(6, 0), Err(13));
        assert_eq!(book.withdraw(u64::MAX, 32), Err(1));
    }

    #[test]
    fn wishes() {
        let mut book = book(0);
        oblige(&mut book, 5, 1_000, 2);
        assert_eq!(book.cancel(0, 2), Err(14));
        assert_eq!(book.cancel(1, 2), Err(13));
        assert_eq!(book.cancel(0, 1), Ok(0));
        assert_eq!(book.cancel(0, 1), Err(14));
        book.deliver(0, 2).unwrap();
        assert_eq!(book.cancel(0, 0), Ok(3));
        assert_eq!(book.status(0), Ok([5, 2, 0, 0, 3, 0]));
        assert_eq!(book.cancel(0, 0), Err(14));
        // A first wish with nothing outstanding is not recorded.
        oblige(&mut book, 5, 1_000, 2);
        book.deliver(1, 5).unwrap();
        assert_eq!((book.cancel(1, 0), book.cancel(1, 0)), (Err(15), Err(15)));
    }

    #[test]
    fn deliver_refuses_in_order() {
        let mut book = book(0);
        oblige(&mut book, 5, 1_000, 3);
        assert_eq!(book.deliver(9, 0), Err(2));
        assert_eq!(book.deliver(9, 1), Err(13));
        assert_eq!(book.deliver(0, 6), Err(15));
        assert_eq!(book.deliver(0, 5), Err(16));
        assert!(close(&mut book, 1, 0).is_empty()); // J is not reached
        assert_eq!(book.deliver(0, 5), Ok(1_000));
    }

    #[test]
    fn offer_refuses_in_order() {
        let mut book = book(1);
        oblige(&mut book, 5, 1_000, 2);
        oblige(&mut book, 5, 1_000, 2);
        close_times(&mut book, 11, 100_000);
        assert_eq!(book.offer(9, 1_000, 0, 0), Err(1));
        assert_eq!(book.offer(9, 999, 0, 0), Err(2));
        assert_eq!(book.offer(9, 999, 1, 200_001), Err(3));
        assert_eq!(book.offer(9, 999, 1, 200_000), Err(13));
        for _ in 0..63 {
            assert_eq!(book.offer(0, 999, 100_000, 1), Ok(()));
        }
        assert_eq!(book.offer(0, 1, 1, 108_001), Err(18));
        assert_eq!(book.offer(0, 1, 1, 108_000), Ok(()));
        assert_eq!(book.offer(1, 1, 1, 108_001), Err(17)); // before 18
        book.deliver(0, 5).unwrap();
        assert_eq!(book.offer(0, 1, 1, 1), Err(15));
        assert_eq!(book.offer(1, 1, 1, 1), Err(17)); // idle offers still count
        assert_eq!(close(&mut book, 1, 1), [[1, 1, 5, 0, 0, 0]]);
        assert_eq!(book.offer(1, 1, 1, 1), Ok(())); // dropped by the Close
    }

    #[test]
    fn a_life_to_the_last_day() {
        let mut book = book(1);
        oblige(&mut book, 10, 1_000, 2);
        for age in 0..=13 {
            let lines = close(&mut book, 100_000, 100);
            let kinds: Vec<u64> = lines.iter().map(|line| line[0]).collect();
            let expected: &[u64] = match age {
                7 => &[1, 2],
                13 => &[1, 4],
                _ => &[1],
            };
            assert_eq!(kinds, expected, "age {age}");
        }
        assert_eq!(book.status(0), Ok([10, 0, 0, 10, 0, 0]));
        assert!(close(&mut book, 100_000, 100).is_empty());
        assert_eq!(book.look(0), Ok(0));
    }

    #[test]
    fn bought_and_compensated_on_the_last_day() {
        let mut book = book(1);
        oblige(&mut book, 10, 1_000, 2);
        close_times(&mut book, 13, 100_000);
        book.deliver(0, 1).unwrap();
        book.offer(0, 7, 3, 1).unwrap(); // below its cash: a charge of 0
        book.offer(0, 8, 4, 100).unwrap();
        assert_eq!(
            close(&mut book, 100_005, 10),
            [
                [1, 0, 9, 9, 0, 0],
                [3, 0, 3, 0, 7, 1],
                [3, 0, 4, 0, 8, 100],
                [4, 0, 2, 20_001, 0, 0]
            ]
        );
        assert_eq!(book.status(0), Ok([10, 1, 7, 2, 0, 0]));
    }

    #[test]
    fn close_refuses_in_order() {
        let mut book = Book::open(65_533, 0, &[]).unwrap();
        let mut list = [3; CLOSE_WORDS];
        assert_eq!(book.close(0, &mut list[1..]), Err(3));
        assert_eq!(book.close(150_001, &mut list), Err(3));
        assert_eq!(book.close(1, &mut list[1..]), Err(5));
        assert_eq!(book.close(150_000, &mut list), Err(20)); // before 26
        assert_eq!((book.today, book.closed_since_month), (65_533, false));
    }

    #[test]
    fn a_close_needs_a_row_that_has_started() {
        for mut book in [book(0), book(1), Book::of_refused_open()] {
            oblige(&mut book, 1_000, 1_000, 2);
            book.rate(3, 20).unwrap();
            let (before, mut list) = (book.clone(), [3; CLOSE_WORDS]);
            assert_eq!(book.close(100_000, &mut list[1..]), Err(5));
            assert_eq!(book.close(100_000, &mut list), Err(26));
            assert_eq!((&book, list), (&before, [3; CLOSE_WORDS]));
            book.rate(2, 10).unwrap();
            assert_eq!(book.close(100_000, &mut list), Ok(1));
            assert_eq!(book.accounts[1], 1_000);
            assert_eq!(book.close(100_000, &mut list), Ok(1));
            assert_eq!(book.accounts[1], 3_000);
        }
    }

    #[test]
    fn rate_refuses_in_order() {
        let mut book = book(0);
        for day in 3..18 {
            assert_eq!(book.rate(day, 100), Ok(()));
        }
        let before = book.clone();
        assert_eq!(book.rate(1, 101), Err(3));
        assert_eq!((book.rate(1, 0), book.rate(65_536, 0)), (Err(24), Err(24)));
        assert_eq!(book.rate(65_535, 0), Err(25)); // no row has started
        assert_eq!(book, before);
        assert_eq!((book.rate(2, 0), book.rate(17, 0)), (Ok(()), Ok(())));
        assert_eq!((book.rate(18, 0), book.rows.len()), (Err(25), 16));
    }

    #[test]
    fn a_full_close_has_192_lines() {
        assert_eq!(full_close().1.len(), 192);
    }

    #[test]
    fn again_shows_the_lines_of_the_latest_close() {
        let (mut book, lines) = closed_book();
        for words in [CLOSE_WORDS, CLOSE_WORDS, CLOSE_WORDS + 1, 4_096] {
            assert_eq!(again_in(&book, words), Ok(lines.clone()));
        }
        book.deliver(0, 1_000).unwrap();
        let fewer = close(&mut book, 90_000, 100);
        assert_eq!(fewer, [[1, 1, 3, 27, 0, 0]]);
        assert_eq!(again(&book), Ok(fewer));
    }

    #[test]
    fn again_needs_a_whole_list() {
        let (mut book, _) = closed_book();
        for words in [0, 1, 2 * LINE_WORDS, CLOSE_WORDS - 1] {
            assert_eq!(again_in(&book, words), Err(5));
        }
        book.deliver(0, 1_000).unwrap();
        book.deliver(1, 3).unwrap();
        assert!(close(&mut book, 100_000, 10).is_empty());
        assert_eq!(again_in(&book, 0), Err(5));
    }

    #[test]
    fn again_is_refused_by_22_before_a_close() {
        let mut book = book(1);
        assert_eq!(again(&book), Err(22));
        assert_eq!(again_in(&book, 4_096), Err(22));
        assert_eq!(again_in(&book, CLOSE_WORDS - 1), Err(5)); // before 22
        oblige(&mut book, 5, 1_000, 2);
        assert_eq!(month(&mut book, &[]), Err(21));
        assert_eq!(again(&book), Err(22));
    }

    #[test]
    fn a_close_of_no_lines_is_a_close() {
        let mut empty = book(1);
        assert!(close(&mut empty, 100_000, 10).is_empty());
        assert_eq!(again(&empty), Ok(vec![]));
        // Nothing is left of the lines of an earlier Close.
        let (mut book, _) = closed_book();
        book.deliver(0, 1_000).unwrap();
        book.deliver(1, 3).unwrap();
        assert!(close(&mut book, 100_000, 10).is_empty());
        assert_eq!(again(&book), Ok(vec![]));
    }

    #[test]
    fn a_month_leaves_the_lines() {
        let (mut book, lines) = closed_book();
        month(&mut book, &[(0, 1_003)]).unwrap();
        assert_eq!(again(&book), Ok(lines.clone()));
        assert_eq!(month(&mut book, &[]), Err(21)); // Again is no Close
        assert_eq!(again(&book), Ok(lines));
    }

    #[test]
    fn a_refused_close_leaves_the_lines() {
        let (mut book, lines) = closed_book();
        let mut list = [77; CLOSE_WORDS];
        for (answer, price, words) in [(3, 0, CLOSE_WORDS), (5, 1, CLOSE_WORDS - 1)] {
            assert_eq!(book.close(price, &mut list[..words]), Err(answer));
            assert_eq!(again(&book), Ok(lines.clone()));
        }
        // Nothing is open so late that a Close is refused by 20, but the book can be brought there.
        book.today = LAST_DAY;
        assert_eq!(book.close(1, &mut list), Err(20));
        assert_eq!(again(&book), Ok(lines));
    }

    #[test]
    fn a_refused_close_is_none() {
        let mut book = Book::open(65_533, 0, &[]).unwrap();
        let mut list = [77; CLOSE_WORDS];
        for (answer, price, words) in [
            (3, 0, CLOSE_WORDS),
            (5, 1, CLOSE_WORDS - 1),
            (20, 1, CLOSE_WORDS),
        ] {
            assert_eq!(book.close(price, &mut list[..words]), Err(answer));
            assert_eq!(again(&book), Err(22));
        }
    }

    #[test]
    fn other_calls_leave_the_lines() {
        let (mut book, _) = closed_book();
        close_times(&mut book, 10, 100_000);
        let lines = again(&book).unwrap();
        assert_eq!(lines, [[1, 0, 1_000, 0, 0, 0], [1, 1, 3, 0, 0, 0]]);
        let today = book.today;
        book.offer(0, 7, 5, 100_000).unwrap();
        assert_eq!(again(&book), Ok(lines.clone()));
        book.deliver(1, 3).unwrap();
        assert_eq!(again(&book), Ok(lines.clone()));
        book.enter(4, 5, 0, 1, 1, today).unwrap();
        assert_eq!(again(&book), Ok(lines.clone()));
        book.withdraw(4, 4).unwrap();
        assert_eq!(again(&book), Ok(lines.clone()));
        book.cancel(0, 0).unwrap();
        book.cancel(0, 1).unwrap();
        assert_eq!(again(&book), Ok(lines));
    }

    #[test]
    fn all_192_lines_come_back() {
        let (book, lines) = full_close();
        assert_eq!(lines.len(), 192);
        assert_eq!(again(&book), Ok(lines.clone()));
        assert_eq!(again_in(&book, 4_096), Ok(lines));
    }

    #[test]
    fn a_new_book_has_had_no_close() {
        assert_eq!(again(&book(0)), Err(22));
        assert_eq!(again(&Book::of_refused_open()), Err(22));
    }

    #[test]
    fn months() {
        let mut book = book(0);
        oblige(&mut book, 1_000, 1, 2);
        assert_eq!(month(&mut book, &[]), Err(21));
        assert_eq!(month(&mut book, &[(0, 1)]), Err(19));
        close(&mut book, 100_000, 10);
        assert_eq!(month(&mut book, &[(0, 1_001)]), Err(19));
        assert_eq!(month(&mut book, &[(0, u64::MAX), (2, 2)]), Err(19));
        assert_eq!(month(&mut book, &[(1, 1)]), Err(19)); // a creditor owes nothing
        assert_eq!(book.month(&[0; 31], &mut [0; 32]), Err(5));
        assert_eq!(book.month(&[0; 32], &mut [0; 33]), Err(5));
        assert_eq!(month(&mut book, &[(0, 999)]).unwrap()[1], 999);
        assert_eq!((book.account(0), book.account(1)), (Ok(0), Ok(0)));
        assert_eq!(month(&mut book, &[]), Err(21));
        close(&mut book, 100_000, 0);
        assert_eq!(month(&mut book, &[]), Ok([0; MEMBERS]));
    }

    #[test]
    fn an_empty_month_pays_each_claim() {
        let (answer, book, payouts) = month_on(&debtors_and_creditors(), &[], MEMBERS);
        let mut claims = [0; MEMBERS];
        (claims[2], claims[5], claims[31]) = (33, 301, 700);
        assert_eq!((answer, payouts), (Ok(()), claims.to_vec()));
        assert_eq!((book.accounts, book.closed_since_month), ([0; 32], false));
    }

    #[test]
    fn an_empty_month_ends_as_one_typed_in_full() {
        let mut book = debtors_and_creditors();
        assert_same_month(&book, MEMBERS, Ok(()));
        for places in [0, 1, 31, 33, 64] {
            assert_same_month(&book, places, Err(5));
        }
        // After the Month, and then after a Close that adds to the accounts again.
        book = month_on(&book, &[], MEMBERS).1;
        assert_same_month(&book, MEMBERS, Err(21));
        assert_same_month(&book, 31, Err(5)); // before 21
        close(&mut book, 77_777, 99);
        assert_same_month(&book, MEMBERS, Ok(()));
        // With all accounts at zero, and with as much on them as there can be.
        assert_same_month(&full_close().0, MEMBERS, Ok(()));
        book.accounts = accounts(&[(30, -3_456_000_000), (31, 3_456_000_000)]);
        assert_same_month(&book, MEMBERS, Ok(()));
        assert_eq!(month_on(&book, &[], MEMBERS).2[31], 3_456_000_000);
    }

    #[test]
    fn an_empty_month_needs_a_close() {
        for new in [book(0), book(1), Book::of_refused_open()] {
            assert_same_month(&new, MEMBERS, Err(21));
            assert_same_month(&new, 0, Err(5));
            assert_same_month(&new, 33, Err(5));
        }
    }

    #[test]
    fn zeros_are_no_empty_month() {
        let (answer, book, payouts) = month_on(&debtors_and_creditors(), &[0; 32], MEMBERS);
        assert_eq!((answer, payouts), (Ok(()), vec![0; 32]));
        assert_eq!(book, month_on(&debtors_and_creditors(), &[], MEMBERS).1);
    }

    #[test]
    fn a_list_is_of_0_or_of_32() {
        for book in [book(0), debtors_and_creditors(), full_close().0] {
            for length in [1, 2, 31, 33, 64, 4_096] {
                for amount in [0, u64::MAX] {
                    let ended = month_on(&book, &vec![amount; length], MEMBERS);
                    assert_eq!(ended, (Err(5), book.clone(), vec![5; 32]), "{length}");
                }
            }
        }
    }

    #[test]
    fn looks() {
        let mut book = book(0);
        oblige(&mut book, 1, 1, 3);
        oblige(&mut book, 1, 1, 2);
        assert_eq!(book.look(0), Ok(0)); // J is today, or later
        close(&mut book, 1, 0);
        assert_eq!(
            (book.look(0), book.look(1), book.look(32)),
            (Ok(2), Ok(0), Err(1))
        );
        close(&mut book, 1, 0);
        assert_eq!(book.look(0), Ok(1));
        assert!(book.is_late(1, 0) && !book.is_late(2, 0));
        book.deliver(0, 1).unwrap();
        assert_eq!(book.look(0), Ok(2));
    }
}
