//! Offers at one price: auctions in which it matters who came first.

use std::io::{self, Write};

use crate::book::MAX_OFFERS;
use crate::Generator;

/// The arguments of an Offer: obligation, supplier, quantity, price.
type Entry = [u64; 4];

/// How the quantities of offers at one price follow one another.
#[derive(Clone, Copy, Debug, PartialEq)]
enum Shape {
    Rising,
    Falling,
    Equal,
    /// They rise and then fall.
    Peak,
    /// They fall and then rise.
    Valley,
}

const SHAPES: [Shape; 8] = [
    Shape::Rising,
    Shape::Rising,
    Shape::Falling,
    Shape::Falling,
    Shape::Equal,
    Shape::Equal,
    Shape::Peak,
    Shape::Valley,
];

/// How much of the offers at one price is wanted.
#[derive(Clone, Copy, Debug, PartialEq)]
enum Wanted {
    /// The first alone.
    One,
    /// The first and a part of the second.
    Part,
    /// All but a part of the last.
    Most,
    All,
    /// All but the last, of which nothing is wanted.
    Exactly,
    /// All, the last of them being larger than what is outstanding.
    Rest,
}

/// The last two of these have one offer more than the others.
const WANTED: [Wanted; 15] = [
    Wanted::One,
    Wanted::One,
    Wanted::Part,
    Wanted::Part,
    Wanted::Part,
    Wanted::Most,
    Wanted::All,
    Wanted::All,
    Wanted::All,
    Wanted::All,
    Wanted::All,
    Wanted::All,
    Wanted::All,
    Wanted::Exactly,
    Wanted::Rest,
];

/// So many rising numbers, none below the low one and none above the high one. Where there is no room for
/// them, all are the low one.
fn spread(count: u64, low: u64, high: u64) -> Vec<u64> {
    let step = high.saturating_sub(low) / count;
    (0..count).map(|number| low + number * step).collect()
}

impl Shape {
    /// Puts rising numbers into the shape.
    fn of(self, rising: &[u64]) -> Vec<u64> {
        let evens = || rising.iter().step_by(2).copied();
        let odds: Vec<u64> = rising.iter().skip(1).step_by(2).rev().copied().collect();
        match self {
            Shape::Rising => rising.to_vec(),
            Shape::Falling => rising.iter().rev().copied().collect(),
            Shape::Equal => vec![rising[0]; rising.len()],
            Shape::Peak => evens().chain(odds).collect(),
            Shape::Valley => odds.into_iter().chain(evens()).collect(),
        }
    }
}

impl<W: Write> Generator<W> {
    // ------------------------------------------------------------ scenarios

    /// A few obligations with offers at one price on all days of their buy-in, or on the last ones.
    pub fn first_come(&mut self) -> io::Result<()> {
        (self.readings, self.noise) = (self.random.pick(&[1, 1, 5]), self.random.pick(&[0, 0, 1]));
        let count = self.random.between(4, 9);
        let largest = self.random.pick(&[30, 100, 2_000]);
        let quantities: Vec<u64> = (0..count)
            .map(|_| self.random.between(12, largest))
            .collect();
        self.open_for_auctions(&quantities)?;
        let usual = self.one_price(0);
        let days = self.player.book.terms.last - self.player.book.terms.grace;
        let idle = self.random.pick(&[0, 0, 1, days - 1, days - 1]);
        self.close_days(idle)?;
        for _ in idle..days {
            self.day_of_auctions(usual)?;
        }
        Ok(())
    }

    /// All offers of a day at one price and for one obligation, and one more that is refused. On the first
    /// day all are wanted, as the numbers from 1 to 64 add up to 2,080, on the second only some.
    pub fn one_price_for_all(&mut self) -> io::Result<()> {
        (self.readings, self.noise) = (1, 0);
        let quantity = self.random.between(2_081, 4_000);
        self.open_for_auctions(&[quantity])?;
        let price = self.one_price(0);
        for wanted in [quantity, self.random.between(2, 60)] {
            let least = self.left(0) / wanted;
            for number in 0..MAX_OFFERS as u64 {
                let supplier = (number * 377 + quantity) % 1_000;
                self.call("offer", &[0, supplier, least.max(1) + number, price])?;
            }
            self.call("offer", &[0, 5, 1, price])?;
            self.close_day()?;
        }
        self.jam()
    }

    /// So many offers for one obligation, at a few prices, that it shows how they were sorted.
    pub fn crowd_of_prices(&mut self) -> io::Result<()> {
        (self.readings, self.noise) = (1, self.random.pick(&[0, 0, 1]));
        let quantity = self.random.between(500, 3_000);
        self.open_for_auctions(&[quantity])?;
        for _ in 0..self.random.between(1, 2) {
            let (price, prices) = (self.one_price(0), self.random.between(2, 4));
            let largest = (self.left(0) / 30).max(2);
            for _ in 0..self.random.between(34, 66) {
                let price = price.saturating_sub(self.random.below(prices)).max(1);
                let supplier = self.random.below(1_000);
                let quantity = self.random.between(1, largest);
                self.call("offer", &[0, supplier, quantity, price])?;
            }
            self.close_day()?;
        }
        self.jam()
    }

    // ------------------------------------------------------------ a book in its buy-in

    /// A book on the first day of the buy-in of obligations with these quantities. After them it has one
    /// that comes to its buy-in later and one that is empty.
    fn open_for_auctions(&mut self, quantities: &[u64]) -> io::Result<()> {
        let first = self.random.between(0, 8_000) * 7 + 2;
        let terms = u64::from(self.random.percent(60));
        self.open_book(first, terms)?;
        let (today, later) = (self.day_after(0), self.day_after(6));
        for &quantity in quantities {
            self.enter_both(quantity, today)?;
        }
        self.enter_both(9, later)?;
        self.enter_both(9, today)?;
        let empty = quantities.len() as u64 + 1;
        self.call("deliver", &[empty, 9])?;
        let days = self.player.book.terms.grace + 1;
        self.close_days(days)
    }

    /// Both legs of an obligation whose amount mostly can't be divided by its quantity.
    fn enter_both(&mut self, quantity: u64, day: u64) -> io::Result<()> {
        let (seller, buyer) = self.pair();
        let amount = quantity * self.random.between(97_000, 103_000) + self.random.below(quantity);
        self.call("enter", &[seller, buyer, 0, quantity, amount, day])?;
        self.call("enter", &[buyer, seller, 1, quantity, amount, day])
            .map(|_| ())
    }

    /// What is outstanding of an obligation, and 0 if there is no such obligation.
    fn left(&self, number: usize) -> u64 {
        let obligation = self.player.book.obligations.get(number);
        obligation.map_or(0, |obligation| obligation.outstanding())
    }

    /// The highest price that an obligation takes.
    fn cap(&self, number: usize) -> u64 {
        let obligation = self.player.book.obligations.get(number);
        let grace_price = obligation.and_then(|obligation| obligation.grace_price);
        grace_price.unwrap_or(100_000) * 108 / 100
    }

    /// A price for several offers. It is often that of the obligation itself, so that charges are 0 or a few
    /// cents.
    fn one_price(&mut self, number: usize) -> u64 {
        let cap = self.cap(number);
        let obligation = self.player.book.obligations.get(number);
        let unit = obligation.map_or(cap, |obligation| obligation.amount / obligation.quantity);
        let price = match self.random.below(10) {
            0 => cap,
            1 => 1,
            2 | 3 => unit,
            4 => unit + 1,
            _ => self.random.between(cap * 9 / 10, cap),
        };
        price.clamp(1, cap)
    }

    /// The obligations that take offers today.
    fn in_buy_in(&self) -> Vec<usize> {
        let book = &self.player.book;
        let numbers = 0..book.obligations.len();
        let takes_offers = |&number: &usize| {
            let obligation = &book.obligations[number];
            obligation.outstanding() > 0 && book.terms.in_buy_in(book.age(obligation))
        };
        numbers.filter(takes_offers).collect()
    }

    // ------------------------------------------------------------ a day

    /// Offers for all obligations, at times for some of them in turn, then a Close. The usual price makes
    /// the offers of one day like those of another.
    fn day_of_auctions(&mut self, usual: u64) -> io::Result<()> {
        let open = self.in_buy_in();
        let in_turn = self.random.pick(&[0, 2, 3, 4]).min(open.len());
        self.offers_in_turn(&open[..in_turn], usual)?;
        for &number in &open[in_turn..] {
            let price = if self.random.percent(60) {
                usual.min(self.cap(number))
            } else {
                self.one_price(number)
            };
            let hand = self.hand(number, price);
            self.offers_of_hand(&hand)?;
        }
        if self.random.percent(40) && !open.is_empty() {
            let number = self.random.pick(&open);
            let quantity = self.random.between(1, self.left(number).max(1));
            self.call("deliver", &[number as u64, quantity])?;
        }
        self.close_day()?;
        if self.random.percent(40) {
            self.jam()?;
        }
        Ok(())
    }

    /// Enters the offers of a hand, with something else between two of them.
    fn offers_of_hand(&mut self, hand: &[Entry]) -> io::Result<()> {
        let halfway = self.random.between(1, hand.len() as u64 - 1) as usize;
        let (first, rest) = hand.split_at(halfway);
        for entry in first {
            self.call("offer", entry)?;
        }
        for _ in 0..self.random.between(1, 3) {
            self.amid_offers(first[0])?;
        }
        for entry in rest {
            self.call("offer", entry)?;
        }
        Ok(())
    }

    /// The same suppliers and the same price for several obligations, entered in turn. Where the quantities
    /// of the one rise and its suppliers come in one order, those of the next fall and come in the other.
    fn offers_in_turn(&mut self, numbers: &[usize], price: u64) -> io::Result<()> {
        let count = self.random.between(2, 4);
        let mut suppliers = self.suppliers(count);
        let mut hands = Vec::new();
        for (place, &number) in numbers.iter().enumerate() {
            let shape = [Shape::Rising, Shape::Falling][place % 2];
            let wanted = self.random.pick(&WANTED[..13]);
            let quantities = self.quantities((shape, wanted), count, self.left(number));
            let price = price.min(self.cap(number));
            hands.push(entries(number, price, &suppliers, &quantities));
            suppliers.reverse();
        }
        for turn in 0..count as usize {
            for hand in &hands {
                self.call("offer", &hand[turn])?;
            }
        }
        Ok(())
    }

    // ------------------------------------------------------------ the offers for one obligation

    /// Offers for one obligation at one price, and at times some at other prices among them.
    fn hand(&mut self, number: usize, price: u64) -> Vec<Entry> {
        let (shape, wanted) = (self.random.pick(&SHAPES), self.random.pick(&WANTED));
        let least = if [Shape::Peak, Shape::Valley].contains(&shape) {
            3
        } else {
            2
        };
        let count = self.random.between(least, least + 2);
        let others = self.random.below(8);
        // Something is left for the offers at other prices too.
        let left = if others < 4 {
            self.left(number).div_ceil(2)
        } else {
            self.left(number)
        };
        let quantities = self.quantities((shape, wanted), count, left);
        let suppliers = self.suppliers(quantities.len() as u64);
        let mut hand = entries(number, price, &suppliers, &quantities);
        match others {
            0 => self.add_cheaper(&mut hand),
            1 => self.add_between(&mut hand, price + 1),
            2 => self.add_between(&mut hand, price.saturating_sub(1)),
            3 => self.add_second_price(&mut hand),
            _ => {}
        }
        hand
    }

    /// Quantities in a shape, if so much is left.
    fn quantities(&mut self, (shape, wanted): (Shape, Wanted), count: u64, left: u64) -> Vec<u64> {
        let (low, high) = match wanted {
            Wanted::One => (left, left + 20),
            Wanted::Part => (left / 2 + 1, left),
            Wanted::Most => (left / count + 1, left / (count - 1) + 1),
            Wanted::All | Wanted::Exactly | Wanted::Rest => (1, left / count),
        };
        let low = self
            .random
            .between(low, low.max(high.saturating_sub(2 * count)));
        let mut quantities = shape.of(&spread(count, low.max(1), high));
        let sum: u64 = quantities.iter().sum();
        match wanted {
            Wanted::Exactly => {
                quantities[0] += left.saturating_sub(sum);
                quantities.push(self.random.between(1, left + 5));
            }
            Wanted::Rest => quantities.push(left + self.random.between(1, 9)),
            _ => {}
        }
        quantities
    }

    /// Suppliers that differ, or that are alike, or only one.
    fn suppliers(&mut self, count: u64) -> Vec<u64> {
        let start = self.random.between(0, 900);
        let mut suppliers: Vec<u64> = (start..).take(count as usize).collect();
        match self.random.below(5) {
            0 => suppliers.fill(start),
            1 => suppliers
                .iter_mut()
                .step_by(2)
                .for_each(|supplier| *supplier = start),
            2 | 3 => suppliers.reverse(),
            _ => {}
        }
        suppliers
    }

    /// An offer behind the others that is cheaper, and smaller or larger than one of them or of its size.
    fn add_cheaper(&mut self, hand: &mut Vec<Entry>) {
        let [number, supplier, quantity, price] = self.random.pick(hand);
        let quantity = (quantity + self.random.below(3)).saturating_sub(1).max(1);
        let price = price.saturating_sub(self.random.between(1, 50)).max(1);
        hand.push([number, supplier + 1, quantity, price]);
    }

    /// An offer at another price between two of the others.
    fn add_between(&mut self, hand: &mut Vec<Entry>, price: u64) {
        let place = self.random.between(1, hand.len() as u64 - 1) as usize;
        let [number, supplier, quantity, _] = self.random.pick(hand);
        let price = price.clamp(1, self.cap(number as usize));
        hand.insert(place, [number, supplier + 1, quantity, price]);
    }

    /// After each offer another one at a second price.
    fn add_second_price(&mut self, hand: &mut Vec<Entry>) {
        let [number, .., price] = hand[0];
        let second = if self.random.percent(50) {
            price + 1
        } else {
            price.saturating_sub(1)
        };
        let second = second.clamp(1, self.cap(number as usize));
        let doubled = hand.iter().flat_map(|&entry| {
            let [number, supplier, quantity, _] = entry;
            [entry, [number, supplier + 10, quantity, second]]
        });
        *hand = doubled.collect();
    }

    // ------------------------------------------------------------ between two offers

    /// Something after an offer that leaves it in its place: a refused call, a reading, or a call that
    /// moves something else.
    fn amid_offers(&mut self, entry: Entry) -> io::Result<()> {
        match self.random.below(14) {
            0..=6 => self.refused_offer(entry),
            7 | 8 => self.refused_close(),
            9 => self.plausible("again"),
            10 => self.month_in_full(),
            11 => self.first_wish(entry[0] as usize),
            12 => self.empty_rival(entry),
            _ => {
                let most = (self.left(entry[0] as usize) / 4).max(1);
                let quantity = self.random.between(1, most);
                self.call("deliver", &[entry[0], quantity]).map(|_| ())
            }
        }
    }

    /// An offer like the one given, except that it is refused.
    fn refused_offer(&mut self, [number, supplier, quantity, price]: Entry) -> io::Result<()> {
        let book = &self.player.book;
        let all = book.obligations.len() as u64;
        let is_later = |obligation| book.age(obligation) <= book.terms.grace;
        let later = book
            .obligations
            .iter()
            .position(|o| o.outstanding() > 0 && is_later(o));
        let empty = book.obligations.iter().position(|o| o.outstanding() == 0);
        let or_none = |found: Option<usize>| found.map_or(all, |number| number as u64);
        let too_dear = self.cap(number as usize) + 1;
        let refused = [
            [number, 1_000, quantity, price],
            [number, supplier, self.random.pick(&[0, 100_001]), price],
            [number, supplier, quantity, self.random.pick(&[0, 200_001])],
            [all, supplier, quantity, price],
            [or_none(empty), supplier, quantity, price],
            [or_none(later), supplier, quantity, price],
            [number, supplier, quantity, too_dear],
        ];
        let entry = self.random.pick(&refused);
        self.call("offer", &entry).map(|_| ())
    }

    /// The wish of one party, if there is none so far: a second one would empty the obligation.
    fn first_wish(&mut self, number: usize) -> io::Result<()> {
        let Some(obligation) = self.player.book.obligations.get(number) else {
            return Ok(());
        };
        if obligation.seller_wishes || obligation.buyer_wishes {
            return Ok(());
        }
        let parties = [obligation.seller, obligation.buyer];
        let member = self.random.pick(&parties);
        self.call("cancel", &[number as u64, member]).map(|_| ())
    }

    /// Delivers all of another obligation that has offers at the same price.
    fn empty_rival(&mut self, [number, .., price]: Entry) -> io::Result<()> {
        let offers = self.player.book.offers.iter();
        let mut rivals =
            offers.filter(|offer| offer.price == price && offer.obligation as u64 != number);
        let rival = rivals.find(|offer| self.left(offer.obligation) > 0);
        let Some(rival) = rival.map(|offer| offer.obligation) else {
            return Ok(());
        };
        let left = self.left(rival);
        self.call("deliver", &[rival as u64, left]).map(|_| ())
    }
}

/// Offers at one price for one obligation.
fn entries(number: usize, price: u64, suppliers: &[u64], quantities: &[u64]) -> Vec<Entry> {
    let pairs = suppliers.iter().zip(quantities);
    pairs
        .map(|(&supplier, &quantity)| [number as u64, supplier, quantity, price])
        .collect()
}

#[cfg(test)]
mod tests {
    use super::*;
    use crate::journal::CallSet;

    const ALL_SHAPES: [Shape; 5] = [
        Shape::Rising,
        Shape::Falling,
        Shape::Equal,
        Shape::Peak,
        Shape::Valley,
    ];

    #[test]
    fn shapes_are_as_named() {
        for (shape, three, six) in [
            (Shape::Rising, [1, 4, 7], [1, 4, 7, 10, 13, 16]),
            (Shape::Falling, [7, 4, 1], [16, 13, 10, 7, 4, 1]),
            (Shape::Equal, [1, 1, 1], [1, 1, 1, 1, 1, 1]),
            (Shape::Peak, [1, 7, 4], [1, 7, 13, 16, 10, 4]),
            (Shape::Valley, [4, 1, 7], [16, 10, 4, 1, 7, 13]),
        ] {
            assert_eq!(shape.of(&spread(3, 1, 10)), three);
            assert_eq!(shape.of(&spread(6, 1, 19)), six);
        }
        assert_eq!(spread(3, 5, 7), [5, 5, 5]);
        assert_eq!(spread(3, 5, 1), [5, 5, 5]);
    }

    /// Whether so much of the quantities is wanted where so many units are left.
    fn is_wanted(wanted: Wanted, quantities: &[u64], left: u64) -> bool {
        let (last, others) = quantities.split_last().unwrap();
        let before_last: u64 = others.iter().sum();
        match wanted {
            Wanted::One => quantities[0] >= left,
            Wanted::Part => quantities[0] < left && left < quantities[0] + quantities[1],
            Wanted::Most => before_last <= left && left < before_last + last,
            Wanted::All => before_last + last <= left,
            Wanted::Exactly => before_last == left,
            Wanted::Rest => before_last <= left && *last > left,
        }
    }

    #[test]
    fn as_much_is_wanted_as_named() {
        let mut generator = Generator::new(1, 10_000, CallSet::all(), Vec::new());
        for shape in ALL_SHAPES {
            for wanted in WANTED {
                for left in [12, 13, 30, 99, 2_000] {
                    let count = generator.random.between(2, 4);
                    let quantities = generator.quantities((shape, wanted), count, left);
                    let holds = is_wanted(wanted, &quantities, left);
                    assert!(holds, "{shape:?}, {wanted:?}, {left}: {quantities:?}");
                }
            }
        }
    }

    #[test]
    fn offers_for_nothing_can_be_made() {
        let mut generator = Generator::new(1, 10_000, CallSet::all(), Vec::new());
        for left in 0..5 {
            for wanted in WANTED {
                let quantities = generator.quantities((Shape::Peak, wanted), 3, left);
                assert!(quantities.iter().all(|&quantity| quantity > 0));
            }
        }
    }
}
