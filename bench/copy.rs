// How long one copy of a book in and out takes: what a call costs that takes the book by value and hands it back.
use std::hint::black_box;
use std::time::Instant;

// The bytes of a book as the engine lays it out: 128 legs, 64 obligations, 64 offers, 32 accounts, 192 lines of the latest
// Close, 16 rates, closed days, terms, today and the two flags. A count comes after each array but the accounts.
const BOOK: usize = (128 * 32 + 8)
    + (64 * 56 + 8 + (64 * 12 + 8) + 256)
    + (192 * 24 + 8)
    + (16 * 4 + 8)
    + (64 * 8 + 8 + 24)
    + (8 + 8);

#[inline(never)]
fn through(book: [u8; BOOK]) -> [u8; BOOK] {
    black_box(book)
}

fn main() {
    let mut book = [1u8; BOOK];
    let turns = 1_000_000;
    let start = Instant::now();
    for _ in 0..turns {
        book = through(black_box(book));
    }
    black_box(book);
    println!("{} {:.1}", BOOK, start.elapsed().as_nanos() as f64 / turns as f64);
}
