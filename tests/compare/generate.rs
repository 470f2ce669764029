//! A seeded generator of day files: busy valid days, hostile ones, whose records are well formed and often refused,
//! and damaged ones, which mostly have a fault.

use crate::records::LONGEST;
use crate::words::{word, Words};

/// A small random source (splitmix64): the same seed gives the same files everywhere.
pub struct Random(u64);

impl Random {
    pub fn new(seed: u64) -> Random {
        Random(seed)
    }

    pub fn next(&mut self) -> u64 {
        self.0 = self.0.wrapping_add(0x9E37_79B9_7F4A_7C15);
        let mut mixed = self.0;
        mixed = (mixed ^ mixed >> 30).wrapping_mul(0xBF58_476D_1CE4_E5B9);
        mixed = (mixed ^ mixed >> 27).wrapping_mul(0x94D0_49BB_1331_11EB);
        mixed ^ mixed >> 31
    }

    /// A number from 0 to `count` less one.
    pub fn below(&mut self, count: u64) -> u64 {
        self.next() % count
    }

    pub fn chance(&mut self, percent: u64) -> bool {
        self.below(100) < percent
    }

    pub fn pick<T: Copy>(&mut self, from: &[T]) -> T {
        from[self.below(from.len() as u64) as usize]
    }

    /// The place of one of these weights, a heavy one more often.
    fn weighted(&mut self, weights: &[u64]) -> usize {
        let mut left = self.below(weights.iter().sum());
        let mut at = 0;
        while left >= weights[at] {
            left -= weights[at];
            at += 1;
        }
        at
    }
}

#[derive(Clone, Copy, PartialEq, Eq, Debug)]
pub enum Sort {
    Valid,
    Hostile,
    Damaged,
}

/// A file of a random sort.
pub fn file(random: &mut Random) -> (Sort, Vec<u8>) {
    let sort = random.pick(&[Sort::Valid, Sort::Valid, Sort::Hostile, Sort::Hostile, Sort::Damaged]);
    let shape = random.pick(&SHAPES);
    let bytes = match random.below(100) {
        0..=2 => random.pick(&[LONGEST, LONGEST, LONGEST - 4, 30_000]),
        3..=19 => 1_000 + random.below(11_000) as usize,
        20..=59 => 100 + random.below(900) as usize,
        _ => 12 + random.below(188) as usize,
    };
    let bytes = match sort {
        Sort::Valid => day(random, &shape, bytes, 0),
        Sort::Hostile => hostile(random, &shape, bytes),
        Sort::Damaged => damaged(random, &shape, bytes.min(4_000)),
    };
    (sort, bytes)
}

/// What a day is made of, in weights.
#[derive(Clone, Copy)]
pub struct Shape {
    /// Orders, sales, clocks, quotes, cancels.
    records: [u64; 5],
    /// Orders of the kinds market, limit, stop and stop limit.
    kinds: [u64; 4],
    /// How many price levels away from the market an order's prices may be, and how many away on its passive side,
    /// where a sale does not reach them at once.
    near: u64,
    away: u64,
    /// Records before the opening, at most.
    early: u64,
}

/// Many sales and timers: orders come and go, and the book stays short.
pub const BUSY: Shape = Shape { records: [58, 24, 8, 6, 4], kinds: [4, 4, 2, 2], near: 3, away: 0, early: 30 };
/// Orders pile up away from the market until the book holds several hundred, and some are turned away.
pub const DEEP: Shape = Shape { records: [86, 8, 2, 2, 2], kinds: [1, 8, 3, 4], near: 2, away: 6, early: 200 };
/// Mostly market orders that the quote fills.
const TIMED: Shape = Shape { records: [45, 7, 30, 16, 2], kinds: [7, 1, 2, 1], near: 2, away: 1, early: 10 };
/// Hardly a sale before the opening has swept a long book.
const EARLY: Shape = Shape { records: [80, 8, 4, 4, 4], kinds: [5, 5, 1, 1], near: 2, away: 0, early: 600 };

const SHAPES: [Shape; 6] = [BUSY, BUSY, BUSY, DEEP, TIMED, EARLY];

/// A day in the making. `market` is the level of the latest sale; levels lie `step` apart around `base`.
struct Market<'a> {
    random: &'a mut Random,
    shape: Shape,
    words: Words,
    unit: u32,
    base: i64,
    step: i64,
    market: i64,
    time: u32,
    orders: u32,
    /// Records still to come before the opening.
    early: u64,
    open: bool,
    /// Whether a close may come amid hostile records.
    closes_early: bool,
}

/// A day of at most so many bytes, in which so many records of a hundred are hostile.
pub fn day(random: &mut Random, shape: &Shape, bytes: usize, hostile_percent: u64) -> Vec<u8> {
    let mut market = Market::start(random, *shape);
    // An order has three words, and the close, which most days have, one.
    while market.words.0.len() * 4 + 16 <= bytes {
        if market.random.chance(hostile_percent) {
            market.hostile_record();
        } else {
            market.record();
        }
    }
    while market.words.0.len() * 4 + 8 <= bytes {
        market.clock();
    }
    if market.random.chance(85) {
        market.words.close();
    }
    market.words.bytes()
}

impl<'a> Market<'a> {
    fn start(random: &'a mut Random, shape: Shape) -> Market<'a> {
        let unit = random.pick(&[10, 100]);
        let base = random.pick(&[200_000, 200_000, 10_000, 8, 199_999_995, 1_234_567]);
        let step = random.pick(&[1, 1, 100]);
        let early = random.below(shape.early + 1);
        let closes_early = random.chance(20);
        let tag = 1 + random.below(268_435_455) as u32;
        let mut made = Market {
            random,
            shape,
            words: Words::default(),
            unit,
            base,
            step,
            market: 0,
            time: 0,
            orders: 0,
            early,
            open: false,
            closes_early,
        };
        let close = made.near_price();
        made.words = Words::start(unit, close, tag);
        made
    }

    fn price(&self, level: i64) -> u32 {
        (self.base + level * self.step).clamp(1, 200_000_000) as u32
    }

    /// A level at most `width` above or below the market.
    fn near_level(&mut self, width: u64) -> i64 {
        self.market + self.random.below(2 * width + 1) as i64 - width as i64
    }

    fn near_price(&mut self) -> u32 {
        let level = self.near_level(self.shape.near);
        self.price(level)
    }

    fn record(&mut self) {
        if !self.open && self.early == 0 {
            self.sale();
            return;
        }
        self.early = self.early.saturating_sub(1);
        match self.random.weighted(&self.shape.records) {
            0 => self.order(),
            1 if self.open => self.sale(),
            1 => self.order(),
            2 => self.clock(),
            3 => self.quote(),
            _ => self.cancel(),
        }
    }

    fn order(&mut self) {
        let side = self.random.pick(&[1, 1, 1, 2, 2, 3]);
        let kind = 1 + self.random.weighted(&self.shape.kinds) as u32;
        let largest = self.unit - 1;
        let shares = match self.random.below(4) {
            0 => largest,
            1 => self.unit / 2,
            _ => 1 + self.random.below(largest.into()) as u32,
        };
        let away = self.random.below(self.shape.away + 1) as i64;
        let away = if side == 1 { away } else { -away };
        let (limit, stop) = (self.near_level(self.shape.near) - away, self.near_level(self.shape.near) + away);
        let (limit, stop) = (self.price(limit), self.price(stop));
        self.words.order(side, kind, shares, limit, stop);
        self.orders += 1;
    }

    fn sale(&mut self) {
        // The market moves, and comes back to the base when it has gone too far.
        let width = self.random.pick(&[0, 1, 1, 2]);
        let moved = self.near_level(width);
        self.market = if moved.abs() > 8 { 0 } else { moved };
        let volume = match self.random.below(10) {
            0..=4 => self.unit,
            5..=7 => self.unit + self.random.below(u64::from(self.unit) * 4) as u32,
            8 => self.unit * (1 + self.random.below(40) as u32),
            _ => self.random.pick(&[self.unit + 1, 1_000, 100_000_000]),
        };
        let price = self.price(self.market);
        if self.open {
            self.words.trade(price, volume);
        } else {
            self.words.opening(price, volume);
            self.open = true;
        }
    }

    fn clock(&mut self) {
        let step = self.random.pick(&[0, 1, 1, 500, 10_000, 15_000, 29_999, 30_000, 30_001]);
        let first = if self.time == 0 { 34_200_000 } else { 0 };
        self.time = (self.time + first + step).min(86_399_999);
        self.words.clock(self.time);
    }

    fn quote(&mut self) {
        let level = self.near_level(2);
        let width = 1 + self.random.below(3) as i64;
        let (bid, offer) = (self.price(level - width), self.price(level));
        let (bid, offer) = self.random.pick(&[(bid, offer), (bid, offer), (bid, 0), (0, offer), (0, 0)]);
        // At the ends of the range both can be the same price.
        let offer = if bid == offer { 0 } else { offer };
        self.words.quote(bid, offer);
    }

    /// Mostly of a late number, which may be live still.
    fn cancel(&mut self) {
        let back = self.random.below(40).min(u64::from(self.orders)) as u32;
        self.words.cancel(self.orders - back);
    }

    /// A well-formed record with a value at or beyond the end of its range, or at a time when the day refuses it.
    fn hostile_record(&mut self) {
        let extreme = self.random.pick(&[0, 1, 200_000_000, 200_000_001, 268_435_455]);
        let other = self.near_price();
        match self.random.below(12) {
            0 => self.hostile_order(extreme),
            1..=2 => self.hostile_order(other),
            3 => self.hostile_clock(),
            4..=6 => {
                let (bid, offer) = self.random.pick(&[(extreme, other), (other, extreme), (other, other)]);
                self.words.quote(bid, offer);
            }
            7 => {
                let number = self.random.pick(&[0, 1, self.orders + 1, 60_000, 268_435_455]);
                self.words.cancel(number);
            }
            8..=10 => self.hostile_sale(extreme, other),
            _ if self.closes_early && self.random.chance(8) => {
                self.words.close();
            }
            _ => {
                self.words.trade(other, self.unit);
            }
        }
    }

    /// A time that is earlier or out of range, and now and then the last of the day, after which all are earlier.
    fn hostile_clock(&mut self) {
        let earlier = self.time.saturating_sub(1);
        let rarely = if self.random.chance(5) { 86_399_999 } else { earlier };
        let time = self.random.pick(&[earlier, earlier, 0, rarely, 86_400_000, 268_435_455]);
        self.words.clock(time);
    }

    fn hostile_sale(&mut self, extreme: u32, other: u32) {
        let sort = self.random.pick(&[8, 9]);
        let volume = self.random.pick(&[0, self.unit - 1, 100_000_000, 100_000_001, 268_435_455]);
        let (price, volume) = self.random.pick(&[(extreme, self.unit), (other, volume), (other, self.unit)]);
        self.words.push(sort, price).push(10, volume);
    }

    fn hostile_order(&mut self, price: u32) {
        let side = self.random.pick(&[0, 1, 2, 3]);
        let kind = self.random.below(8) as u32;
        let shares = self.random.pick(&[0, 1, self.unit - 1, self.unit, 99, 100, 255]);
        let other = self.near_price();
        let (limit, stop) = if self.random.chance(50) { (price, other) } else { (other, price) };
        self.words.order(side, kind, shares, limit, stop);
    }
}

fn hostile(random: &mut Random, shape: &Shape, bytes: usize) -> Vec<u8> {
    let percent = random.pick(&[3, 20, 60]);
    let mut file = day(random, shape, bytes, percent);
    if random.chance(8) {
        let close = random.pick(&[0, 200_000, 200_000_001]);
        let unit = if close == 200_000 { random.pick(&[0, 1, 11, 99, 1_000, 100]) } else { 100 };
        let tag = if unit == 100 && close == 200_000 { 0 } else { 1 };
        file.splice(..12, Words::start(unit, close, tag).bytes());
    }
    file
}

fn damaged(random: &mut Random, shape: &Shape, bytes: usize) -> Vec<u8> {
    let percent = random.pick(&[0, 0, 10]);
    let mut file = day(random, shape, bytes, percent);
    for _ in 0..random.pick(&[1, 1, 2]) {
        damage(random, &mut file);
    }
    file
}

fn damage(random: &mut Random, file: &mut Vec<u8>) {
    let at = random.below(file.len() as u64 + 1) as usize;
    let at_word = at / 4 * 4;
    let any = random.next() as u32;
    match random.below(12) {
        0..=2 => file.truncate(at),
        // The end at a word, or inside a word of any kind.
        3 => {
            file.truncate(at_word);
            file.extend_from_slice(&any.to_be_bytes()[..random.below(4) as usize]);
        }
        4..=5 if at < file.len() => file[at] ^= 1 << random.below(8),
        6 => insert(file, at_word, &[any]),
        7 => insert(file, at_word, &[word(random.below(16) as u32, 1 + random.below(100) as u32)]),
        8 => insert(file, at_word, &Words::start(100, 200_000, 1).0),
        // Orders whose first word has one bit in a gap, and a close with a value.
        9 => insert(file, at_word, &[word(2, 0x1_0101 | 1 << random.pick(&[11, 11, 15, 18, 18, 27]))]),
        10 => insert(file, at_word, &[word(11, 1 + any % 1_000)]),
        _ if random.chance(40) => file.resize(LONGEST + 1 + random.below(1_000) as usize, 0x11),
        _ => {
            file.drain(..at_word.min(12));
        }
    }
}

fn insert(file: &mut Vec<u8>, at: usize, words: &[u32]) {
    file.splice(at..at, Words(words.to_vec()).bytes());
}
