//! Tests of both players by themselves, against cases that are worked out by hand: those of the rule book (sections
//! 14 and 15, Releases 34-49536 and 34-49745) and some more. Each case is played by both.

mod linear;
#[allow(dead_code)] // the wrong readings, which are for the comparison
mod player;
mod records;
mod words;

use player::Reading;
use words::Words;

/// The lines of a file, the same from both players.
fn lines_of(file: &[u8]) -> String {
    let played = player::play(file, Reading::Right);
    let mut out = vec![0; played.text.len() + 10];
    let answer = linear::play(file, &mut out);
    assert_eq!(answer, played.into_output(out.len()).1);
    assert_eq!(&out[..played.text.len()], &played.text[..]);
    String::from_utf8(played.text).unwrap()
}

fn check(words: &Words, lines: &str) {
    assert_eq!(lines_of(&words.bytes()), lines);
}

/// An open day of unit 100 whose latest price is 200,000, not rising: no line so far, and three records.
fn open_day() -> Words {
    let mut words = Words::start(100, 200_000, 1);
    words.clock(34_200_000).opening(200_000, 100);
    words
}

fn example() -> Words {
    let mut words = Words::start(10, 199_000, 1);
    words.clock(34_200_000).opening(200_000, 10);
    words.order(1, 1, 9, 0, 0).order(1, 1, 9, 0, 0).order(1, 2, 5, 200_000, 0);
    words.trade(200_000, 10).trade(199_900, 10).cancel(3).close();
    words
}

const EXAMPLE: &str = "1 1 9 200000 2\n2 1 9 200000 2\n3 1 5 199900 2\nR 9 9\nT -23 4599500\n";

#[test]
fn the_example_file() {
    let sample = include_bytes!("../../samples/example.day");
    assert_eq!(example().bytes(), sample);
    check(&example(), EXAMPLE);
    assert_eq!(EXAMPLE, include_str!("../../samples/example.lines"));
}

#[test]
fn the_example_with_too_few_bytes() {
    let file = example().bytes();
    let played = player::play(&file, Reading::Right);
    let short = [(0, 0), (14, 0), (15, 15), (40, 30), (50, 45), (64, 51)].map(|(len, written)| (len, written, 18));
    for (out_len, written, n) in short.into_iter().chain([(65, 65, 0), (66, 65, 0)]) {
        assert_eq!(played.into_output(out_len), (written, written as u64 * 32 + n));
        let mut out = vec![7; out_len];
        assert_eq!(linear::play(&file, &mut out), written as u64 * 32 + n);
        assert_eq!(&out[..written], &EXAMPLE.as_bytes()[..written]);
        assert!(out[written..].iter().all(|&byte| byte == 7));
    }
}

#[test]
fn buys_against_sells() {
    let mut words = open_day();
    words.order(1, 1, 60, 0, 0).order(2, 1, 40, 0, 0).trade(200_000, 100);
    check(&words, "1 1 60 200000 2\n2 2 40 200000 2\nT -20 4000000\n");
}

#[test]
fn a_limit_order_gets_the_price_of_the_sale() {
    let mut words = open_day();
    words.order(1, 2, 10, 200_000, 0).order(2, 2, 20, 199_000, 0).trade(199_000, 100);
    check(&words, "1 1 10 199000 2\n2 2 20 199000 2\nT 10 -1990000\n");
    let mut beyond = open_day();
    beyond.order(1, 2, 10, 199_999, 0).order(2, 2, 20, 200_001, 0).trade(200_000, 100);
    check(&beyond, "T 0 0\n");
}

#[test]
fn a_short_order_waits_for_a_rising_sale() {
    let mut words = open_day();
    words.order(3, 1, 50, 0, 0).trade(200_000, 100).trade(200_100, 100);
    check(&words, "1 3 50 200100 2\nT 50 -10005000\n");
    let mut limited = open_day();
    limited.order(3, 2, 50, 200_000, 0).trade(199_000, 100).trade(199_500, 100).trade(200_000, 100);
    check(&limited, "1 3 50 200000 2\nT 50 -10000000\n");
}

#[test]
fn a_zero_plus_tick_is_rising() {
    let mut words = open_day();
    words.trade(200_100, 100).order(3, 1, 50, 0, 0).trade(200_100, 100);
    check(&words, "1 3 50 200100 2\nT 50 -10005000\n");
    let mut falling = open_day();
    falling.trade(200_100, 100).order(3, 1, 50, 0, 0).trade(200_000, 100).trade(200_000, 100);
    check(&falling, "T 0 0\n");
}

#[test]
fn the_opening_is_compared_with_the_prior_close() {
    for (price, lines) in [(200_000, "T 0 0\n"), (200_001, "1 3 5 200001 1\nT 5 -1000005\n")] {
        let mut words = Words::start(100, 200_000, 1);
        words.order(3, 1, 5, 0, 0).opening(price, 100);
        check(&words, lines);
    }
}

#[test]
fn a_stop_is_filled_by_the_sale_after_its_election() {
    let mut words = open_day();
    words.order(1, 3, 50, 0, 200_100).trade(200_100, 100).trade(200_500, 100);
    check(&words, "1 1 50 200500 2\nT -50 10025000\n");
    let mut sells = open_day();
    sells.order(2, 3, 50, 0, 199_900).order(3, 3, 10, 0, 199_900).trade(199_901, 100).trade(199_900, 100);
    sells.trade(199_900, 100).trade(199_901, 100);
    check(&sells, "1 2 50 199900 2\n2 3 10 199901 2\nT 60 -11994010\n");
    let mut limited = open_day();
    limited.order(1, 4, 50, 200_200, 200_100).trade(200_300, 100).trade(200_201, 100).trade(200_200, 100);
    check(&limited, "1 1 50 200200 2\nT -50 10010000\n");
}

#[test]
fn the_timer_is_passed_at_30001() {
    let mut words = open_day();
    words.order(1, 1, 50, 0, 0).quote(0, 200_100).clock(34_230_000).clock(34_230_001);
    check(&words, "1 1 50 200100 3\nT -50 10005000\n");
    // Without its price an order waits, and the same time again may fill it. Shorts and limits have no timer.
    let mut others = open_day();
    others.order(2, 1, 5, 0, 0).order(3, 1, 6, 0, 0).order(2, 2, 7, 1, 0).quote(0, 200_100).clock(34_290_000);
    others.quote(199_900, 0).clock(34_290_000);
    check(&others, "1 2 5 199900 4\nT 5 -999500\n");
    // An elected stop counts from its receipt. Before the opening nothing is filled.
    let mut stop = Words::start(100, 200_000, 1);
    stop.order(1, 3, 5, 0, 200_000).quote(0, 200_100).clock(50_000).opening(200_000, 100).clock(50_000);
    check(&stop, "1 1 5 200100 3\nT -5 1000500\n");
}

#[test]
fn the_opening_fills_every_market_order() {
    for (kind, last) in [(2, "T -18 3600000\n"), (1, "3 1 9 200000 1\nT -27 5400000\n")] {
        let mut words = Words::start(10, 199_000, 1);
        words.order(1, 1, 9, 0, 0).order(1, 1, 9, 0, 0).order(1, kind, 9, 200_000, 0).opening(200_000, 10);
        check(&words, &format!("1 1 9 200000 1\n2 1 9 200000 1\n{last}"));
    }
}

#[test]
fn sizes() {
    let mut words = open_day();
    words.order(1, 1, 99, 0, 0).order(1, 1, 100, 0, 0).order(1, 1, 0, 0, 0).trade(200_000, 100);
    check(&words, "R 5 4\nR 6 4\n1 1 99 200000 2\nT -99 19800000\n");
}

#[test]
fn the_close() {
    let mut words = open_day();
    words.order(1, 1, 1, 0, 0).order(2, 1, 2, 0, 0).order(3, 1, 3, 0, 0).order(1, 2, 4, 300_000, 0);
    words.order(1, 3, 5, 0, 300_000).quote(199_900, 0).close().clock(0);
    check(&words, "1 1 1 0 6\n2 2 2 199900 4\n3 3 3 0 6\n4 1 4 0 6\n5 1 5 0 6\nR 11 1\nT 2 -399800\n");
    let mut unopened = Words::start(100, 200_000, 1);
    unopened.quote(199_900, 200_100).order(1, 1, 1, 0, 0).order(2, 1, 2, 0, 0).close();
    check(&unopened, "1 1 1 0 6\n2 2 2 0 6\nT 0 0\n");
}

/// Market buys of 6,000 shares and market sells of 4,000 wait at a trade of 1,000 shares at $20: all sells are
/// filled, and the buys that have fewer than 5,000 shares ahead. In lots of 50 and 80 these are 100 buys and 50
/// sells. The next trade of 500 fills 10 buys more, and the clock the other 10 at the offer.
#[test]
fn first_example_of_the_release() {
    let mut words = open_day();
    for _ in 0..120 {
        words.order(1, 1, 50, 0, 0);
    }
    for _ in 0..50 {
        words.order(2, 1, 80, 0, 0);
    }
    words.trade(200_000, 1_000).trade(199_000, 500).quote(199_900, 200_100).clock(34_230_001);
    let mut lines: String = (1..=100).map(|number| format!("{number} 1 50 200000 2\n")).collect();
    lines.extend((121..=170).map(|number| format!("{number} 2 80 200000 2\n")));
    lines.extend((101..=110).map(|number| format!("{number} 1 50 199000 2\n")));
    lines.extend((111..=120).map(|number| format!("{number} 1 50 200100 3\n")));
    // Bought: 5000 at 200000, 500 at 199000, 500 at 200100; sold: 4000 at 200000.
    lines.push_str("T -2000 399550000\n");
    check(&words, &lines);
}

/// A limit buy of 50 at $20 behind market buys of 1,000 shares, at a trade of 1,000 shares at $20, waits.
#[test]
fn second_example_of_the_release() {
    let mut words = open_day();
    for _ in 0..20 {
        words.order(1, 1, 50, 0, 0);
    }
    words.order(1, 2, 50, 200_000, 0).trade(200_000, 1_000).trade(200_001, 100).trade(199_999, 100);
    let mut lines: String = (1..=20).map(|number| format!("{number} 1 50 200000 2\n")).collect();
    lines.push_str("21 1 50 199999 2\nT -1050 209999950\n");
    check(&words, &lines);
}

/// The order that passes the volume is filled whole; the one whose shares ahead equal M + V waits.
#[test]
fn the_last_order() {
    let mut words = open_day();
    words.order(1, 1, 99, 0, 0).order(1, 1, 99, 0, 0).order(1, 1, 1, 0, 0).trade(200_000, 100);
    check(&words, "1 1 99 200000 2\n2 1 99 200000 2\nT -198 39600000\n");
    let mut equal = open_day();
    equal.order(1, 1, 60, 0, 0).order(1, 1, 40, 0, 0).order(1, 1, 1, 0, 0).trade(200_000, 100);
    check(&equal, "1 1 60 200000 2\n2 1 40 200000 2\nT -100 20000000\n");
}

#[test]
fn refusals_by_number() {
    let mut words = Words::start(100, 200_000, 268_435_455);
    words.trade(200_000, 100).opening(0, 100).opening(200_000, 99).opening(200_000, 100).opening(200_000, 100);
    words.clock(86_400_000).clock(86_399_999).clock(86_399_998);
    words.quote(200_000_001, 0).quote(0, 200_000_001).quote(5, 5).quote(6, 5).quote(200_000_000, 0);
    words.trade(200_000_001, 100).trade(200_000_000, 100_000_001).trade(200_000_000, 100_000_000);
    words.cancel(0).cancel(1).order(1, 1, 1, 0, 0).cancel(1).cancel(1).close().close();
    let lines = "R 2 2\nR 3 4\nR 4 4\nR 6 3\nR 7 4\nR 9 5\nR 10 4\nR 11 4\nR 12 6\nR 13 6\nR 15 4\nR 16 4\n\
                 R 18 9\nR 19 9\nR 22 9\nR 24 1\nT 0 0\n";
    check(&words, lines);
}

#[test]
fn a_book_of_512() {
    let mut words = Words::start(100, 200_000, 1);
    for _ in 0..513 {
        words.order(1, 2, 1, 5, 0);
    }
    words.order(1, 2, 0, 5, 0).cancel(7).order(1, 1, 1, 0, 0).opening(200_000, 100).order(1, 1, 1, 0, 0);
    check(&words, "R 514 8\nR 515 4\n513 1 1 200000 1\nT -1 200000\n");
}

#[test]
fn a_refused_start() {
    for (unit, close, tag) in [(11, 200_000, 1), (100, 0, 1), (100, 200_000_001, 1), (10, 200_000, 0)] {
        let mut words = Words::start(unit, close, tag);
        words.clock(0).order(1, 1, 1, 0, 0).close();
        check(&words, "R 1 4\nR 2 1\nR 3 1\nR 4 1\nT 0 0\n");
    }
}

#[test]
fn faults() {
    let start = Words::start(10, 199_000, 1);
    let after = |words: &[u32]| Words([&start.0[..], words].concat()).bytes();
    let cases = [
        (vec![], "X 0 16\n"),
        (Words(start.0[..2].to_vec()).bytes(), "X 0 16\n"),
        (Words(vec![0x1000_0000]).bytes(), "X 0 17\n"),
        (after(&start.0), "X 12 17\n"),
        (after(&[0x2001_0205]), "X 12 16\n"),
        (after(&[0x2001_0205, 0x1000_0000]), "X 12 17\n"),
        ([after(&[0x2001_0205]), vec![0x30, 0]].concat(), "X 12 16\n"),
        (after(&[0xB000_0001]), "X 12 17\n"),
        ([after(&[]), vec![0xF0]].concat(), "X 12 16\n"),
        (after(&[0x2001_0101, 0x3000_0001]), "X 16 17\n"),
        (after(&[0x2001_0405, 0x3000_0001]), "X 12 16\n"),
        (after(&[0x2001_0405, 0x4000_0001, 0x3000_0001]), "X 12 17\n"),
        (after(&[0x2005_0101]), "X 12 17\n"),
        (after(&[0x2001_0901]), "X 12 17\n"),
        (after(&[0x2001_0001, 0x2001_0501, 0x2000_0101, 0x0000_0000]), "R 2 4\nR 3 4\nR 4 4\nX 24 17\n"),
        (vec![0; 65_537], "X 65536 15\n"),
    ];
    for (file, lines) in cases {
        assert_eq!(lines_of(&file), lines, "{file:x?}");
    }
}
