//! Bench, whose bytes are given by the specification, read and written in every form.

use tool::sheet::{decode::decode, describe::describe, encode::encode};
use tool::text::parse;

const BENCH: [u8; 18] = [1, 1, 1, 1, 5, 1, 0, 5, 0x0f, 0, 0, 0, 5, 0, 2, 0, 1, 2];

const TEXT: &str = "clocks x

location l0
  cost 1
  x <= 2

edge e0: l0 -> l0
  when x >= 1
  reset x
  cost 5
  reward 2
";

#[test]
fn text_to_bytes() {
    assert_eq!(encode(&parse(TEXT).unwrap()), BENCH);
}

#[test]
fn bytes_to_text() {
    assert_eq!(describe(&decode(&BENCH).unwrap()), TEXT);
}

#[test]
fn order_spaces_and_comments_do_not_matter() {
    let other = "# Bench\nclocks  x # the only one\nedge e0:l0->l0\nreset x\n reward 2\ncost 5\nwhen x>=1\n\nlocation l0\nx<=2\n\tcost 1";
    assert_eq!(encode(&parse(other).unwrap()), BENCH);
}

#[test]
fn names_are_free() {
    let other = TEXT.replace("l0", "work-bench_1").replace("e0", "finish").replace('x', "since");
    assert_eq!(encode(&parse(&other).unwrap()), BENCH);
}

#[test]
fn equal_is_both_ends_and_equal_0_the_upper_one() {
    let bytes = |guards: &str| encode(&parse(&TEXT.replace("x >= 1", guards)).unwrap());
    assert_eq!(bytes("x = 2"), bytes("x >= 2, x <= 2"));
    assert_eq!(bytes("x = 0"), bytes("x <= 0"));
    assert_ne!(bytes("x = 2"), bytes("x >= 2"));
}

#[test]
fn signs_become_the_right_bytes() {
    let last = |guard: &str| *encode(&parse(&TEXT.replace("x >= 1", guard)).unwrap()).last().unwrap();
    assert_eq!([last("x >= 1"), last("x > 1"), last("x > 12"), last("x > 0")], [2, 3, 25, 1]);
    assert_eq!([last("x < 0"), last("x <= 0"), last("x < 12"), last("x <= 12")], [0, 1, 24, 25]);
}
