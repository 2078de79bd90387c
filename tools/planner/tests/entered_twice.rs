//! Question 17, put to descriptions and to bytes: two edges may not be the same but for their names.

use tool::sheet::{decode::decode, encode::encode, *};
use tool::text::parse;

const TWO: &str = "clocks x y
location a
  x <= 5
  y <= 5
location b
  x <= 5
  y <= 5
edge first: a -> b
  when x >= 1, y < 3
  reset x
  cost 5
  reward 2
edge second: a -> b
  reward 2
  cost 5
  reset x
  when y < 3, x >= 1
";

const SAME: &str = "13: edge 'second' is the same as edge 'first' on line 8; expected another source, target, guard, reset, cost or reward";

fn mistakes(text: &str) -> Vec<String> {
    parse(text).expect_err("a mistake").iter().map(|mistake| mistake.to_string()).collect()
}

/// The description with the line of the second edge that is this one replaced.
fn altered(line: &str, other: &str) -> String {
    let (before, second) = TWO.split_at(TWO.find("edge second").expect("it is there"));
    assert!(second.contains(line), "no line {line}");
    format!("{before}{}", second.replace(line, other))
}

#[test]
fn the_same_edge_under_another_name_is_told() {
    assert_eq!(mistakes(TWO), [SAME]);
}

#[test]
fn each_difference_is_enough() {
    let lines = [
        ("edge second: a -> b", "edge second: b -> b"),
        ("edge second: a -> b", "edge second: a -> a"),
        ("  cost 5\n", "  cost -5\n"),
        ("  cost 5\n", ""),
        ("  reward 2\n", "  reward 258\n"),
        ("  reward 2\n", ""),
        ("  reset x\n", "  reset y\n"),
        ("  reset x\n", ""),
        ("x >= 1", "y >= 1"),
        ("x >= 1", "x > 1"),
        ("y < 3", "y <= 3"),
        ("y < 3", "x < 3"),
    ];
    for (line, other) in lines {
        let sheet = parse(&altered(line, other)).unwrap_or_else(|mistakes| panic!("{other}: {mistakes:?}"));
        assert_eq!(decode(&encode(&sheet)).map(|read| read.edges.len()), Ok(2), "{other}");
    }
}

#[test]
fn it_is_told_beside_the_start_and_the_ends() {
    let closed = TWO.replacen("x <= 5", "x < 0", 1);
    let start = "3: a run starts in 'a' with all clocks at 0, and x < 0 does not admit that; expected a bound like x <= 0 or x < 1";
    assert_eq!(mistakes(&closed), [start, SAME]);
    let end = "18: 'c' is no location; expected one of: a, b";
    assert_eq!(mistakes(&format!("{closed}edge third: a -> c\n")), [start, SAME, end]);
}

#[test]
fn each_edge_that_is_there_before_is_told() {
    let found = mistakes(&format!("{TWO}edge third: b -> a\nedge fourth: b -> a\nedge fifth: b -> a\n"));
    assert_eq!(found[0], SAME);
    assert!(found[1].starts_with("19: edge 'fourth' is the same as edge 'third' on line 18;"));
    assert!(found[2].starts_with("20: edge 'fifth' is the same as edge 'third' on line 18;"));
    assert_eq!(found.len(), 3);
}

#[test]
fn an_edge_with_a_mistake_is_not_compared() {
    assert_eq!(mistakes(&altered("cost 5", "cost 0")).len(), 1);
    assert_eq!(mistakes(&altered("edge second: a -> b", "edge second: a -> c")).len(), 1);
}

/// One location and a given number of edges, each with a cost of its own and no other field: six bytes each, from byte 6 on.
fn edges(count: usize) -> Vec<u8> {
    let mut sheet = Sheet { clocks: vec!["x".to_string()], ..Sheet::default() };
    sheet.locations.push(Location { upper: [Some(5), None, None, None], ..Location::default() });
    for i in 0..count {
        sheet.edges.push(Edge { name: format!("e{i}"), cost: 1 + i as i16, ..Edge::default() });
    }
    encode(&sheet)
}

#[test]
fn bytes_with_two_equal_records_are_refused_at_each_distance() {
    for distance in 1..32 {
        let mut bytes = edges(32);
        assert!(decode(&bytes).is_ok());
        let first = 31 - distance;
        bytes.copy_within(6 + 6 * first..12 + 6 * first, 6 + 6 * 31);
        let refusal = decode(&bytes).expect_err("two equal records");
        assert_eq!((refusal.question, refusal.at), (17, 192), "{distance}");
        assert_eq!(refusal.what, format!("edge 31 is equal to edge {first} in every byte"));
    }
}

#[test]
fn question_17_is_asked_after_10_and_before_11() {
    let mut bytes = edges(2);
    bytes.copy_within(6..12, 12);
    bytes[5] = 0;
    assert_eq!(decode(&bytes).expect_err("two equal records").question, 17);
    bytes.push(0);
    assert_eq!(decode(&bytes).expect_err("a byte more").question, 10);
    bytes.truncate(18);
    bytes[16] = 2;
    assert_eq!(decode(&bytes).expect_err("the start asks for x < 0").question, 11);
}
