//! The editions: how many clocks and bytes a sheet may have, where the bits of maps and the parts of node numbers stand, and which one a
//! description means.

mod common;

use common::Dice;
use tool::nodes::{node, Node};
use tool::sheet::edition::{Edition, EDITIONS};
use tool::sheet::{decode::decode, describe::describe, encode::encode, Edge, Location, Sheet};
use tool::text::parse;

fn clock_names(edition: Edition) -> Vec<String> {
    ["x", "y", "z", "w"][..edition.clocks()].iter().map(|name| name.to_string()).collect()
}

/// Every field of twelve locations and of 32 edges.
fn longest(edition: Edition) -> Sheet {
    let every = |byte: u8| std::array::from_fn(|j| (j < edition.clocks()).then_some(byte));
    let location = |i| Location { name: format!("l{i}"), cost: -10000, reward: 10000, upper: every(25) };
    let edge = |i: usize| {
        let (name, reset) = (format!("e{i}"), (1 << edition.clocks()) - 1);
        Edge { name, source: i / 12, target: i % 12, cost: 10000, reward: 1, reset, lower: every(1), upper: every(25) }
    };
    Sheet { edition, clocks: clock_names(edition), locations: (0..12).map(location).collect(), edges: (0..32).map(edge).collect() }
}

fn question(bytes: &[u8]) -> Option<u8> {
    decode(bytes).err().map(|refusal| refusal.question)
}

#[test]
fn the_longest_sheets_come_back() {
    for (edition, length, more) in [(Edition::First, 580, Some(10)), (Edition::Second, 656, Some(2))] {
        let sheet = longest(edition);
        let bytes = encode(&sheet);
        assert_eq!(bytes.len(), length);
        assert_eq!(decode(&bytes).as_ref(), Ok(&sheet));
        assert_eq!(parse(&describe(&sheet)), Ok(sheet));
        let with = |count: usize| question(&[&bytes[..], &vec![0; count]].concat());
        assert_eq!([with(0), with(1), with(657 - length)], [None, more, Some(2)]);
    }
    assert_eq!(question(&[&encode(&longest(Edition::First))[..], &[0; 76]].concat()), Some(10));
}

/// A location with a bound of each clock, and an edge with the guard of one, by the bit that means it.
#[test]
fn each_guard_has_its_bit() {
    for (edition, lower, upper) in [(Edition::First, 3, 6), (Edition::Second, 3, 7)] {
        for clocks in 1..=edition.clocks() {
            let head = [edition.number(), 1, clocks as u8, 1, ((1 << clocks) - 1) << 2];
            let with = |bit: usize| {
                let map = (1u16 << bit).to_le_bytes();
                [&head[..], &vec![25; clocks], &[map[0], map[1], 0, 0, 9]].concat()
            };
            for bit in 3..16 {
                let stands = |first: usize| (first..first + clocks).contains(&bit).then(|| bit - first);
                match (stands(lower), stands(upper), decode(&with(bit))) {
                    (Some(j), None, Ok(sheet)) => assert_eq!((sheet.edges[0].lower[j], sheet.edges[0].upper), (Some(9), [None; 4])),
                    (None, Some(j), Ok(sheet)) => assert_eq!((sheet.edges[0].upper[j], sheet.edges[0].lower), (Some(9), [None; 4])),
                    (None, None, Err(refusal)) => assert_eq!(refusal.what, format!("edge 0 has bit {bit} of its map set")),
                    (.., read) => panic!("{edition:?}, {clocks} clocks, bit {bit}: {read:?}"),
                }
            }
        }
    }
}

#[test]
fn each_part_of_a_node_has_its_place() {
    let first = 1 | 2 << 2 | 12 << 4 | 3 << 8 | 7 << 10 | 1 << 14 | 5 << 16 | 11 << 20;
    let read = Node { location: 11, whole: [12, 7, 5, 0], class: [2, 3, 1, 0], corner: 1 };
    assert_eq!(node(Edition::First, first), read);
    let second = 4 | 2 << 3 | 12 << 6 | 4 << 10 | 7 << 13 | 1 << 17 | 5 << 20 | 3 << 24 | 9 << 27 | 11 << 31;
    let read = Node { location: 11, whole: [12, 7, 5, 9], class: [2, 4, 1, 3], corner: 4 };
    assert_eq!(node(Edition::Second, second), read);
}

type Answer = Result<(i64, i64, Vec<(Node, i64)>), u8>;

/// The ratio, and each node with its potential, by location, region and corner; or the refusal.
fn planned(sheet: &Sheet) -> Answer {
    let mut planner = planner::Planner::new();
    let plan = planner.plan(&encode(sheet)).map_err(|refusal| refusal.number())?;
    let nodes = plan.nodes.iter().map(|number| node(sheet.edition, *number));
    let mut listed: Vec<_> = nodes.zip(plan.potentials.iter().copied()).collect();
    listed.sort_by_key(|(node, _)| (node.location, node.whole, node.class, node.corner));
    Ok((plan.p, plan.q, listed))
}

#[test]
fn a_sheet_that_fits_both_editions_has_as_many_bytes_and_the_same_plan() {
    let (mut dice, mut accepted, mut refused) = (Dice(8), 0, 0);
    for turn in 0..300 {
        let sheet = dice.small_sheet();
        if sheet.clocks.len() > Edition::First.clocks() {
            continue;
        }
        let [first, second] = EDITIONS.map(|edition| Sheet { edition, ..sheet.clone() });
        assert_eq!(encode(&first).len(), encode(&second).len(), "turn {turn}");
        let answer = planned(&first);
        assert_eq!(answer, planned(&second), "turn {turn}");
        *(if answer.is_ok() { &mut accepted } else { &mut refused }) += 1;
    }
    assert!(accepted > 50 && refused > 50, "{accepted} accepted, {refused} refused");
}

/// A description with a given number of clocks, and its edition where one is asked for.
fn described(asked: Option<u8>, clocks: usize) -> String {
    let names = &["a", "b", "c", "d", "e"][..clocks];
    let bounds: String = names.iter().map(|name| format!("  {name} <= 1\n")).collect();
    let edition = asked.map_or(String::new(), |number| format!("edition {number}\n"));
    format!("{edition}clocks {}\n\nlocation l\n{bounds}", names.join(" "))
}

#[test]
fn a_description_has_the_edition_that_it_asks_for_or_needs() {
    for clocks in 1..=4 {
        let least = if clocks == 4 { Edition::Second } else { Edition::First };
        for (asked, edition) in [(None, least), (Some(1), Edition::First), (Some(2), Edition::Second)] {
            let read = parse(&described(asked, clocks));
            if clocks > edition.clocks() {
                let mistakes = read.expect_err("too many clocks");
                let told: Vec<_> = mistakes.iter().map(|mistake| mistake.to_string()).collect();
                assert_eq!(told, ["2: 4 clocks; expected 1 to 3 clocks in edition 1; did you mean 'edition 2'?"]);
                continue;
            }
            let sheet = read.expect("a sheet");
            assert_eq!((sheet.edition, encode(&sheet)[0]), (edition, edition.number()));
            // it stands there only where it does not follow
            assert_eq!(describe(&sheet), described((edition != least).then(|| edition.number()), clocks));
        }
    }
}

#[test]
fn the_word_of_the_edition_can_be_a_name() {
    let text =
        "clocks edition\n\nlocation edition\n  edition <= 1\n\nedge edition: edition -> edition\n  when edition = 1\n  reset edition\n";
    for head in ["", "edition 2\n"] {
        let sheet = parse(&format!("{head}{text}")).expect("a sheet");
        assert_eq!(describe(&sheet), format!("{head}{text}"));
    }
}

#[test]
fn every_edition_is_found_by_its_number() {
    let found: Vec<_> = (0..=255).filter_map(Edition::of).collect();
    assert_eq!(found, EDITIONS);
}
