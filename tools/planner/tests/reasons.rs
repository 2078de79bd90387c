//! Why plans are refused: what the search finds, and what is said of it.

use tool::reasons::{searched, words, Why};
use tool::sheet::{decode::decode, encode::encode, Sheet};
use tool::stop::Stop;
use tool::text::parse;

fn sheet_of(text: &str) -> Sheet {
    parse(text).expect("a description")
}

fn named(name: &str) -> Sheet {
    let path = format!("{}/../../sheets/{name}.txt", env!("CARGO_MANIFEST_DIR"));
    sheet_of(&std::fs::read_to_string(path).expect("a text"))
}

/// The refusal of the sheet's plan, and why.
fn refused(sheet: &Sheet) -> (u8, Why) {
    let bytes = encode(sheet);
    let number = planner::Planner::new().plan(&bytes).expect_err("a refusal").number();
    (number, searched(sheet, &bytes, number).expect("a reason"))
}

fn said(sheet: &Sheet, number: u8) -> Vec<String> {
    let (found, why) = refused(sheet);
    assert_eq!(found, number);
    words(sheet, &why)
}

#[test]
fn bytes_that_are_no_sheet_are_told_by_record_and_field() {
    let mut bytes = encode(&named("bench"));
    bytes[12] = 0;
    let why = Why::Sheet(decode(&bytes).expect_err("a cost of 0"));
    assert_eq!(words(&Sheet::default(), &why), ["question 8, byte 12: edge 0 has cost 0; expected -10000 to 10000 and not 0"]);
}

#[test]
fn crowded_names_each_location_with_its_count() {
    let lines = [
        "more than 2,048 nodes are reached; of the first 2,048, by the tool's own search (not proved):",
        "location 'anywhere' has 2,048",
        "fewer clocks and smaller bounds make fewer nodes, and so may a clock that is reset where it measures nothing",
    ];
    assert_eq!(said(&named("crowded"), 12), lines);
}

/// The crowded sheet behind a small location, and a location that is not reached.
const BEHIND: &str = "clocks x y z
location small
  x <= 1
  y <= 1
  z <= 1
location nowhere
  x <= 1
  y <= 1
  z <= 1
location large
  x <= 12
  y <= 12
  z <= 12
edge go: small -> large
edge reset-x: large -> large
  reset x
edge reset-y: large -> large
  reset y
  reward 1
";

#[test]
fn the_largest_count_comes_first() {
    let sheet = sheet_of(BEHIND);
    let (12, Why::Crowded(counts)) = refused(&sheet) else { panic!("refused 12") };
    assert_eq!(counts.iter().sum::<usize>(), 2048);
    assert!(counts[2] > counts[0] && counts[0] > 0 && counts[1] == 0, "{counts:?}");
    let lines = said(&sheet, 12);
    assert!(lines[1].starts_with("location 'large' has 2,0"), "{lines:?}");
    assert_eq!((&lines[2], &lines[3]), (&format!("location 'small' has {}", counts[0]), &"location 'nowhere' has 0".to_string()));
}

const HEAD: &str = "no cycle that earns is reached; by the tool's own search (not proved):";

#[test]
fn sheets_without_a_cycle_that_earns() {
    let here = "locations that are reached: 'work'";
    let none = "there is no cycle at all";
    let nothing = "nothing with a reward is reached";
    assert_eq!(said(&named("bench-no-edge"), 13), [HEAD, here, none, nothing]);
    let met = |guard: &str| format!("edge 'finish' is never taken: its guard x {guard} is met at no node that is reached in 'work'");
    assert_eq!(said(&named("bench-short"), 13), [HEAD, here, &met(">= 1"), none, nothing]);
    assert_eq!(said(&named("bench-apart"), 13), [HEAD, here, &met("> 1"), none, nothing]);
    let some = "there are cycles, in 'work', and none of them earns";
    assert_eq!(said(&named("bench-no-reward"), 13), [HEAD, here, some, nothing]);
    let all = "locations that are reached: 'charging', 'ready', 'spent'";
    let fire = "edge 'fire' has a reward and is taken, but no cycle takes it";
    assert_eq!(said(&named("one-way"), 13), [HEAD, all, none, fire]);
}

const NEVER: &str = "clocks x y
location first
  reward 3
  x <= 2
  y < 3
location narrow
  x <= 2
  y < 1
location far
  x <= 2
  y < 3
edge again: first -> first
  when x <= 0
edge empty: first -> first
  when x >= 2, x < 2
edge late: first -> narrow
  when y >= 2
edge back: far -> first
  reward 1
";

#[test]
fn each_way_to_be_never_taken_is_told() {
    let lines = [
        HEAD,
        "locations that are reached: 'first'",
        "locations that are never reached: 'narrow', 'far'",
        "edge 'empty' is never taken: its guard x >= 2, x < 2 is met at no node that is reached in 'first'",
        "edge 'late' is never taken: wherever its guard is met in 'first', the bounds of its target 'narrow' do not admit the clocks after it",
        "edge 'back' is never taken: its source 'far' is not reached",
        "there are cycles, in 'first', and none of them earns",
        "location 'first' has a reward and is reached, but no cycle has a unit of delay there",
    ];
    assert_eq!(said(&sheet_of(NEVER), 13), lines);
    let (13, Why::NoneEarns { reached, never, passed }) = refused(&sheet_of(NEVER)) else { panic!("refused 13") };
    let never: Vec<usize> = never.into_iter().map(|(edge, _)| edge).collect();
    assert_eq!((reached, never, passed), (vec![0], vec![1, 2, 3], vec![0]));
}

/// What the loop costs, if the codes are a walk from the start and a cycle without reward at its end that meets no node twice.
fn stepped(bytes: &[u8], stem: &[u16], cycle: &[u16]) -> i64 {
    let mut nodes = vec![0];
    let mut cost = 0;
    for (i, code) in stem.iter().chain(cycle).enumerate() {
        let step = planner::step(bytes, nodes[i], *code).expect("an allowed step");
        nodes.push(step.node);
        cost += if i < stem.len() { 0 } else { step.cost };
        assert!(i < stem.len() || step.reward == 0);
    }
    let last = nodes.pop();
    assert!(!cycle.is_empty() && last == nodes.get(stem.len()).copied(), "it closes");
    let count = nodes.len();
    nodes.sort();
    nodes.dedup();
    assert_eq!(nodes.len(), count, "it meets no node twice");
    cost
}

#[test]
fn a_loop_that_makes_money_is_found() {
    let sheet = named("feed-in");
    let (14, Why::Gain { stem, cycle }) = refused(&sheet) else { panic!("refused 14") };
    assert_eq!(stepped(&encode(&sheet), &stem, &cycle), -3);
    let lines = [
        "a loop that earns nothing makes money; found by the tool's own search (not proved)",
        "one round costs -3, earns 0 and takes 3 units of time",
        "with each round before it a cycle that earns may get cheaper, so that no ratio need be the least",
    ];
    assert_eq!(said(&sheet, 14), lines);
}

/// The loop lies behind an edge with a reward, and in another location.
#[test]
fn a_loop_behind_a_reward_is_found() {
    let text = "clocks x\nlocation a\n x <= 1\nlocation b\n cost -4\n x <= 1\nedge earn: a -> b\n when x >= 1\n reset x\n reward 1\n\
        edge turn: b -> b\n when x >= 1\n reset x\n cost 3\nedge home: b -> a\n reset x\n cost 9\n";
    let sheet = sheet_of(text);
    let (14, Why::Gain { stem, cycle }) = refused(&sheet) else { panic!("refused 14") };
    assert!(stem.contains(&0), "{stem:?}");
    assert_eq!(stepped(&encode(&sheet), &stem, &cycle), -1);
    assert!(said(&sheet, 14).contains(&"one round costs -1, earns 0 and takes 1 unit of time".to_string()));
}

#[test]
fn a_refusal_that_the_search_does_not_find_is_a_difference() {
    let told = |name: &str, refusal: u8| {
        let sheet = named(name);
        match searched(&sheet, &encode(&sheet), refusal) {
            Err(Stop::Difference(text)) => text,
            other => panic!("{name}, {refusal}: {other:?}"),
        }
    };
    assert_eq!(told("bench", 12), "the plan is refused with 12, and the tool's own search finds 7 nodes and no more");
    assert_eq!(told("bench", 13), "the plan is refused with 13, and the tool's own search finds a cycle that earns");
    assert!(told("bench", 14).ends_with("finds no loop without reward that costs less than 0"));
    assert!(told("bench-no-reward", 14).ends_with("finds no cycle that earns"));
    assert!(told("crowded", 13).ends_with("finds more than 2,048 nodes"));
    assert!(told("crowded", 14).ends_with("finds more than 2,048 nodes"));
    assert!(told("bench", 18).ends_with("explains 12, 13 and 14 alone"));
}
