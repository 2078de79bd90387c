//! Certificates: those of plans verify and are read back, and each kind of fault is refused for its reason.

use tool::certificate::verify::{verify, Broken, RULES};
use tool::certificate::{read::read, written, Certificate};
use tool::sheet::encode::encode;
use tool::text::parse;

/// Two edges that earn, one that earns nothing, and a location that is not reached.
const SHEET: &str = "clocks x
location work
  cost 1
  x <= 2
location island
  x <= 0
edge finish: work -> work
  when x >= 1
  reset x
  cost 5
  reward 2
edge rest: work -> work
  when x >= 1
  reset x
edge dear: work -> work
  when x >= 1
  reset x
  cost 9
  reward 2
";

fn bytes_of(text: &str) -> Vec<u8> {
    encode(&parse(text).expect("a description"))
}

fn certificate_of(sheet: &[u8]) -> Option<Certificate> {
    planner::Planner::new().plan(sheet).ok().map(|plan| Certificate::of(sheet, &plan))
}

fn small() -> Certificate {
    certificate_of(&bytes_of(SHEET)).expect("a plan")
}

fn texts() -> Vec<String> {
    let folder = concat!(env!("CARGO_MANIFEST_DIR"), "/../../sheets");
    let files = std::fs::read_dir(folder).expect("the folder of sheets");
    let paths = files.map(|file| file.expect("a file").path()).filter(|path| path.extension().is_some_and(|end| end == "txt"));
    paths.map(|path| std::fs::read_to_string(path).expect("a text")).collect()
}

#[test]
fn certificates_of_plans_verify_and_come_back() {
    let certificates: Vec<_> = texts().iter().filter_map(|text| certificate_of(&bytes_of(text))).collect();
    assert!(certificates.len() >= 14, "{} accepted sheets", certificates.len());
    for certificate in certificates {
        assert_eq!(verify(&certificate.sheet, &certificate), Ok(()));
        let text = written(&certificate);
        assert_eq!(read(&text).as_ref(), Ok(&certificate));
        assert!(text.lines().all(|line| line.len() <= 120), "a long line");
    }
}

type Plant = fn(&mut Certificate);

/// A fault planted in a certificate that was in order, the rule that it breaks and a part of what is said.
const PLANTS: [(Plant, &str, &str); 35] = [
    (|c| c.sheet[7] = 4, "same-sheet", "byte 7 is 4 in the certificate's sheet, and 5 in this one"),
    (|c| c.sheet.push(0), "same-sheet", "bytes, and this one"),
    (|c| c.nodes = (0..2049).collect(), "node-count", "2049 nodes are listed, and 2048 are the most"),
    (|c| c.nodes.swap(1, 2), "nodes-rise", "node 4 (location 0, clocks at 1) stands behind node 5 (location 0, clocks at 0)"),
    (|c| c.nodes[2] = c.nodes[1], "nodes-rise", "node 4 (location 0, clocks at 1) stands behind node 4"),
    (|c| c.nodes.push(u64::MAX), "nodes-of-sheet", "18446744073709551615 is not the number of a node"),
    (|c| c.nodes[1] = 1, "nodes-of-sheet", "1 is not the number of a node"),
    (|c| c.nodes.retain(|node| *node != 0), "start-listed", "node 0, is not listed"),
    (|c| c.nodes.clear(), "start-listed", "node 0, is not listed"),
    (|c| c.nodes.truncate(6), "successors-listed", "code 33 leads from node 20 (location 0, clocks at 2) to node 32"),
    (|c| c.cycle.clear(), "lasso-length", "the cycle has no step"),
    (|c| c.stem = vec![33; 2048], "lasso-length", "have 2052 steps, and 2048 are the most"),
    (|c| c.p = 20_480_001, "ratio-range", "p is 20480001"),
    (|c| c.p = 20_480_000, "cycle-has-ratio", "which is not the ratio 20480000/1"),
    (|c| c.p = -20_480_001, "ratio-range", "p is -20480001, and has to be -20480000 to 20480000"),
    (|c| c.p = -20_480_000, "cycle-has-ratio", "which is not the ratio -20480000/1"),
    (|c| c.p = i64::MIN, "ratio-range", "p is -9223372036854775808"),
    (|c| c.q = 0, "ratio-range", "q is 0"),
    (|c| (c.p, c.q) = (-3, -1), "ratio-range", "q is -1"),
    (|c| c.q = 20_480_000, "cycle-has-ratio", "which is not the ratio 3/20480000"),
    (|c| c.q = 20_480_001, "ratio-range", "q is 20480001"),
    (|c| (c.p, c.q) = (6, 2), "lowest-terms", "6/2 is not in lowest terms: 2 divides both"),
    (|c| (c.p, c.q) = (0, 2), "lowest-terms", "2 divides both"),
    (|c| c.stem.insert(0, 0), "stem-allowed", "step 1 of the stem: code 0 is not allowed at node 0 (location 0, clocks at 0)"),
    (|c| c.stem.push(65535), "stem-allowed", "code 65535 is not allowed"),
    (|c| c.cycle[1] = 34, "cycle-allowed", "step 2 of the cycle: code 34 is not allowed at node"),
    (|c| c.cycle.truncate(1), "cycle-closes", "the cycle begins at node"),
    (|c| c.cycle.iter_mut().filter(|code| **code == 0).for_each(|code| *code = 1), "cycle-earns", "the cycle's reward is 0"),
    (|c| c.cycle.iter_mut().filter(|code| **code == 0).for_each(|code| *code = 2), "cycle-has-ratio", "costs 10 and earns 2"),
    (|c| c.potentials.truncate(6), "potential-count", "6 potentials for 7 nodes"),
    (|c| c.potentials.push(0), "potential-count", "8 potentials for 7 nodes"),
    (|c| c.potentials[3] = 1_000_000_000_000_000, "potential-range", "the potential 1000000000000000 of node"),
    (|c| c.potentials[3] = -1_000_000_000_000_000, "potential-range", "the potential -1000000000000000 of node"),
    (|c| c.potentials[3] = i64::MIN, "potential-range", "is not within 10^15 of 0"),
    (|c| (c.p, c.q) = (2, 1), "cycle-has-ratio", "costs 6 and earns 2, which is not the ratio 2/1"),
];

fn told(sheet: &[u8], certificate: &Certificate) -> Broken {
    verify(sheet, certificate).expect_err("a fault")
}

#[test]
fn each_planted_fault_is_refused_for_its_reason() {
    for (i, (plant, rule, what)) in PLANTS.into_iter().enumerate() {
        let mut certificate = small();
        let sheet = certificate.sheet.clone();
        plant(&mut certificate);
        let broken = told(&sheet, &certificate);
        assert_eq!(broken.rule, rule, "fault {i}: {}", broken.what);
        assert!(broken.what.contains(what), "fault {i}: {}", broken.what);
    }
    let elsewhere = ["checked-sheet", "potentials-hold"];
    let untried: Vec<_> = RULES.into_iter().filter(|name| PLANTS.iter().all(|(_, rule, _)| rule != name)).collect();
    assert_eq!(untried, elsewhere);
}

#[test]
fn a_sheet_that_the_check_refuses_is_told() {
    let mut certificate = small();
    certificate.sheet[0] = 3;
    let broken = told(&certificate.sheet, &certificate);
    let refusal = planner::check(&certificate.sheet).expect_err("no such edition");
    assert_eq!((refusal.number(), broken.rule, broken.what), (3, "checked-sheet", format!("the sheet is {refusal}")));
    certificate.sheet.clear();
    assert_eq!(told(&[], &certificate).rule, "checked-sheet");
}

#[test]
fn a_potential_raised_by_one_is_refused() {
    let certificate = small();
    for place in 1..certificate.nodes.len() {
        let mut raised = certificate.clone();
        raised.potentials[place] += 1;
        let broken = told(&certificate.sheet, &raised);
        assert_eq!(broken.rule, "potentials-hold", "place {place}: {}", broken.what);
    }
    let mut lowered = certificate.clone();
    lowered.potentials[0] -= 1;
    let what = "code 33 leads from node 0 (location 0, clocks at 0) to node 5 (location 0, clocks at 0): 0 is above -1 plus the weight 0";
    assert_eq!(told(&certificate.sheet, &lowered), Broken { rule: "potentials-hold", what: what.to_string() });
}

/// The lasso is in order and has the ratio that is given, which is not the least.
#[test]
fn a_ratio_that_is_not_the_least_has_no_potentials() {
    let mut certificate = small();
    assert_eq!((certificate.p, certificate.q), (3, 1));
    certificate.p = 5;
    certificate.cycle.iter_mut().filter(|code| **code == 0).for_each(|code| *code = 2);
    assert_eq!(told(&certificate.sheet, &certificate).rule, "potentials-hold");
    certificate.potentials.fill(0);
    assert_eq!(told(&certificate.sheet, &certificate).rule, "potentials-hold");
}

#[test]
fn rules_are_asked_in_their_order() {
    let mut certificate = small();
    let sheet = certificate.sheet.clone();
    certificate.potentials[1] += 1;
    assert_eq!(told(&sheet, &certificate).rule, "potentials-hold");
    certificate.q = 0;
    assert_eq!(told(&sheet, &certificate).rule, "ratio-range");
    certificate.nodes.pop();
    assert_eq!(told(&sheet, &certificate).rule, "successors-listed");
    certificate.sheet.push(0);
    assert_eq!(told(&sheet, &certificate).rule, "same-sheet");
}

#[test]
fn what_need_not_be_least_or_simple_is_accepted() {
    let certificate = small();
    let (largest, least) = (certificate.potentials.iter().max().expect("one"), certificate.potentials.iter().min().expect("one"));
    let all_by = |by: i64| Certificate { potentials: certificate.potentials.iter().map(|u| u + by).collect(), ..certificate.clone() };
    let rounds = |count: usize| Certificate { cycle: certificate.cycle.repeat(count), ..certificate.clone() };
    let later = Certificate { stem: [&certificate.stem[..], &certificate.cycle].concat(), ..certificate.clone() };
    let mut more = certificate.clone();
    more.nodes.push(1 << 20);
    more.potentials.push(-5);
    let furthest = 999_999_999_999_999;
    // 512 rounds of 4 steps are the longest lasso
    let others = [all_by(1), all_by(furthest - largest), all_by(-furthest - least), rounds(2), rounds(512), later, more];
    for other in others {
        assert_ne!(other, certificate);
        assert_eq!(verify(&certificate.sheet, &other), Ok(()));
        assert_eq!(read(&written(&other)), Ok(other));
    }
}

#[test]
fn the_documented_rules_are_those_asked() {
    let table = include_str!("../README.md").split_once("| rules | |").expect("the table of rules").1;
    let rows = table.lines().skip(2).take_while(|line| line.starts_with('|'));
    let named: Vec<_> = rows.filter_map(|row| row.split('|').nth(1)).flat_map(|cell| cell.split('`').skip(1).step_by(2)).collect();
    assert_eq!(named, RULES);
}
