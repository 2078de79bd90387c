//! How far a run that breaks off undercuts the ratio: what is shown, and seeded sheets beside every run in whole units and some in nths.

mod common;

use common::{closed, Dice};
use std::collections::{BTreeMap, VecDeque};
use tool::input::{held, Held};
use tool::plan::undercut::Undercut;
use tool::plan::{json::json, planned, planned_in_full, text::text, Buffers, Outcome, Planned};
use tool::run::{passed, Member};
use tool::sheet::{encode::encode, Sheet};
use tool::source::Source;

/// The ratio is 7/4: a round is paid 3 at `take`, waits 2 in b, which earns 2, and pays 10 at `give` for 2 more.
const CLOSED: &str = "clocks x
location a
  x <= 2
location b
  reward 1
  x <= 2
edge take: a -> b
  cost -3
edge give: b -> a
  when x >= 1
  reset x
  cost 10
  reward 2
";

fn sheet_of(text: &str) -> Held {
    held("sheet".to_string(), text.as_bytes().to_vec()).expect("a sheet")
}

fn in_full(held: &Held, finer: Option<i64>) -> Outcome {
    planned_in_full(&mut Buffers::default(), held, finer).expect("no difference")
}

fn shown(sheet: &str, finer: Option<i64>) -> String {
    let held = sheet_of(sheet);
    text(&held, &in_full(&held, finer))
}

/// The line of the figure, and the part with the run.
fn parts(shown: &str) -> (&str, &str) {
    let line = shown.lines().find(|line| line.starts_with("undercut ")).expect("the line");
    (line, shown.split_once("\n\nrun, broken off:\n").map_or("", |(_, part)| part))
}

const MOST: &str = "wherever a run breaks off, it costs at most so much less than the ratio times its reward (proved)";

const RUN: &str = "  at  wait  in  then  cost  reward
   0     0  a   take    -3       0
   0     2  b   -        0       2
  takes 2, costs -3, earns 2: 13/2 less than the ratio times its reward (checked by replay)
";

#[test]
fn the_run_is_shown_in_whole_units() {
    let line = format!("undercut 13/2, exactly 6.5: {MOST}; the run broken off below costs exactly so much less (checked by replay)");
    assert_eq!(parts(&shown(CLOSED, None)), (line.as_str(), RUN));
    assert_eq!(parts(&shown(CLOSED, Some(5))), (line.as_str(), RUN));
    let strict = CLOSED.replace("x >= 1", "x > 1");
    assert_eq!(parts(&shown(&strict, None)), (line.as_str(), RUN));
}

#[test]
fn where_no_run_is_known_none_is_shown() {
    let unknown =
        "; no run in whole units costs exactly so much less (by the tool's own search), and whether one in nths does is not known";
    let strict = CLOSED.replace("reward 1\n  x <= 2", "reward 1\n  x < 2");
    assert_eq!(parts(&shown(&strict, None)), (format!("undercut 13/2, exactly 6.5: {MOST}{unknown}").as_str(), ""));
    let open = CLOSED.replace("  cost -3", "  when x > 1, x < 2\n  cost -4").replace("  reward 1\n", "");
    assert_eq!(parts(&shown(&open, None)), (format!("undercut 4: {MOST}{unknown}").as_str(), ""));
    let least = "undercut 0: wherever a run breaks off, it costs no less than the ratio times its reward (proved)";
    assert_eq!(parts(&shown(&CLOSED.replace("  cost -3\n", "").replace("  reward 1\n", ""), None)), (least, ""));
}

#[test]
fn json_has_the_run_where_it_was_searched_for() {
    let field = |json: String| json.split_once(",\"undercut\":").expect("the field").1.trim_end_matches('}').to_string();
    let strict = CLOSED.replace("reward 1\n  x <= 2", "reward 1\n  x < 2");
    let (known, unknown) = (sheet_of(CLOSED), sheet_of(&strict));
    let rows = "{\"at\":0,\"wait\":0,\"location\":\"a\",\"edge\":\"take\",\"cost\":-3,\"reward\":0},\
        {\"at\":0,\"wait\":2,\"location\":\"b\",\"edge\":null,\"cost\":0,\"reward\":2}";
    let figure = "{\"p\":13,\"q\":2,\"about\":6.5000";
    let run = format!("{figure},\"run\":{{\"time\":2,\"cost\":-3,\"reward\":2,\"rows\":[{rows}]");
    assert_eq!(field(json(&known, &in_full(&known, None))), run);
    assert_eq!(field(json(&unknown, &in_full(&unknown, None))), format!("{figure},\"run\":null"));
    let alone = |held: &Held| planned(&mut Buffers::default(), held, None).expect("no difference");
    assert_eq!(field(json(&known, &alone(&known))), figure);
}

type State = (usize, Vec<i64>);

fn within(sheet: &Sheet, (location, clocks): &State) -> bool {
    let upper = sheet.locations[*location].upper;
    clocks.iter().zip(upper).all(|(clock, byte)| byte.is_none_or(|byte| 2 * clock < i64::from(byte)))
}

/// The states that a unit of delay and the edges lead to, with the weight of each, by the bytes of bounds and guards alone.
fn next(sheet: &Sheet, (location, clocks): &State, weight: impl Fn(i64, i64) -> i128) -> Vec<(State, i128)> {
    let here = &sheet.locations[*location];
    let later = (*location, clocks.iter().map(|clock| clock + 1).collect());
    let mut found = vec![(later, weight(here.cost.into(), here.reward.into()))];
    for edge in sheet.edges.iter().filter(|edge| edge.source == *location) {
        let above = clocks.iter().zip(edge.lower).all(|(clock, byte)| byte.is_none_or(|byte| 2 * clock >= i64::from(byte)));
        let below = clocks.iter().zip(edge.upper).all(|(clock, byte)| byte.is_none_or(|byte| 2 * clock < i64::from(byte)));
        if above && below {
            let reset = clocks.iter().enumerate().map(|(j, clock)| if edge.reset >> j & 1 == 1 { 0 } else { *clock }).collect();
            found.push(((edge.target, reset), weight(edge.cost.into(), edge.reward.into())));
        }
    }
    found.retain(|(state, _)| within(sheet, state));
    found
}

/// The least weight of all runs in whole units.
fn least_of_runs(sheet: &Sheet, weight: impl Fn(i64, i64) -> i128) -> i128 {
    let start = (0, vec![0; sheet.clocks.len()]);
    let (mut least, mut ahead) = (BTreeMap::from([(start.clone(), 0)]), VecDeque::from([start]));
    while let Some(state) = ahead.pop_front() {
        for (to, by) in next(sheet, &state, &weight) {
            let sum = least[&state] + by;
            if least.get(&to).is_none_or(|known| sum < *known) {
                least.insert(to.clone(), sum);
                ahead.push_back(to);
            }
        }
    }
    least.into_values().min().expect("the start")
}

/// A run in nths of up to twelve members, each of them allowed.
fn some_run(dice: &mut Dice, sheet: &Sheet, n: i64) -> Vec<Member> {
    let mut members = Vec::new();
    for _ in 0..12 {
        members.push(match dice.below(2) {
            0 => Member::Delay(dice.below(2 * n as u64) as i64),
            _ => Member::Edge(dice.below(sheet.edges.len() as u64) as usize),
        });
        if passed(sheet, n, &members).is_err() {
            members.pop();
        }
    }
    members
}

/// Closed with an undercut of 0, closed above 0, strict with 0, strict with a run, strict without one.
const KINDS: usize = 5;

/// The kind of a plan, its undercut compared: the weight of each prefix of its run, or that there is none in whole units.
fn compared(dice: &mut Dice, sheet: &Sheet, planned: &Planned, turn: usize) -> usize {
    let certificate = &planned.plan.certificate;
    let least = i128::from(certificate.smallest_potential());
    for n in [1, 2, 5] {
        for sum in passed(sheet, n, &some_run(dice, sheet, n)).expect("a run") {
            assert!(certificate.weight(sum.cost, sum.reward) >= i128::from(n) * least, "turn {turn}");
        }
    }
    let by_runs = least_of_runs(sheet, |cost, reward| certificate.weight(cost, reward));
    match &planned.undercut {
        Undercut::Attained(run) => {
            let (mut sum, mut at) = (0, 0);
            for row in &run.rows {
                assert!(row.at == at && (row.edge.is_some() || Some(row) == run.rows.last()), "turn {turn}");
                (sum, at) = (sum + certificate.weight(row.cost, row.reward), at + row.wait);
                assert!(sum >= least, "turn {turn}");
            }
            assert_eq!((sum, by_runs), (least, least), "turn {turn}");
            usize::from(!run.rows.is_empty()) + 2 * usize::from(!sheet.is_closed())
        }
        Undercut::Unattained => {
            assert!(by_runs > least && !sheet.is_closed(), "turn {turn}");
            KINDS - 1
        }
        Undercut::Unsought => panic!("turn {turn}"),
    }
}

#[test]
fn seeded_undercuts_are_those_of_runs() {
    let (mut dice, mut buffers, mut counts) = (Dice(6), Buffers::default(), [0; KINDS]);
    for turn in 0..3000 {
        let sheet = match turn % 3 {
            0 => dice.small_sheet(),
            1 => dice.ring_sheet(),
            _ => closed(dice.small_sheet()),
        };
        let held = Held::Sheet(Source { name: format!("turn {turn}"), bytes: encode(&sheet), sheet: sheet.clone() });
        let outcome = planned_in_full(&mut buffers, &held, None).unwrap_or_else(|stop| panic!("turn {turn}: {stop:?}"));
        if let Outcome::Planned(planned) = outcome {
            counts[compared(&mut dice, &sheet, &planned, turn)] += 1;
        }
    }
    assert!(counts.into_iter().all(|count| count > 20), "{counts:?}");
}
