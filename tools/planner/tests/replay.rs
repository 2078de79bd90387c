//! Runs on Bench: what is allowed, what a loop costs, and each mistake with its line.

use tool::run::read::{priced, Wrong};
use tool::text::parse;

const BENCH: &str = "clocks x
location work
  cost 1
  x <= 2
location away
  x < 1
edge finish: work -> work
  when x >= 1
  reset x
  cost 5
  reward 2
edge strict: work -> work
  when x > 1, x < 2
  reset x
edge leave: work -> away
edge back: away -> work
";

fn answer(run: &str) -> String {
    match priced(&parse(BENCH).unwrap(), run) {
        Ok(end) => end.to_string(),
        Err(Wrong::Text(mistake) | Wrong::Run(mistake)) => mistake.to_string(),
    }
}

#[test]
fn loops_are_priced() {
    assert_eq!(answer("loop\ndelay 1\nedge finish\n"), "cost 6, reward 2, ratio 3");
    assert_eq!(answer("delay 2\nedge finish\nloop\ndelay 2\nedge finish"), "cost 7, reward 2, ratio 7/2");
    assert_eq!(answer("nths 10\nloop\ndelay 11\nedge finish\n"), "cost 61/10, reward 2, ratio 61/20");
    assert_eq!(answer("nths 2\nloop\ndelay 1\ndelay 2\nedge strict\n"), "cost 3/2, reward 0, ratio none");
    assert_eq!(answer("loop\nedge leave\nedge back\n"), "cost 0, reward 0, ratio none");
}

#[test]
fn what_is_not_allowed_is_told() {
    assert_eq!(answer("loop\ndelay 3\n"), "2: after the delay x = 3; expected x <= 2 in location 'work'");
    assert_eq!(answer("loop\nedge finish\n"), "2: at edge 'finish' x = 0; expected x >= 1");
    assert_eq!(answer("loop\ndelay 1\nedge strict\n"), "3: at edge 'strict' x = 1; expected x > 1");
    assert_eq!(answer("loop\ndelay 2\nedge strict\n"), "3: at edge 'strict' x = 2; expected x < 2");
    assert_eq!(answer("nths 2\nedge leave\nloop\ndelay 2\n"), "4: after the delay x = 1; expected x < 1 in location 'away'");
    assert_eq!(answer("loop\ndelay 1\nedge leave\n"), "3: after edge 'leave' x = 1; expected x < 1 in location 'away'");
    assert_eq!(answer("loop\nedge back\n"), "2: edge 'back' leaves 'away', and the run is in 'work'; expected an edge that leaves 'work'");
}

#[test]
fn malformed_runs_are_told() {
    assert_eq!(
        answer("loop\ndelay 1\n"),
        "2: the run does not come back to where its loop began; expected equal location and clock values at both ends"
    );
    assert_eq!(answer("delay 1\nedge finish\n"), "2: the run has no 'loop'; expected 'loop' on the line where the loop begins");
    assert_eq!(answer("loop\n"), "1: the loop is empty; expected delays and edges after 'loop'");
    assert_eq!(answer("loop\nloop\n"), "2: a second 'loop'; expected one, where the loop begins");
    assert_eq!(answer("delay 1\nnths 2\n"), "2: 'nths' comes late or twice; expected 'nths' once, before every delay, edge and loop");
    assert_eq!(answer("nths 0\n"), "1: 0 nths; expected 1 to 1000");
    assert_eq!(answer("nths 1001\n"), "1: 1001 nths; expected 1 to 1000");
    assert_eq!(answer("delay -1\n"), "1: a delay of -1; expected 0 to 1000000 nths");
    assert_eq!(answer("edge none\n"), "1: 'none' is no edge; expected the name of an edge of the sheet");
    assert_eq!(answer("edge fnish\n"), "1: 'fnish' is no edge; expected the name of an edge of the sheet; did you mean 'finish'?");
    assert_eq!(answer("dealy 1\n"), "1: 'dealy' is no word of a run; expected nths, delay, edge or loop; did you mean 'delay'?");
    assert_eq!(answer("wait 1\n"), "1: 'wait' is no word of a run; expected nths, delay, edge or loop");
    assert_eq!(answer("delay 1 2\n"), "1: found 2; expected nothing after the delay");
}
