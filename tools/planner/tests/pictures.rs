//! The chart of a schedule: well formed, whole, and with labels apart; and the text for Graphviz.

#[path = "pictures/graph.rs"]
mod graph;
#[path = "pictures/schedules.rs"]
mod schedules;
#[path = "pictures/well_formed.rs"]
mod well_formed;

use schedules::{all, schedule, BEACON, BEACON_RUN, BENCH, LOADER, PRODUCTION, PRODUCTION_RUN, ROUND};
use std::collections::BTreeSet;
use tool::picture::{self, Label};
use tool::schedule::{sum, Schedule, Sum};
use tool::sheet::Sheet;
use tool::text::parse;
use well_formed::{number, places, size, tags, value};

/// With signs that XML escapes, and one that it does not admit.
const TITLE: &str = "a <title> & \"more\" \u{1}";

/// With the sums of the rows for what the cycle takes, costs and earns.
fn chart(sheet: &Sheet, title: &str, schedule: &Schedule) -> String {
    picture::chart(sheet, title, schedule, sum(&schedule.cycle))
}

fn labels(sheet: &Sheet, title: &str, schedule: &Schedule) -> Vec<Label> {
    picture::labels(sheet, title, schedule, sum(&schedule.cycle))
}

#[test]
fn charts_are_well_formed_and_stay_inside() {
    for (sheet, schedule) in all() {
        let tags = tags(&chart(&sheet, TITLE, &schedule));
        let (width, height) = size(&tags);
        assert_eq!(value(&tags[0], "width").map(number), Some(width));
        for tag in &tags {
            assert!(["svg", "g", "title", "rect", "line", "polyline", "polygon", "circle", "text"].contains(&tag.0.as_str()), "{}", tag.0);
            let (across, down) = places(tag);
            assert!(across.iter().all(|x| (-0.01..=width + 0.01).contains(x)), "{tag:?}");
            assert!(down.iter().all(|y| (-0.01..=height + 0.01).contains(y)), "{tag:?}");
        }
    }
}

#[test]
fn charts_name_what_they_show() {
    for (sheet, schedule) in all() {
        let file = chart(&sheet, TITLE, &schedule);
        assert!(file.contains("<title>a &lt;title&gt; &amp; &quot;more&quot; ?</title>"));
        let taken: BTreeSet<_> = schedule.rows().map(|row| (row.edge, row.location)).collect();
        for (edge, location) in taken {
            assert!(file.contains(&format!("<title>{}: ", sheet.edges[edge].name)));
            assert!(file.contains(&format!("<title>{}</title>", sheet.locations[location].name)));
        }
        for clock in &sheet.clocks {
            assert!(file.contains(&format!("<title>{clock}</title>")));
        }
    }
}

/// Whether the boxes of two labels are apart, along some side of either.
fn apart(a: &Label, b: &Label) -> bool {
    let (one, other) = (a.corners(), b.corners());
    let sides = [(one[0], one[1]), (one[0], one[3]), (other[0], other[1]), (other[0], other[3])];
    sides.iter().any(|(from, to)| {
        let along = |point: &(f64, f64)| point.0 * (to.0 - from.0) + point.1 * (to.1 - from.1);
        let range = |corners: &[(f64, f64); 4]| {
            let found = corners.map(|corner| along(&corner));
            (found.into_iter().fold(f64::MAX, f64::min), found.into_iter().fold(f64::MIN, f64::max))
        };
        let ((low, high), (least, most)) = (range(&one), range(&other));
        high <= least || most <= low
    })
}

fn reach(label: &Label) -> (f64, f64) {
    let across = label.corners().map(|(x, _)| x);
    (across.into_iter().fold(f64::MAX, f64::min), across.into_iter().fold(f64::MIN, f64::max))
}

#[test]
fn labels_do_not_overlap_and_stay_inside() {
    for (sheet, schedule) in all() {
        let (width, height) = size(&tags(&chart(&sheet, TITLE, &schedule)));
        let mut found = labels(&sheet, TITLE, &schedule);
        found.sort_by(|a, b| reach(a).0.total_cmp(&reach(b).0));
        for (i, one) in found.iter().enumerate() {
            let inside = |(x, y): (f64, f64)| (0.0..=width).contains(&x) && (0.0..=height).contains(&y);
            assert!(one.corners().into_iter().all(inside), "{one:?}");
            let near = found[i + 1..].iter().take_while(|other| reach(other).0 < reach(one).1);
            near.for_each(|other| assert!(apart(one, other), "{one:?} and {other:?}"));
        }
    }
}

#[test]
fn overlaps_would_be_found() {
    let sheet = parse(BENCH).unwrap();
    let found = labels(&sheet, TITLE, &schedule(&sheet, "loop\ndelay 1\nedge finish\n"));
    let turned = found.iter().find(|label| label.turned).unwrap();
    let near = |x: f64, y: f64| Label { x: turned.x + x, y: turned.y + y, ..turned.clone() };
    assert!(!apart(turned, &near(3.0, 0.0)) && !apart(turned, &near(-20.0, -20.0)));
    assert!(apart(turned, &near(20.0, 0.0)) && apart(turned, &near(-60.0, -60.0)));
}

fn texts(sheet: &Sheet, run: &str) -> Vec<String> {
    labels(sheet, "t", &schedule(sheet, run)).into_iter().map(|label| label.text).collect()
}

#[test]
fn parts_and_prices_are_told() {
    let found = texts(&parse(PRODUCTION).unwrap(), PRODUCTION_RUN);
    let told = |words: &str| found.iter().filter(|text| *text == words).count();
    assert_eq!(told("cycle: 8 units, cost 62, reward 43, ratio 62/43 (1.4419)"), 1);
    assert_eq!([told("once"), told("repeats, every 8 units"), told("again")], [1, 1, 1]);
    // In the stem once, in each of two passes once.
    assert_eq!([told("one-falls"), told("two-falls"), told("attend-one-with-two-high")], [1, 2, 3]);
    let found = texts(&parse(BEACON).unwrap(), BEACON_RUN);
    assert!(found.contains(&"cycle: 16/5 units, cost 87/10, reward 4, ratio 87/40 (2.1750)".to_string()));
    assert!(found.contains(&"21/10".to_string()) && found.contains(&"strict bound: not reached".to_string()));
    assert!(!found.contains(&"once".to_string()));
}

#[test]
fn the_cycle_is_told_as_it_is_handed_over() {
    let sheet = parse(PRODUCTION).unwrap();
    let found = picture::labels(&sheet, "t", &schedule(&sheet, PRODUCTION_RUN), Sum { time: 7, cost: 61, reward: 42 });
    let told = |words: &str| found.iter().filter(|label| label.text == words).count();
    assert_eq!([told("cycle: 7 units, cost 61, reward 42, ratio 61/42 (1.4524)"), told("repeats, every 7 units")], [1, 1]);
}

#[test]
fn a_long_cycle_is_drawn_once_and_is_wide() {
    let sheet = parse(LOADER).unwrap();
    let found = schedule(&sheet, &format!("{ROUND}loop\n{}", ROUND.repeat(333)));
    let drawn = labels(&sheet, "t", &found);
    assert_eq!(drawn.iter().filter(|label| label.turned).count(), found.rows().count());
    assert!(drawn.iter().all(|label| !label.again && label.text != "again"));
    let (width, _) = size(&tags(&chart(&sheet, "t", &found)));
    assert!(width > 20.0 * found.rows().count() as f64);
}

#[test]
fn time_is_drawn_to_scale_and_clocks_drop_where_they_are_reset() {
    let sheet = parse(BENCH).unwrap();
    let tags = tags(&chart(&sheet, "t", &schedule(&sheet, "delay 2\nedge finish\nloop\ndelay 1\nedge finish\n")));
    let bars: Vec<f64> =
        tags.iter().filter(|tag| value(tag, "height") == Some("16")).map(|tag| number(value(tag, "width").unwrap())).collect();
    assert_eq!(bars.len(), 3);
    assert!((bars[0] - 2.0 * bars[1]).abs() < 0.1 && (bars[1] - bars[2]).abs() < 0.1);
    let saw: Vec<f64> = tags.iter().filter(|tag| tag.0 == "polyline").flat_map(|tag| places(tag).1).collect();
    // Up to 2, down to 0, up to 1 and down again; then the second pass, up to 1 and down again.
    let (low, high) = (saw[0], saw[1]);
    let middle = (low + high) / 2.0;
    assert_eq!(saw[..8], [low, high, low, middle, low, low, middle, low]);
    assert!(high < low);
}

#[test]
fn strict_bounds_are_dashed() {
    let dashed =
        |sheet: &Sheet, run: &str| chart(sheet, "t", &schedule(sheet, run)).matches("stroke-width=\"2\" stroke-dasharray=\"5 3\"").count();
    let (beacon, bench) = (parse(BEACON).unwrap(), parse(BENCH).unwrap());
    // Each pass, and the sample at the foot.
    assert_eq!(dashed(&beacon, BEACON_RUN), 3);
    assert_eq!(dashed(&bench, "loop\ndelay 1\nedge finish\n"), 0);
}
