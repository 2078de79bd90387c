//! Difference constraints on times in nths, and on how long a cycle takes.
//!
//! A time is n times that of a corner point, and some nths later; a cycle takes n times what it takes by the
//! corner points, and `shift` nths more. A strict constraint leaves one nth of room.

/// The time `to` is at most the time `from`, plus n times `slack`, plus `turns` times the shift, less `room`, all
/// counted from the corner points.
#[derive(Clone, Copy, Debug, Default, PartialEq, Eq)]
pub struct Constraint {
    pub to: usize,
    pub from: usize,
    pub slack: i64,
    pub turns: i64,
    pub room: i64,
}

impl Constraint {
    fn weight(&self, n: i64, shift: i64) -> i64 {
        n * self.slack + self.turns * shift - self.room
    }
}

/// The sum of constraints that lead round and contradict each other.
fn contradiction(constraints: &[Constraint], by: &[usize], from: usize) -> Constraint {
    // as many steps back as there are times lead onto the round
    let onto = (0..by.len()).fold(from, |at, _| constraints[by[at]].from);
    let (mut sum, mut at) = (Constraint::default(), onto);
    loop {
        let constraint = constraints[by[at]];
        sum.slack += constraint.slack;
        sum.turns += constraint.turns;
        sum.room += constraint.room;
        at = constraint.from;
        if at == onto {
            return sum;
        }
    }
}

/// The latest times that are none later than their corner points, or a contradiction.
fn relaxed(constraints: &[Constraint], count: usize, n: i64, shift: i64) -> Result<Vec<i64>, Constraint> {
    let (mut later, mut by) = (vec![0; count], vec![0; count]);
    let mut lowered = None;
    for _ in 0..=count {
        lowered = None;
        for (i, constraint) in constraints.iter().enumerate() {
            let most = later[constraint.from] + constraint.weight(n, shift);
            if most < later[constraint.to] {
                later[constraint.to] = most;
                by[constraint.to] = i;
                lowered = Some(constraint.to);
            }
        }
        if lowered.is_none() {
            break;
        }
    }
    match lowered {
        None => Ok(later),
        Some(from) => Err(contradiction(constraints, &by, from)),
    }
}

/// How many nths each time is later than n times its corner point, with the shift nearest to 0 for which there are such times. Each
/// contradiction narrows the shifts that are left.
pub fn solved(constraints: &[Constraint], count: usize, n: i64) -> Option<Vec<i64>> {
    let (mut least, mut most) = (i64::MIN, i64::MAX);
    while least <= most {
        let sum = match relaxed(constraints, count, n, 0.clamp(least, most)) {
            Ok(later) => return Some(later),
            Err(sum) => sum,
        };
        // the sum asks that turns times the shift is at least this
        let wanted = sum.room - n * sum.slack;
        match sum.turns {
            0 => return None,
            turns if turns > 0 => least = -(-wanted).div_euclid(turns),
            turns => most = (-wanted).div_euclid(-turns),
        }
    }
    None
}

#[cfg(test)]
mod tests {
    use super::*;

    fn constraint(to: usize, from: usize, slack: i64, turns: i64, room: i64) -> Constraint {
        Constraint { to, from, slack, turns, room }
    }

    #[test]
    fn nothing_strict_stays_at_the_corner_points() {
        assert_eq!(solved(&[constraint(1, 0, 0, 0, 0), constraint(0, 1, 1, 0, 0)], 2, 1), Some(vec![0, 0]));
    }

    #[test]
    fn an_open_interval_needs_two_nths() {
        let open = [constraint(1, 0, 1, 0, 1), constraint(0, 1, 0, 0, 1)];
        assert_eq!(solved(&open, 2, 1), None);
        assert_eq!(solved(&open, 2, 2), Some(vec![-1, 0]));
    }

    #[test]
    fn the_shift_is_found_on_either_side() {
        for sign in [1, -1] {
            let least = constraint(0, 1, 0, sign, 5);
            let equal = [constraint(1, 0, 0, 0, 0), constraint(0, 1, 0, 0, 0)];
            assert_eq!(solved(&[equal[0], equal[1], least], 2, 1), Some(vec![0, 0]));
        }
    }

    #[test]
    fn the_only_shift_is_found_on_either_side() {
        for shift in [7, 1, 0, -1, -7] {
            let only = [constraint(0, 0, 0, 1, shift), constraint(0, 0, 0, -1, -shift)];
            assert_eq!(solved(&only, 1, 1), Some(vec![0]));
            let thirds = [constraint(0, 0, 0, 3, 3 * shift - 2), constraint(0, 0, 0, -3, -3 * shift - 2)];
            assert_eq!(solved(&thirds, 1, 1), Some(vec![0]));
            let between = [constraint(0, 0, 0, 3, 3 * shift + 1), constraint(0, 0, 0, -3, -3 * shift - 2)];
            assert_eq!(solved(&between, 1, 1), None);
        }
    }

    #[test]
    fn what_contradicts_itself_never_has_times() {
        assert_eq!(solved(&[constraint(1, 0, 0, 0, 1), constraint(0, 1, 0, 0, 0)], 2, 1000), None);
        let both = [constraint(0, 0, 0, 1, 1), constraint(0, 0, 0, -1, 1)];
        assert_eq!(solved(&both, 1, 1000), None);
    }
}
