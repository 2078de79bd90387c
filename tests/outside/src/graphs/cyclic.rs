//! Cycles and components of a graph given by the ends of its arcs.

type Ends = (usize, usize);

fn leaving(nodes: usize, arcs: impl Iterator<Item = Ends>) -> Vec<Vec<usize>> {
    let mut leaving = vec![Vec::new(); nodes];
    for (from, to) in arcs {
        leaving[from].push(to);
    }
    leaving
}

/// Nodes that no arc enters are taken away, with their arcs, until there is none; then each node that
/// remains is entered from one that remains, so that a walk back from it never ends.
fn remaining(nodes: usize, arcs: &[Ends]) -> Vec<bool> {
    let leaving = leaving(nodes, arcs.iter().copied());
    let mut entering = vec![0usize; nodes];
    arcs.iter().for_each(|&(_, to)| entering[to] += 1);
    let mut free: Vec<usize> = (0..nodes).filter(|&node| entering[node] == 0).collect();
    while let Some(node) = free.pop() {
        for &to in &leaving[node] {
            entering[to] -= 1;
            if entering[to] == 0 {
                free.push(to);
            }
        }
    }
    entering.into_iter().map(|count| count > 0).collect()
}

/// Whether the arcs close a cycle.
pub fn has_cycle(nodes: usize, arcs: &[Ends]) -> bool {
    remaining(nodes, arcs).contains(&true)
}

/// The places of the arcs of a cycle that meets no node twice, in order, if the arcs close one.
pub fn some_cycle(nodes: usize, arcs: &[Ends]) -> Option<Vec<usize>> {
    let remaining = remaining(nodes, arcs);
    let mut node = remaining.iter().position(|&remains| remains)?;
    let mut before = vec![None; nodes];
    for (at, &(_, to)) in arcs.iter().enumerate().filter(|(_, arc)| remaining[arc.0]) {
        before[to] = Some(at);
    }
    let mut back = Vec::new();
    let mut met = vec![None; nodes];
    while met[node].is_none() {
        met[node] = Some(back.len());
        let at: usize = before[node]?;
        back.push(at);
        node = arcs[at].0;
    }
    let mut cycle = back.split_off(met[node]?);
    cycle.reverse();
    Some(cycle)
}

/// The nodes in the order in which a search in depth is done with them.
fn finished(leaving: &[Vec<usize>]) -> Vec<usize> {
    let mut order = Vec::new();
    let mut met = vec![false; leaving.len()];
    for start in 0..leaving.len() {
        let mut path = if met[start] { Vec::new() } else { vec![(start, 0)] };
        met[start] = true;
        while let Some((node, next)) = path.pop() {
            match leaving[node].get(next) {
                None => order.push(node),
                Some(&to) => {
                    path.push((node, next + 1));
                    if !met[to] {
                        met[to] = true;
                        path.push((to, 0));
                    }
                }
            }
        }
    }
    order
}

/// For each node the number of its component: two nodes have the same if and only if walks lead from
/// each to the other. (Kosaraju's two searches, the second against the arcs.)
pub fn components(nodes: usize, arcs: &[Ends]) -> Vec<usize> {
    let order = finished(&leaving(nodes, arcs.iter().copied()));
    let against = leaving(nodes, arcs.iter().map(|&(from, to)| (to, from)));
    let mut component = vec![None; nodes];
    for (number, &start) in order.iter().rev().enumerate() {
        let mut open = vec![start];
        while let Some(node) = open.pop() {
            if component[node].is_none() {
                component[node] = Some(number);
                open.extend(against[node].iter().filter(|&&to| component[to].is_none()));
            }
        }
    }
    component.into_iter().map(|number| number.expect("each node is in the order")).collect()
}
