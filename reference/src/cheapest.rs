// The cheapest completion of each block, and the cheapest way to it, each by relaxing the edges until nothing changes.
// It rests on graph.rs alone, and on nothing that a build or a walk has written.

use crate::graph::Graph;

/// For each block the least sum of costs along links (from, to, cost) that begin at `first`; none out of reach. Place 0 is unused.
fn least_sums(blocks: usize, first: usize, links: &[(usize, usize, usize)]) -> Vec<Option<usize>> {
    let mut least = vec![None; blocks + 1];
    least[first] = Some(0);
    let mut changed = true;
    while changed {
        changed = false;
        for (from, to, cost) in links {
            if let Some(before) = least[*from] {
                let sum = before + cost;
                if least[*to].map_or(true, |known| sum < known) {
                    least[*to] = Some(sum);
                    changed = true;
                }
            }
        }
    }
    least
}

/// Every edge as (source, target).
fn edges(graph: &Graph) -> Vec<(usize, usize)> {
    let targets_of = |block: usize| graph.successors(block).iter().map(move |target| (block, *target));
    (1..=graph.blocks).flat_map(targets_of).collect()
}

/// The cost of each block's cheapest completion; none where no path leads from it to the exit.
pub(crate) fn cheapest_completions(graph: &Graph) -> Vec<Option<usize>> {
    let links: Vec<_> = edges(graph).iter().map(|(from, to)| (*to, *from, graph.cost(*from))).collect();
    least_sums(graph.blocks, 2, &links)
}

/// For each block the least cost of the blocks before it on a path from block 1; none where no path leads to it.
pub(crate) fn cheapest_ways(graph: &Graph) -> Vec<Option<usize>> {
    let links: Vec<_> = edges(graph).iter().map(|(from, to)| (*from, *to, graph.cost(*from))).collect();
    least_sums(graph.blocks, 1, &links)
}
