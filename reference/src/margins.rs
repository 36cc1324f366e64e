// The margins of a bounded sheet's copies: how many more cycles open another path, or that none do within the largest budget.
// It rests on graph.rs, bounded.rs and request K5 of document 02. Completion costs are found anew: nothing is taken from construction.rs.

use crate::bounded::Bounded;
use crate::graph::Graph;
use std::collections::{BTreeSet, VecDeque};

/// For each block its completion costs up to the largest budget, by a search from the exit backwards over the edges: a completion with a
/// block put before it is one of that block. Place 0 is unused.
fn completion_costs(graph: &Graph) -> Vec<BTreeSet<usize>> {
    let mut before = vec![Vec::new(); graph.blocks + 1];
    for block in 1..=graph.blocks {
        for target in graph.successors(block) {
            before[*target].push(block);
        }
    }
    let mut costs = vec![BTreeSet::new(); graph.blocks + 1];
    costs[2].insert(0);
    let mut waiting = VecDeque::from([(2, 0)]);
    while let Some((block, cost)) = waiting.pop_front() {
        for longer in &before[block] {
            let sum = cost + graph.cost(*longer);
            if sum <= graph.largest_budget() && costs[*longer].insert(sum) {
                waiting.push_back((*longer, sum));
            }
        }
    }
    costs
}

/// The margin of every copy, in order: the next completion cost of its block up to the graph's largest budget less its low, or none. The
/// sheet is the graph's own.
pub(crate) fn margins(graph: &Graph, sheet: &Bounded) -> Vec<Option<usize>> {
    let costs = completion_costs(graph);
    let margin = |copy: usize| {
        let low = sheet.low(copy);
        costs[sheet.block(copy)].range(low + 1..).next().map(|next| next - low)
    };
    (1..=sheet.copies()).map(margin).collect()
}
