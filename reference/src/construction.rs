// Completion costs by rising cost, the copies reached by a work list, and the build of a bounded sheet; every budget is a lowered one.
// It rests on graph.rs, the sections "Completions and copies", "Bounded sheet" and the order of refusals, requests K2 and K6 of document 02.

use crate::graph::Graph;
use std::collections::{BTreeMap, BTreeSet};

const MOST_COPIES: usize = 4096;
const MOST_EDGES: usize = 8192;

/// Which block has which completion cost up to the largest lowered budget B: byte (block - 1) * (B + 1) + cost is 1 or 0.
pub(crate) struct Completions {
    budget: usize,
    bytes: Vec<u8>,
}

impl Completions {
    /// The dynamic program: every cost from 0 to B in turn, every block at that cost.
    pub(crate) fn of(graph: &Graph) -> Completions {
        let mut table =
            Completions { budget: graph.largest_budget(), bytes: vec![0; graph.area_needed()] };
        // The exit's only completion costs 0.
        table.put(2, 0);
        for cost in 0..=graph.largest_budget() {
            // A block above 2 costs at least 1, so it asks only about smaller completion costs.
            for block in 3..=graph.blocks {
                if cost >= graph.cost(block) {
                    let rest = cost - graph.cost(block);
                    if graph.successors(block).iter().any(|next| table.has(*next, rest)) {
                        table.put(block, cost);
                    }
                }
            }
            // The start costs 0 and is no edge's target, so it comes last at each cost.
            if graph.successors(1).iter().any(|next| table.has(*next, cost)) {
                table.put(1, cost);
            }
        }
        table
    }

    fn put(&mut self, block: usize, cost: usize) {
        self.bytes[(block - 1) * (self.budget + 1) + cost] = 1;
    }

    /// Whether a block in 1..=N has this completion cost, at most B.
    fn has(&self, block: usize, cost: usize) -> bool {
        self.bytes[(block - 1) * (self.budget + 1) + cost] == 1
    }

    /// The largest completion cost of the block at or below `left`, where `left` is at most B.
    pub(crate) fn largest(&self, block: usize, left: usize) -> Option<usize> {
        (0..=left).rev().find(|cost| self.has(block, *cost))
    }

    /// The area's content once the table is written at its beginning. The area is long enough.
    fn written_over(&self, area: &[u8]) -> Vec<u8> {
        let mut after = area.to_vec();
        after[..self.bytes.len()].copy_from_slice(&self.bytes);
        after
    }
}

/// The table of completion costs of an accepted sheet with a handler of this cost; empty for a refused one.
pub fn completion_table(words: &[u16], handler: u16) -> Vec<u8> {
    match Graph::read(words, handler) {
        Ok(graph) => Completions::of(&graph).bytes,
        Err(_) => Vec::new(),
    }
}

/// A sheet that passed the checks of the sheet and of the work area, with its table and the area that begins with it.
pub(crate) struct Weighed {
    pub(crate) graph: Graph,
    pub(crate) table: Completions,
    pub(crate) area: Vec<u8>,
}

/// The checks that a build, a guarded move and a guarded start share: 1 to 8 with 41 and 43, 21, 9; a refusal comes with the area as it
/// is left.
pub(crate) fn weighed(words: &[u16], handler: u16, area: &[u8]) -> Result<Weighed, (u16, Vec<u8>)> {
    // 1 to 8 with 41 and 43, then 21: the work area keeps its content.
    let graph = match Graph::read(words, handler) {
        Ok(graph) => graph,
        Err(answer) => return Err((answer, area.to_vec())),
    };
    if area.len() < graph.area_needed() {
        return Err((21, area.to_vec()));
    }

    // From here on the work area begins with the table.
    let table = Completions::of(&graph);
    let area = table.written_over(area);

    // 9: block 1 has no completion cost at or below the largest lowered budget.
    if table.largest(1, graph.largest_budget()).is_none() {
        return Err((9, area));
    }
    Ok(Weighed { graph, table, area })
}

/// A copy: block and low. The order of pairs is the order of copies.
type BlockCopy = (usize, usize);

/// Where an edge from a copy to this target block goes: a copy, or none if it is diverted.
fn target_copy(graph: &Graph, table: &Completions, from: BlockCopy, target: usize) -> Option<BlockCopy> {
    let (block, low) = from;
    // A low is a completion cost of its block, so it is at least the block's cost.
    let left = low - graph.cost(block);
    table.largest(target, left).map(|target_low| (target, target_low))
}

/// For each budget its start copy, or none where nothing fits it. Equal start copies are one copy.
fn start_copies(graph: &Graph, table: &Completions) -> Vec<Option<BlockCopy>> {
    graph.budgets.iter().map(|budget| table.largest(1, *budget).map(|low| (1, low))).collect()
}

/// All copies reached from these start copies and the number of their edges, or none once there are
/// more than 4,096 copies or more than 8,192 edges.
fn reached_copies(
    graph: &Graph,
    table: &Completions,
    starts: &[Option<BlockCopy>],
) -> Option<(BTreeSet<BlockCopy>, usize)> {
    let mut reached: BTreeSet<BlockCopy> = starts.iter().flatten().copied().collect();
    let mut waiting: Vec<BlockCopy> = reached.iter().copied().collect();
    let mut edges = 0;
    while let Some(copy) = waiting.pop() {
        edges += graph.successors(copy.0).len();
        if edges > MOST_EDGES {
            return None;
        }
        for target in graph.successors(copy.0) {
            if let Some(next) = target_copy(graph, table, copy, *target) {
                if reached.insert(next) {
                    waiting.push(next);
                }
                if reached.len() > MOST_COPIES {
                    return None;
                }
            }
        }
    }
    Some((reached, edges))
}

/// The words of the bounded sheet of these copies, of the same version as the graph sheet. It carries the lowered budgets.
fn bounded_words(
    graph: &Graph,
    table: &Completions,
    starts: &[Option<BlockCopy>],
    copies: &BTreeSet<BlockCopy>,
    edges: usize,
) -> Vec<u16> {
    // Copies are numbered from 1 in rising order.
    let numbers: BTreeMap<BlockCopy, u16> = copies.iter().copied().zip(1..).collect();
    let mut words = vec![copies.len() as u16, edges as u16];
    let budgets = graph.budgets.iter().map(|budget| *budget as u16);
    if graph.second {
        words.insert(0, 0);
        words.push(graph.budgets.len() as u16);
        words.extend(budgets);
        // An entry word names the start copy of its budget, 0 if nothing fits.
        words.extend(starts.iter().map(|start| start.map_or(0, |copy| numbers[&copy])));
    } else {
        words.extend(budgets);
    }
    let mut edge_records = Vec::new();
    let mut edge = 0;
    for copy in copies {
        let targets = graph.successors(copy.0);
        let first = if targets.is_empty() { 0 } else { edge + 1 };
        words.extend([copy.0 as u16, copy.1 as u16, first]);
        for (position, target) in targets.iter().enumerate() {
            edge += 1;
            let number = match target_copy(graph, table, *copy, *target) {
                Some(next) => numbers[&next],
                None => 0,
            };
            let last = position + 1 == targets.len();
            edge_records.extend([number, if last { 0 } else { edge + 1 }]);
        }
    }
    words.extend(edge_records);
    words
}

/// The answer of a build, and the work area and the output row as the call leaves them.
#[derive(Clone, PartialEq, Eq, Debug)]
pub struct Built {
    pub answer: u16,
    pub area: Vec<u8>,
    pub output: Vec<u16>,
}

/// The build with a handler of this cost: answers 1 to 8 with 41 and 43, 21, 9, 10, 22, 0, the first that holds.
pub fn build(words: &[u16], handler: u16, area: &[u8], output: &[u16]) -> Built {
    let refused = |answer: u16, area: Vec<u8>| Built { answer, area, output: output.to_vec() };

    // 1 to 8 with 41 and 43, 21, 9.
    let Weighed { graph, table, area } = match weighed(words, handler, area) {
        Ok(weighed) => weighed,
        Err((answer, area)) => return refused(answer, area),
    };

    // 10: C above 4,096 or F above 8,192.
    let starts = start_copies(&graph, &table);
    let (copies, edges) = match reached_copies(&graph, &table, &starts) {
        Some(reached) => reached,
        None => return refused(10, area),
    };

    // 22: output row shorter than 3 + 3C + 2F words, in the second version 4 + 2 * budgets + 3C + 2F.
    let header_words = if graph.second { 4 + 2 * graph.budgets.len() } else { 3 };
    if output.len() < header_words + 3 * copies.len() + 2 * edges {
        return refused(22, area);
    }

    // An accepted build fills exactly its words.
    let words = bounded_words(&graph, &table, &starts, &copies, edges);
    let mut output = output.to_vec();
    output[..words.len()].copy_from_slice(&words);
    Built { answer: 0, area, output }
}
