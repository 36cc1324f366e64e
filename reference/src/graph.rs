// The graph sheet in both versions: its checks (refusals 1 to 8 with 41 and 43), the graph read from it, the number of successors.
// It rests on header.rs, the section "Graph sheet" and rows 1 to 8 of the first table of refusals, and requests K2 and K6 of document 02.

use crate::header;

/// A graph read from an accepted sheet. Blocks are numbered from 1; place 0 of each row is unused.
pub(crate) struct Graph {
    pub(crate) blocks: usize,
    /// Whether the sheet is of the second version.
    pub(crate) second: bool,
    /// The budgets, each lowered by the handler's cost: 1 to 4 of them, strictly rising; one for a sheet of the first version.
    pub(crate) budgets: Vec<usize>,
    costs: Vec<usize>,
    successors: Vec<Vec<usize>>,
}

impl Graph {
    /// The graph of this sheet with a handler of this cost, or the number of the refusal.
    pub(crate) fn read(words: &[u16], handler: u16) -> Result<Graph, u16> {
        check(words, handler)?;
        let sheet = Sheet::of(words);
        let mut costs = vec![0];
        let mut successors = vec![Vec::new()];
        for block in 1..=sheet.blocks {
            costs.push(sheet.cost(block));
            let mut targets = Vec::new();
            let mut edge = sheet.first_edge(block);
            while edge != 0 {
                targets.push(sheet.target(edge));
                edge = sheet.next_edge(edge);
            }
            successors.push(targets);
        }
        // No budget is below the handler's cost: 43 has been tested.
        let claimed = header::budgets(words).unwrap_or_default();
        let budgets = claimed.iter().map(|budget| budget - usize::from(handler)).collect();
        Ok(Graph { blocks: sheet.blocks, second: header::is_second(words), budgets, costs, successors })
    }

    /// The largest lowered budget: the last, since they rise.
    pub(crate) fn largest_budget(&self) -> usize {
        self.budgets[self.budgets.len() - 1]
    }

    /// The lowered budget with this number, or none for a number outside the sheet.
    pub(crate) fn budget(&self, number: u32) -> Option<usize> {
        header::budget_numbered(&self.budgets, number)
    }

    /// The cost of a block in 1..=N.
    pub(crate) fn cost(&self, block: usize) -> usize {
        self.costs[block]
    }

    /// The successors of a block in 1..=N, in chain order.
    pub(crate) fn successors(&self, block: usize) -> &[usize] {
        &self.successors[block]
    }

    /// The number of bytes a work area must have: it goes by the largest lowered budget.
    pub(crate) fn area_needed(&self) -> usize {
        self.blocks * (self.largest_budget() + 1)
    }
}

/// The words of a sheet by their place in the records. Only used once the length is known to fit.
struct Sheet<'a> {
    words: &'a [u16],
    blocks: usize,
    /// Where the block records begin.
    records: usize,
}

impl<'a> Sheet<'a> {
    fn of(words: &'a [u16]) -> Sheet<'a> {
        let (blocks, edges) = header::sizes(words);
        Sheet { words, blocks, records: words.len() - 2 * blocks - 2 * edges }
    }
    fn cost(&self, block: usize) -> usize {
        usize::from(self.words[self.records + 2 * (block - 1)])
    }
    fn first_edge(&self, block: usize) -> usize {
        usize::from(self.words[self.records + 2 * (block - 1) + 1])
    }
    fn target(&self, edge: usize) -> usize {
        usize::from(self.words[self.records + 2 * self.blocks + 2 * (edge - 1)])
    }
    fn next_edge(&self, edge: usize) -> usize {
        usize::from(self.words[self.records + 2 * self.blocks + 2 * (edge - 1) + 1])
    }
}

/// 0 for an accepted graph sheet, else the first refusal in the order 1, 2, 3, 4, 41, 5, 6, 7, 8.
pub fn check_graph(words: &[u16]) -> u16 {
    // With a handler of cost 0 no budget is too small.
    check(words, 0).err().unwrap_or(0)
}

/// Refuses 1, 2, 3, 4, 41, 43, 5, 6, 7, 8 of a row and a handler of this cost, the first that holds.
fn check(words: &[u16], handler: u16) -> Result<(), u16> {
    // 3: not exactly so many words as the header says.
    if words.len() != graph_length(words)? {
        return Err(3);
    }
    check_budgets(words)?;
    check_handler(words, handler)?;
    check_costs(words)?;
    check_edges(words)
}

/// The words of a graph sheet with the header of this row: 3 + 2N + 2E, in the second version 4 + budgets + 2N + 2E. Refuses 1, 2, and 3
/// for a row that ends before its budgets.
pub(crate) fn graph_length(words: &[u16]) -> Result<usize, u16> {
    // 1: fewer than 3 words, in both versions.
    if words.len() < 3 {
        return Err(1);
    }

    // 2: N or E outside its limit.
    let (blocks, edges) = header::sizes(words);
    if blocks < 2 || blocks > 128 || edges < 1 || edges > 512 {
        return Err(2);
    }

    let budgets = header::budgets(words).ok_or(3_u16)?;
    let header_words = if header::is_second(words) { 4 + budgets.len() } else { 3 };
    Ok(header_words + 2 * blocks + 2 * edges)
}

/// Refuses 4 and 41 of a row that has all its budgets.
pub(crate) fn check_budgets(words: &[u16]) -> Result<(), u16> {
    // 4: a budget above 500, of all that the sheet names.
    let budgets = header::budgets(words).unwrap_or_default();
    if budgets.iter().any(|budget| *budget > 500) {
        return Err(4);
    }

    // 41: a number of budgets outside 1 to 4, or budgets that do not rise strictly.
    if !header::are_few_and_rising(&budgets) {
        return Err(41);
    }
    Ok(())
}

/// Refuses 43 of a row that 4 and 41 let pass: the handler costs more than the smallest budget, the first, since they rise.
fn check_handler(words: &[u16], handler: u16) -> Result<(), u16> {
    match header::budgets(words).unwrap_or_default().first() {
        Some(smallest) if usize::from(handler) > *smallest => Err(43),
        _ => Ok(()),
    }
}

/// Refuses 5 of a row of a graph sheet's length.
fn check_costs(words: &[u16]) -> Result<(), u16> {
    // 5: block 1 or 2 with a cost, or another block with cost 0.
    let sheet = Sheet::of(words);
    for block in 1..=sheet.blocks {
        let trusted = block == 1 || block == 2;
        let free = sheet.cost(block) == 0;
        if trusted != free {
            return Err(5);
        }
    }
    Ok(())
}

/// Refuses 6, 7 and 8 of a row of a graph sheet's length.
pub(crate) fn check_edges(words: &[u16]) -> Result<(), u16> {
    let (blocks, edges) = header::sizes(words);
    let sheet = Sheet::of(words);

    // 6: a target that is 0, 1 or above N, in any edge record.
    for edge in 1..=edges {
        let target = sheet.target(edge);
        if target == 0 || target == 1 || target > blocks {
            return Err(6);
        }
    }

    // 7: following all chains meets an edge number above E, or an edge twice, or misses an edge.
    let mut met = vec![false; edges + 1];
    for block in 1..=blocks {
        let mut edge = sheet.first_edge(block);
        while edge != 0 {
            if edge > edges || met[edge] {
                return Err(7);
            }
            met[edge] = true;
            edge = sheet.next_edge(edge);
        }
    }
    for edge in 1..=edges {
        if !met[edge] {
            return Err(7);
        }
    }

    // 8: the exit has a chain.
    if sheet.first_edge(2) != 0 {
        return Err(8);
    }
    Ok(())
}

/// The answer and the number of successors of a block: 1 to 8 with 41, then 33 for a block outside 1..=N.
pub fn successor_count(words: &[u16], block: u16) -> (u16, u16) {
    let graph = match Graph::read(words, 0) {
        Ok(graph) => graph,
        Err(answer) => return (answer, 0),
    };
    let block = usize::from(block);
    if block < 1 || block > graph.blocks {
        return (33, 0);
    }
    // At most 512 edges, so the count fits a word.
    (0, graph.successors(block).len() as u16)
}

/// The records of a graph written from costs and successors (place 0 is block 1), edges numbered in order, and their number.
fn records(costs: &[u16], successors: &[Vec<u16>]) -> (usize, Vec<u16>) {
    let mut words = Vec::new();
    let mut edge_records = Vec::new();
    let mut number: usize = 0;
    for (index, cost) in costs.iter().enumerate() {
        let none = Vec::new();
        let targets = successors.get(index).unwrap_or(&none);
        words.push(*cost);
        words.push(if targets.is_empty() { 0 } else { (number + 1) as u16 });
        for (position, target) in targets.iter().enumerate() {
            number += 1;
            let last = position + 1 == targets.len();
            edge_records.push(*target);
            edge_records.push(if last { 0 } else { (number + 1) as u16 });
        }
    }
    words.extend(edge_records);
    (number, words)
}

/// A graph sheet of the first version, from costs, successors and a budget.
pub fn graph_sheet(costs: &[u16], successors: &[Vec<u16>], budget: u16) -> Vec<u16> {
    let (edges, records) = records(costs, successors);
    [vec![costs.len() as u16, edges as u16, budget], records].concat()
}

/// A graph sheet of the second version, from costs, successors and budgets, however many.
pub fn budgets_sheet(costs: &[u16], successors: &[Vec<u16>], budgets: &[u16]) -> Vec<u16> {
    let (edges, records) = records(costs, successors);
    [vec![0, costs.len() as u16, edges as u16, budgets.len() as u16], budgets.to_vec(), records].concat()
}

/// The same graph with these budgets, as a sheet of the second version. The sheet is accepted, of either version.
pub fn with_budgets(words: &[u16], budgets: &[u16]) -> Vec<u16> {
    let (blocks, edges) = header::sizes(words);
    let records = &words[words.len() - 2 * blocks - 2 * edges..];
    [&[0, blocks as u16, edges as u16, budgets.len() as u16], budgets, records].concat()
}

/// The worked example of document 01 with this budget.
pub fn paper_example(budget: u16) -> Vec<u16> {
    let costs = [0, 0, 2, 1, 4, 1, 1, 5];
    let successors =
        [vec![3], vec![], vec![4, 5], vec![6], vec![6], vec![7, 8], vec![2], vec![2]];
    graph_sheet(&costs, &successors, budget)
}
