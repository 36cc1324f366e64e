// A build as one would write it in Rust for speed, over plain rows: what the proved library is measured against beside the reference.
// It rests on document 01, requests K2 and K6 of document 02 and the reference's check; the measurement holds its answers to the reference's.

const MOST_COPIES: usize = 4096;
const MOST_EDGES: usize = 8192;
const NO_COPY: u16 = u16::MAX;

/// The graph of an accepted sheet: costs, and all targets in one row, those of block v from `first[v]` to `first[v + 1]`.
struct Graph {
    blocks: usize,
    second: bool,
    /// The budgets less the handler's cost.
    budgets: Vec<usize>,
    /// The largest of them.
    budget: usize,
    costs: Vec<usize>,
    first: Vec<usize>,
    targets: Vec<usize>,
}

impl Graph {
    fn read(sheet: &[u16], handler: u16) -> Graph {
        let second = sheet[0] == 0;
        let sizes = usize::from(second);
        let (blocks, edges) = (sheet[sizes] as usize, sheet[sizes + 1] as usize);
        let blocks_at = sheet.len() - 2 * blocks - 2 * edges;
        let edges_at = blocks_at + 2 * blocks;
        let claimed = &sheet[if second { 4 } else { 2 }..blocks_at];
        let budgets: Vec<usize> = claimed.iter().map(|budget| (*budget - handler) as usize).collect();
        let mut graph = Graph {
            blocks,
            second,
            budget: budgets[budgets.len() - 1],
            budgets,
            costs: Vec::with_capacity(blocks + 1),
            first: Vec::with_capacity(blocks + 2),
            targets: Vec::with_capacity(edges),
        };
        graph.costs.push(0);
        graph.first.push(0);
        for block in 0..blocks {
            graph.costs.push(sheet[blocks_at + 2 * block] as usize);
            graph.first.push(graph.targets.len());
            let mut edge = sheet[blocks_at + 2 * block + 1] as usize;
            while edge != 0 {
                graph.targets.push(sheet[edges_at + 2 * (edge - 1)] as usize);
                edge = sheet[edges_at + 2 * (edge - 1) + 1] as usize;
            }
        }
        graph.first.push(graph.targets.len());
        graph
    }

    fn targets(&self, block: usize) -> &[usize] {
        &self.targets[self.first[block]..self.first[block + 1]]
    }
}

/// The completion table by rising cost, into the front of the area.
fn weigh(graph: &Graph, area: &mut [u8]) {
    let width = graph.budget + 1;
    area[..graph.blocks * width].fill(0);
    area[width] = 1;
    for cost in 0..width {
        for block in (3..=graph.blocks).chain([1]) {
            if graph.costs[block] <= cost {
                let rest = cost - graph.costs[block];
                if graph.targets(block).iter().any(|next| area[(next - 1) * width + rest] == 1) {
                    area[(block - 1) * width + cost] = 1;
                }
            }
        }
    }
}

/// For each block and number the largest completion cost at or below it, or NO_COPY.
fn lows(graph: &Graph, area: &[u8]) -> Vec<u16> {
    let width = graph.budget + 1;
    let mut lows = vec![NO_COPY; graph.blocks * width];
    for block in 0..graph.blocks {
        let mut low = NO_COPY;
        for cost in 0..width {
            if area[block * width + cost] == 1 {
                low = cost as u16;
            }
            lows[block * width + cost] = low;
        }
    }
    lows
}

/// Marks the copies reached from the start copies; none once there are too many copies or edges.
fn reach(graph: &Graph, lows: &[u16], marks: &mut [bool]) -> Option<(usize, usize)> {
    let width = graph.budget + 1;
    let mut waiting = Vec::new();
    let (mut copies, mut edges) = (0, 0);
    for budget in &graph.budgets {
        let start = lows[*budget];
        if start != NO_COPY && !marks[start as usize] {
            marks[start as usize] = true;
            copies += 1;
            waiting.push((1, start as usize));
        }
    }
    while let Some((block, low)) = waiting.pop() {
        let left = low - graph.costs[block];
        let targets = graph.targets(block);
        edges += targets.len();
        for target in targets {
            let next = lows[(target - 1) * width + left];
            if next != NO_COPY {
                let cell = (target - 1) * width + next as usize;
                if !marks[cell] {
                    marks[cell] = true;
                    copies += 1;
                    waiting.push((*target, next as usize));
                }
            }
        }
        if edges > MOST_EDGES || copies > MOST_COPIES {
            return None;
        }
    }
    Some((copies, edges))
}

/// The words of the bounded sheet, whose header has so many words.
fn write(graph: &Graph, lows: &[u16], marks: &[bool], header: usize, copies: usize, edges: usize, output: &mut [u16]) {
    let width = graph.budget + 1;
    let mut numbers = vec![0u16; marks.len()];
    let mut number = 0;
    for (cell, mark) in marks.iter().enumerate() {
        if *mark {
            number += 1;
            numbers[cell] = number;
        }
    }
    if graph.second {
        let number = graph.budgets.len();
        output[..4].copy_from_slice(&[0, copies as u16, edges as u16, number as u16]);
        for (place, budget) in graph.budgets.iter().enumerate() {
            let start = lows[*budget];
            output[4 + place] = *budget as u16;
            output[4 + number + place] = if start == NO_COPY { 0 } else { numbers[start as usize] };
        }
    } else {
        output[..3].copy_from_slice(&[copies as u16, edges as u16, graph.budget as u16]);
    }
    let (mut at, mut edge_at, mut edge) = (header, header + 3 * copies, 1);
    for block in 1..=graph.blocks {
        let targets = graph.targets(block);
        for low in 0..width {
            if !marks[(block - 1) * width + low] {
                continue;
            }
            output[at] = block as u16;
            output[at + 1] = low as u16;
            output[at + 2] = if targets.is_empty() { 0 } else { edge };
            at += 3;
            for (place, target) in targets.iter().enumerate() {
                let next = lows[(target - 1) * width + low - graph.costs[block]];
                output[edge_at] = if next == NO_COPY { 0 } else { numbers[(target - 1) * width + next as usize] };
                output[edge_at + 1] = if place + 1 == targets.len() { 0 } else { edge + 1 };
                edge_at += 2;
                edge += 1;
            }
        }
    }
}

/// The conditions 1 to 8 with 41 and 43, which comes after 41: the budgets rise, so the smallest stands first.
fn check(sheet: &[u16], handler: u16) -> u16 {
    match reference::check_graph(sheet) {
        answer @ (1..=4 | 41) => answer,
        _ if handler > sheet[if sheet[0] == 0 { 4 } else { 2 }] => 43,
        answer => answer,
    }
}

/// The build: answer, work area and output row as documents 01 and 02 have them.
pub fn build(sheet: &[u16], handler: u16, area: &mut [u8], output: &mut [u16]) -> u16 {
    let answer = check(sheet, handler);
    if answer != 0 {
        return answer;
    }
    let graph = Graph::read(sheet, handler);
    if area.len() < graph.blocks * (graph.budget + 1) {
        return 21;
    }
    weigh(&graph, area);
    let lows = lows(&graph, area);
    if lows[graph.budget] == NO_COPY {
        return 9;
    }
    let mut marks = vec![false; lows.len()];
    let Some((copies, edges)) = reach(&graph, &lows, &mut marks) else {
        return 10;
    };
    let header = if graph.second { 4 + 2 * graph.budgets.len() } else { 3 };
    if output.len() < header + 3 * copies + 2 * edges {
        return 22;
    }
    write(&graph, &lows, &marks, header, copies, edges, output);
    0
}
