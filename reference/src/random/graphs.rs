// Random graph sheets of both versions: valid, near the limits, damaged, and with more budgets than there may be.
// It rests on the library's check and build, and on the table of completion costs to aim at budgets that just fit or just do not.

use super::{built_words, change_a_word, change_the_length, get, largest, set, Layout, Random, Size};
use crate::{check_graph, completion_table};

/// The most blocks, edges and budget for one sheet of this size.
fn limits(random: &mut Random, size: Size) -> (usize, usize, usize) {
    let (tiny, small) = ((5, 8, 8), (12, 30, 60));
    match size {
        Size::Tiny => tiny,
        Size::Small => small,
        Size::Any => match random.below(20) {
            0..=3 => tiny,
            4..=14 => small,
            15..=18 => (40, 120, 200),
            _ => (128, 512, 500),
        },
    }
}

// Valid graph sheets.

/// A graph before its edges are numbered. Place 0 is block 1.
struct Draft {
    costs: Vec<usize>,
    successors: Vec<Vec<usize>>,
}

impl Draft {
    fn empty(blocks: usize) -> Draft {
        let mut costs = vec![1; blocks];
        costs[0] = 0;
        costs[1] = 0;
        Draft { costs, successors: vec![Vec::new(); blocks] }
    }

    fn blocks(&self) -> usize {
        self.costs.len()
    }

    fn edges(&self) -> usize {
        self.successors.iter().map(|targets| targets.len()).sum()
    }

    fn add(&mut self, from: usize, to: usize) {
        self.successors[from - 1].push(to);
    }

    /// The sheet of the first version.
    fn sheet(&self, random: &mut Random, budget: usize) -> Vec<u16> {
        self.behind(random, &[self.blocks(), self.edges(), budget])
    }

    /// The sheet of the second version.
    fn second_sheet(&self, random: &mut Random, budgets: &[usize]) -> Vec<u16> {
        let header = [&[0, self.blocks(), self.edges(), budgets.len()], budgets].concat();
        self.behind(random, &header)
    }

    /// The records of this draft behind a header, the edges numbered in order, backwards or shuffled.
    fn behind(&self, random: &mut Random, header: &[usize]) -> Vec<u16> {
        let edges = self.edges();
        let mut numbers: Vec<usize> = (1..=edges).collect();
        match random.below(4) {
            0 => {}
            1 => numbers.reverse(),
            _ => random.shuffle(&mut numbers),
        }
        let mut words = vec![0; header.len() + 2 * self.blocks() + 2 * edges];
        for (index, word) in header.iter().enumerate() {
            set(&mut words, index, *word);
        }
        let at = Places { blocks_at: header.len(), blocks: self.blocks() };
        let mut used = 0;
        for block in 1..=self.blocks() {
            set(&mut words, at.cost(block), self.costs[block - 1]);
            // The word that must name the next edge of this block's chain.
            let mut link = at.first(block);
            for target in &self.successors[block - 1] {
                let number = numbers[used];
                used += 1;
                set(&mut words, link, number);
                set(&mut words, at.target(number), *target);
                link = at.next(number);
            }
            set(&mut words, link, 0);
        }
        words
    }
}

/// Where the words of the records stand.
struct Places {
    blocks_at: usize,
    blocks: usize,
}

impl Places {
    fn cost(&self, block: usize) -> usize {
        self.blocks_at + 2 * block - 2
    }
    fn first(&self, block: usize) -> usize {
        self.blocks_at + 2 * block - 1
    }
    fn target(&self, edge: usize) -> usize {
        self.blocks_at + 2 * self.blocks + 2 * edge - 2
    }
    fn next(&self, edge: usize) -> usize {
        self.blocks_at + 2 * self.blocks + 2 * edge - 1
    }
}

/// Any block that may have successors.
fn any_source(random: &mut Random, blocks: usize) -> usize {
    match random.between(2, blocks) {
        2 => 1,
        block => block,
    }
}

/// The edges of a draft, at most `edges` and at least one, in one of many shapes.
fn draft_edges(random: &mut Random, draft: &mut Draft, edges: usize) {
    let blocks = draft.blocks();
    // The start, the other blocks in some order, the exit.
    let mut order: Vec<usize> = (3..=blocks).collect();
    if random.chance(50) {
        random.shuffle(&mut order);
    }
    order.insert(0, 1);
    order.push(2);

    match random.below(8) {
        // The start with only an edge to the exit, the rest scattered.
        0 => {
            draft.add(1, 2);
            if blocks > 2 {
                for _ in 1..edges {
                    let from = random.between(3, blocks);
                    draft.add(from, random.between(2, blocks));
                }
            }
        }
        // Scattered.
        1 | 2 => {
            for _ in 0..edges {
                let from = any_source(random, blocks);
                draft.add(from, random.between(2, blocks));
            }
        }
        // Forward only: no loops.
        3 => {
            for _ in 0..edges {
                let from = random.below(order.len() - 1);
                let to = random.between(from + 1, order.len() - 1);
                draft.add(order[from], order[to]);
            }
        }
        // A path from the start to the exit, and more edges around it.
        shape => {
            let length = edges.min(blocks - 1);
            let mut path = order[..length].to_vec();
            path.push(2);
            for pair in path.windows(2) {
                draft.add(pair[0], pair[1]);
            }
            for _ in length..edges {
                let from = any_source(random, blocks);
                let on_path = path[random.below(path.len() - 1)];
                match if shape == 4 { 4 } else { random.below(6) } {
                    // A self loop, or for the start a parallel edge.
                    0 | 1 if on_path != 1 => draft.add(on_path, on_path),
                    0 | 1 => draft.add(1, path[1]),
                    // A parallel edge.
                    2 => {
                        let index = random.below(path.len() - 1);
                        draft.add(path[index], path[index + 1]);
                    }
                    // A way out.
                    3 => draft.add(on_path, 2),
                    // Anything.
                    _ => draft.add(from, random.between(2, blocks)),
                }
            }
        }
    }
    if random.chance(50) {
        for targets in &mut draft.successors {
            random.shuffle(targets);
        }
    }
}

fn draft_costs(random: &mut Random, draft: &mut Draft, budget: usize) {
    let style = random.below(6);
    for block in 3..=draft.blocks() {
        draft.costs[block - 1] = match style {
            0 => 1,
            1 => random.between(1, 2),
            2 => random.between(1, 4),
            3 => random.between(1, 1 + budget / 4),
            4 => random.between(1, budget + 1),
            _ if random.chance(20) => {
                let any = random.between(1, 65535);
                random.pick(&[budget, budget + 1, 500, 501, 32768, 65535, any]).max(1)
            }
            _ => random.between(1, 3),
        };
    }
}

/// A budget up to `most`, often at or next to a completion cost of the start.
fn draft_budget(random: &mut Random, draft: &Draft, most: usize) -> usize {
    let words = draft.sheet(random, most);
    let table = completion_table(&words, 0);
    let costs: Vec<usize> = (0..=most).filter(|cost| table.get(*cost) == Some(&1)).collect();
    let aimed = random.chance(75);
    let budget = match random.below(10) {
        0 | 1 | 2 | 3 if aimed => random.pick(&costs),
        4 | 5 if aimed => random.pick(&costs) + 1,
        6 if aimed => random.pick(&costs).saturating_sub(1),
        7 | 8 if aimed => costs.first().map_or(0, |least| least + random.below(6)),
        8 => 0,
        9 => most,
        _ => random.between(0, most),
    };
    budget.min(most)
}

/// 1 to 4 budgets up to `most`, strictly rising: at and next to completion costs of the start, below the least of them, between the
/// same two of them, so that start copies are equal, and anywhere.
fn draft_budgets(random: &mut Random, draft: &Draft, most: usize) -> Vec<usize> {
    let words = draft.sheet(random, most);
    let table = completion_table(&words, 0);
    let costs: Vec<usize> = (0..=most).filter(|cost| table.get(*cost) == Some(&1)).collect();
    let number = random.between(1, 4);
    let mut budgets = Vec::new();
    for _ in 0..30 {
        if budgets.len() == number {
            break;
        }
        let near = random.pick(&costs);
        let before = budgets.last().copied().unwrap_or(near);
        let any = random.between(0, most);
        let least = costs.first().copied().unwrap_or(0);
        let budget = match random.below(12) {
            0..=3 => near,
            4 => near + 1,
            5 => near.saturating_sub(1),
            6 => least.saturating_sub(random.between(1, 3)),
            7 | 8 => before + 1,
            9 => most,
            _ => any,
        };
        let budget = budget.min(most);
        if !budgets.contains(&budget) {
            budgets.push(budget);
        }
    }
    budgets.sort();
    budgets
}

/// Blocks in a row, each with a self loop and an edge to the next: 2 + K * (B - K + 1) copies.
/// Around 4,096 copies and 8,192 edges; 46 blocks with budget 134 give exactly 4,096 copies and
/// 8,188 edges and one for each edge of the start.
pub fn graph_near_the_limits(random: &mut Random) -> Vec<u16> {
    let row = if random.chance(60) { 46 } else { random.between(9, 100) };
    let mut budget = row - 1 + 4094 / row;
    if random.chance(25) {
        budget += 1;
    }
    let extra_block = random.chance(25);
    let blocks = 2 + row + usize::from(extra_block);
    let mut draft = Draft::empty(blocks);
    for _ in 0..random.between(1, 6) {
        draft.add(1, 3);
    }
    for block in 3..3 + row {
        draft.add(block, block);
        draft.add(block, if block == 2 + row { 2 } else { block + 1 });
    }
    if extra_block {
        draft.add(1, blocks);
        draft.add(blocks, 2);
    }
    draft.sheet(random, budget)
}

/// The same row of blocks in the second version, with four start copies: 5 + K * (B - K + 1) copies. 10 blocks with a largest budget of
/// 418 and one block more give exactly 4,096 copies.
pub fn second_graph_near_the_limits(random: &mut Random) -> Vec<u16> {
    let row = if random.chance(60) { 10 } else { random.between(9, 100) };
    let mut budget = row - 1 + 4090 / row;
    if random.chance(25) {
        budget += 1;
    }
    let extra_edges = random.pick(&[0, 1, 3, 4, 4, 5]);
    let blocks = 2 + row + usize::from(extra_edges > 0);
    let mut draft = Draft::empty(blocks);
    for _ in 0..random.pick(&[1, 1, 1, 2, 3]) {
        draft.add(1, 3);
    }
    for block in 3..3 + row {
        draft.add(block, block);
        draft.add(block, if block == 2 + row { 2 } else { block + 1 });
    }
    if extra_edges > 0 {
        draft.add(1, blocks);
    }
    for _ in 0..extra_edges {
        draft.add(blocks, 2);
    }
    let fewer = random.pick(&[0, 0, 0, 1, 2, 3]);
    let budgets: Vec<usize> = (budget - 3 + fewer..=budget).collect();
    draft.second_sheet(random, &budgets)
}

/// A draft of this size, and the most that its budget may be.
fn any_draft(random: &mut Random, size: Size) -> (Draft, usize) {
    let (most_blocks, most_edges, most_budget) = limits(random, size);
    let full = random.chance(10);
    let mut blocks = random.between(2, most_blocks).max(random.between(2, most_blocks));
    let mut edges = random.between(1, most_edges).max(random.between(1, most_edges));
    if full {
        (blocks, edges) = (most_blocks, most_edges);
    }
    let mut draft = Draft::empty(blocks);
    draft_edges(random, &mut draft, edges);
    draft_costs(random, &mut draft, most_budget);
    (draft, most_budget)
}

/// A valid graph sheet of the first version.
pub fn valid_graph(random: &mut Random, size: Size) -> Vec<u16> {
    if size == Size::Any && random.chance(4) {
        return graph_near_the_limits(random);
    }
    let (draft, most) = any_draft(random, size);
    let budget = draft_budget(random, &draft, most);
    draft.sheet(random, budget)
}

/// A valid graph sheet of the second version, with 1 to 4 budgets.
pub fn second_graph(random: &mut Random, size: Size) -> Vec<u16> {
    if size == Size::Any && random.chance(4) {
        return second_graph_near_the_limits(random);
    }
    let (draft, most) = any_draft(random, size);
    let budgets = draft_budgets(random, &draft, most);
    draft.second_sheet(random, &budgets)
}

// Damaged graph sheets.

/// Whether a graph sheet may stand for this size: a tiny one is within the tiny limits, or it is
/// a short row that is refused before its records are read (1 to 4, 41).
fn graph_suits(size: Size, words: &[u16]) -> bool {
    if size != Size::Tiny {
        return true;
    }
    let (blocks, edges) = super::sizes(words);
    let within = blocks <= 5 && edges <= 8 && largest(&super::budgets(words)) <= 8;
    words.len() <= 40 && (within || matches!(check_graph(words), 1..=4 | 41))
}

/// One damage to a graph sheet that was of this version; it may have been damaged before.
fn damage_graph(random: &mut Random, words: &mut Vec<u16>, second: bool) {
    let layout = Layout::as_version(words, second);
    let sizes_at = layout.sizes_at();
    let (blocks, edges) = (get(words, sizes_at), get(words, sizes_at + 1));
    let at = Places { blocks_at: layout.blocks_at(), blocks };
    let block = random.between(1, blocks.max(1));
    let edge = random.between(1, edges.max(1));
    match random.below(14) {
        0 => change_a_word(random, words, layout),
        1 => {
            change_a_word(random, words, layout);
            change_a_word(random, words, layout);
        }
        2 | 13 => change_the_length(random, words),
        // Header words at and past each limit, with or without the row's length to match.
        3 | 4 => {
            match random.below(3) {
                0 => set(words, sizes_at, random.pick(&[0, 1, 2, 3, 127, 128, 129, 65535])),
                1 => set(words, sizes_at + 1, random.pick(&[0, 1, 2, 511, 512, 513, 65535])),
                _ => {
                    let value = random.pick(&[0, 1, 499, 500, 501, 501, 502, 65535]);
                    let budget = if second { random.below(layout.budgets) } else { 0 };
                    set(words, layout.budgets_at() + budget, value);
                }
            }
            let needed = layout.blocks_at() + 2 * get(words, sizes_at) + 2 * get(words, sizes_at + 1);
            if words.len() >= 3 && needed < 1400 && random.chance(60) {
                words.resize(needed, 0);
            }
        }
        // Targets 0, 1, N + 1.
        5 => set(words, at.target(edge), random.pick(&[0, 1, blocks + 1, 65535])),
        // Costs.
        6 => match random.below(3) {
            0 => set(words, at.cost(1), random.between(1, 3)),
            1 => set(words, at.cost(2), random.between(1, 3)),
            _ => set(words, at.cost(random.between(3, blocks)), 0),
        },
        // An edge whose next is itself, or past the edges.
        7 => set(words, at.next(edge), random.pick(&[edge, edge, edges + 1, 65535])),
        // A chain shared by two blocks, or joined to a chain.
        8 => {
            let first = get(words, at.first(block));
            if random.chance(50) {
                let other = any_source(random, blocks);
                set(words, at.first(other), first);
            } else {
                set(words, at.next(edge), first);
            }
        }
        // A missed edge: a chain cut off, cut through, or begun too late.
        9 => match random.below(3) {
            0 => set(words, at.first(block), 0),
            1 => set(words, at.next(edge), 0),
            _ => {
                let first = get(words, at.first(block));
                if first != 0 {
                    let second = get(words, at.next(first));
                    set(words, at.first(block), second);
                }
            }
        },
        // A sound chain at the exit.
        10 | 11 => {
            let sources: Vec<usize> = (1..=blocks)
                .filter(|source| *source != 2 && get(words, at.first(*source)) != 0)
                .collect();
            let source = random.pick(&sources);
            if source != 0 {
                let first = get(words, at.first(source));
                let rest = get(words, at.next(first));
                if rest != 0 && random.chance(50) {
                    // The exit takes the chain's rest, the source keeps its first edge.
                    set(words, at.first(2), rest);
                    set(words, at.next(first), 0);
                } else {
                    set(words, at.first(2), first);
                    set(words, at.first(source), 0);
                }
            }
        }
        // An unsound chain at the exit.
        _ => set(words, at.first(2), random.pick(&[edge, edge, edges + 1])),
    }
}

/// A graph sheet of the first version with one damage or two. Now and then it is still accepted.
pub fn damaged_graph(random: &mut Random, size: Size) -> Vec<u16> {
    for _ in 0..100 {
        let mut words = valid_graph(random, size);
        damage_graph(random, &mut words, false);
        if random.chance(15) {
            damage_graph(random, &mut words, false);
        }
        if graph_suits(size, &words) {
            return words;
        }
    }
    valid_graph(random, size)
}

/// One damage to the header of a graph sheet of the second version.
fn damage_second_header(random: &mut Random, words: &mut Vec<u16>) {
    let number = get(words, 3);
    let (blocks, edges) = (get(words, 1), get(words, 2));
    match random.below(10) {
        // A row that ends before its records: `0`, `0 N`, `0 N E`, before its budgets, among them, or right behind them.
        0 | 1 => words.truncate(random.between(1, 4 + number)),
        // Another number of budgets, without the row's length to match.
        2 => set(words, 3, random.pick(&[0, 1, number + 1, number.saturating_sub(1), 4, 5, 65535])),
        // No budget, or five and more, with the row's length to match.
        3 => {
            words.drain(4..(4 + number).min(words.len()));
            set(words, 3, 0);
        }
        4 | 5 => {
            let more = random.pick(&[5 - number.min(5), 5 - number.min(5), 6, 20]);
            for index in 0..more {
                let last = largest(&super::budgets(words));
                let budget = random.pick(&[last + 1, last + 1, last + 1, last, 0, 501]);
                let at = (4 + number + index).min(words.len());
                words.insert(at, budget.min(65535) as u16);
                set(words, 3, number + index + 1);
            }
        }
        // Equal budgets, falling ones.
        6 => {
            let place = random.below(number.saturating_sub(1));
            let budget = get(words, 4 + place);
            set(words, 5 + place, random.pick(&[budget, budget, budget.saturating_sub(1)]));
        }
        7 if number > 1 && words.len() > 4 + number => {
            let (one, other) = (random.below(number), random.below(number));
            words.swap(4 + one, 4 + other);
        }
        // The records behind a header of the first version, or the first word no longer 0.
        8 => {
            let header = [blocks as u16, edges as u16, get(words, 4) as u16];
            let behind = (4 + number).min(words.len());
            *words = [&header[..], &words[behind..]].concat();
        }
        _ => set(words, 0, random.pick(&[1, 2, blocks, 65535])),
    }
}

/// A graph sheet of the second version with one damage or two. Now and then it is still accepted.
pub fn damaged_second_graph(random: &mut Random, size: Size) -> Vec<u16> {
    for _ in 0..100 {
        let mut words = second_graph(random, size);
        if random.chance(50) {
            damage_second_header(random, &mut words);
        } else {
            damage_graph(random, &mut words, true);
        }
        if random.chance(15) {
            damage_graph(random, &mut words, true);
        }
        if graph_suits(size, &words) {
            return words;
        }
    }
    second_graph(random, size)
}

/// A sheet of the second version with more budgets than there may be, up to 65,535 or as many as make `most_words` words with the
/// records, mostly of a fitting length: 4 where one of them is above 500, wherever it stands, else 41.
pub fn many_budgets(random: &mut Random, most_words: usize) -> Vec<u16> {
    let graph = valid_graph(random, Size::Tiny);
    let records = &graph[3..];
    let most = (most_words.saturating_sub(4 + records.len())).min(65535);
    let any = random.between(5, most);
    let number = random.pick(&[5, 6, 7, 8, 100, 1278, 1284, 1285, 1300, any, any, most, most]).min(most);
    let mut words = vec![0, graph[0], graph[1], number as u16];
    let rising = random.chance(50);
    let constant = random.below(501);
    words.extend((0..number).map(|place| if rising { place.min(500) } else { constant } as u16));
    // One above 500, or none.
    if random.chance(50) {
        let place = random.below(number);
        let place = random.pick(&[place, place, number - 1, 0]);
        words[4 + place] = random.pick(&[501, 501, 65535]) as u16;
    }
    words.extend(records);
    match random.below(10) {
        0 => words.truncate(words.len() - 1),
        1 if words.len() < most_words => words.push(0),
        2 => words.truncate(4 + random.below(number)),
        _ => {}
    }
    words
}

// Graph sheets for a comparison.

/// A graph sheet of the first version whose build is accepted with a handler of cost 0.
pub fn buildable_graph(random: &mut Random, size: Size) -> Vec<u16> {
    for _ in 0..100 {
        let words = valid_graph(random, size);
        if built_words(&words, 0).is_some() {
            return words;
        }
    }
    vec![2, 1, 0, 0, 1, 0, 0, 2, 0]
}

/// A graph sheet of the second version whose build is accepted with a handler of cost 0.
pub fn buildable_second_graph(random: &mut Random, size: Size) -> Vec<u16> {
    for _ in 0..100 {
        let words = second_graph(random, size);
        if built_words(&words, 0).is_some() {
            return words;
        }
    }
    vec![0, 2, 1, 2, 0, 1, 0, 1, 0, 0, 2, 0]
}

/// A graph sheet of either version that is valid in so many cases of a hundred.
pub fn graph_words(random: &mut Random, size: Size, valid: usize) -> Vec<u16> {
    match (random.chance(50), random.chance(valid)) {
        (false, true) => valid_graph(random, size),
        (false, false) => damaged_graph(random, size),
        (true, true) => second_graph(random, size),
        (true, false) => damaged_second_graph(random, size),
    }
}
