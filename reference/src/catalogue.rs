// Catalogues: those of stored runs, two of 200 large sheets, and random ones. Each sheet is preceded by a word with its length in words.
// It rests on corpus.rs and random/, and on cheapest.rs to put blocks on paths that just fit or just do not.

use crate::cheapest::cheapest_ways;
use crate::corpus::{
    at_the_limits, encoded, hostile_headers, longest_margins, one_block, refusals, second_at_the_limits, second_examples, second_refusals,
};
use crate::graph::{budgets_sheet, graph_sheet, paper_example, with_budgets, Graph};
use crate::random::{
    buildable_graph, buildable_second_graph, damaged_graph, damaged_second_graph, graph_near_the_limits, many_budgets, second_graph,
    second_graph_near_the_limits, valid_graph, Random, Size,
};

/// 128 blocks and 512 edges: 1,283 words, the most that a sheet may have. Block 1 goes to 3 to 10, every other to the next block,
/// the exit, itself and the exit.
fn longest(costs: impl Fn(u16) -> u16, budget: u16) -> Vec<u16> {
    let mut all_costs = vec![0, 0];
    let mut successors = vec![(3..=10).collect(), vec![]];
    for block in 3..=128 {
        all_costs.push(costs(block));
        successors.push(vec![if block == 128 { 2 } else { block + 1 }, 2, block, 2]);
    }
    graph_sheet(&all_costs, &successors, budget)
}

/// The same graph with four budgets: 1,288 words, the most that a sheet of the second version may have.
fn second_longest(costs: impl Fn(u16) -> u16, budget: u16) -> Vec<u16> {
    with_budgets(&longest(costs, budget), &[0, budget / 2 + 1, budget / 2 + 2, budget.max(3)])
}

/// The sheet with this word in place of N and so many words, filled up with 0.
fn lengthened(mut words: Vec<u16>, blocks: u16, length: usize) -> Vec<u16> {
    let at = usize::from(words[0] == 0);
    words[at] = blocks;
    words.resize(length, 0);
    words
}

/// The catalogue of the program's stored run (crates/report/stdin); `reference catalogue_example` writes it.
pub fn example() -> Vec<u8> {
    // The paper's example, the loop, twice the same target, each refusal, an empty sheet.
    let mut sheets: Vec<Vec<u16>> = [4, 5, 8, 9, 12].iter().map(|budget| paper_example(*budget)).collect();
    sheets.extend([one_block(3, &[3, 2], 7), one_block(3, &[3, 2], 9), one_block(1, &[2, 2], 1)]);
    sheets.extend(refusals());
    sheets.push(vec![]);

    // Blocks 4 and 5 out of reach.
    sheets.push(graph_sheet(&[0, 0, 2, 1, 1], &[vec![3], vec![], vec![2], vec![5, 3], vec![2]], 8));
    // Block 4 itself too dear by one cycle, then just within the budget.
    let dear = |budget| graph_sheet(&[0, 0, 2, 9], &[vec![3, 4], vec![], vec![2], vec![2]], budget);
    sheets.extend([dear(8), dear(9)]);
    // Block 4 would fit by itself, but not after block 3.
    sheets.push(graph_sheet(&[0, 0, 6, 3], &[vec![3], vec![], vec![4, 2], vec![2]], 8));
    // Block 4 a dead end, 5 a loop with no way out, 6 dearer than any budget.
    let ends = [vec![3], vec![], vec![4, 5, 6, 2], vec![], vec![5], vec![2]];
    sheets.push(graph_sheet(&[0, 0, 1, 1, 1, 65535], &ends, 500));

    // The greatest fraction, 403/3, twice: the second time as 806/6. Before and after them 402/3, equal when rounded.
    let loops = |budget| one_block(1, &[3, 2], budget);
    let two_loops = [vec![3, 4], vec![], vec![3, 2], vec![4, 2], vec![2], vec![]];
    sheets.extend([loops(400), loops(401), graph_sheet(&[0, 0, 1, 1, 1, 1], &two_loops, 402), loops(400)]);
    // So many at the limits of copies and edges that the totals do not fit a word.
    sheets.extend(vec![at_the_limits(4, false); 16]);

    // 1,283 words, accepted; one word more, refused 3; 129 blocks and their 1,285 words, refused 2; and on with the next sheet.
    let full = longest(|block| 40 + 7 * block % 30, 300);
    sheets.extend([full.clone(), lengthened(full.clone(), 128, 1284), lengthened(full, 129, 1285), paper_example(11)]);

    // A sheet of 129 blocks without the upper byte of its last word: a length beyond the words left is 3, not 2; an odd last byte.
    sheets.push(vec![129, 1, 0, 0, 1, 0, 0, 2, 0]);
    let mut bytes = encoded(&sheets);
    bytes.pop();
    bytes
}

/// The catalogue of a stored run with sheets of the second version; `reference catalogue_second` writes it.
pub fn second_example() -> Vec<u8> {
    // Several budgets, each refusal, hostile headers, and one sheet of the first version between them.
    let mut sheets = second_examples();
    sheets.push(paper_example(9));
    sheets.extend(second_refusals());
    sheets.extend(hostile_headers().into_iter().filter(|sheet| sheet.len() < 1000));

    // Block 4 too dear for the smaller budget alone, then for both by one cycle, then within the larger one.
    let dear = |budgets: &[u16]| budgets_sheet(&[0, 0, 2, 9], &[vec![3, 4], vec![], vec![2], vec![2]], budgets);
    sheets.extend([dear(&[2, 9]), dear(&[2, 8]), dear(&[1, 2, 8, 9])]);
    // The loop with four budgets has three start copies more than with one.
    let loops = |budgets: &[u16]| with_budgets(&one_block(1, &[3, 2], 1), budgets);
    sheets.extend([loops(&[401]), loops(&[398, 399, 400, 401])]);
    // At the limits of copies and edges, which is the greatest fraction, twice, and one edge above.
    sheets.extend([second_at_the_limits(1, 4, false), second_at_the_limits(1, 4, false), second_at_the_limits(1, 5, false)]);
    // 1,288 words, accepted; one word more, refused 3; 129 blocks, refused 2.
    let full = second_longest(|block| 40 + 7 * block % 30, 300);
    sheets.extend([full.clone(), lengthened(full.clone(), 128, 1289), lengthened(full, 129, 1290)]);
    // More budgets than there may be: 41, and 4 where the last of 1,500 is above 500.
    let many = |last: u16| budgets_sheet(&[0, 0], &[vec![2], vec![]], &[vec![7; 1499], vec![last]].concat());
    sheets.extend([many(500), many(501)]);
    // A header that is cut with the catalogue: a length beyond the words left is 3, and not 2.
    sheets.push(vec![0, 1, 1]);
    let mut bytes = encoded(&sheets);
    bytes.pop();
    bytes
}

/// 200 sheets at the limits of copies and edges, by turns of the first version and of the second with four budgets; `reference
/// catalogue_full` writes them.
pub fn full() -> Vec<u8> {
    encoded(&[at_the_limits(4, false), second_at_the_limits(1, 4, false)]).repeat(100)
}

/// 200 sheets of 4,096 copies with margins of many characters, by turns with one budget and with four; `reference catalogue_long_lines`
/// writes them.
pub fn long_lines() -> Vec<u8> {
    encoded(&[longest_margins(false), longest_margins(true)]).repeat(100)
}

/// A graph whose build is accepted, with up to 4 more blocks: out of reach, dead ends, loops with no way out, and blocks on a path
/// that costs B, a cycle less or more, or far more, where B is mostly the largest budget.
fn with_more_blocks(random: &mut Random, size: Size) -> Vec<u16> {
    let words = if random.chance(50) { buildable_graph(random, size) } else { buildable_second_graph(random, size) };
    let Ok(graph) = Graph::read(&words, 0) else {
        return words;
    };
    let ways = cheapest_ways(&graph);
    let reached: Vec<usize> = (1..=graph.blocks).filter(|block| *block != 2 && ways[*block].is_some()).collect();
    let mut costs: Vec<u16> = (1..=graph.blocks).map(|block| graph.cost(block) as u16).collect();
    let mut successors: Vec<Vec<u16>> =
        (1..=graph.blocks).map(|block| graph.successors(block).iter().map(|target| *target as u16).collect()).collect();
    for _ in 0..random.between(1, 4) {
        let edges: usize = successors.iter().map(Vec::len).sum();
        if costs.len() == 128 || edges > 510 {
            break;
        }
        let block = costs.len() as u16 + 1;
        let from = random.pick(&reached);
        // What the budget leaves for the new block after the cheapest way through `from`.
        let spent = ways[from].unwrap_or(0) + graph.cost(from);
        let budget = if random.chance(80) { graph.largest_budget() } else { random.pick(&graph.budgets) };
        let left = budget.saturating_sub(spent);
        let mut cost = random.between(1, 5);
        let mut targets = Vec::new();
        let kind = random.below(7);
        match kind {
            0 => targets.push(random.between(2, usize::from(block)) as u16),
            1 => {}
            2 => targets.push(block),
            _ => {
                cost = random.pick(&[left, left, left + 1, left + 1, left.saturating_sub(1), 65535]).max(1);
                targets.push(2);
            }
        }
        if kind != 0 {
            let at = random.between(0, successors[from - 1].len());
            successors[from - 1].insert(at, block);
        }
        costs.push(cost as u16);
        successors.push(targets);
    }
    if graph.second {
        let budgets: Vec<u16> = graph.budgets.iter().map(|budget| *budget as u16).collect();
        return budgets_sheet(&costs, &successors, &budgets);
    }
    graph_sheet(&costs, &successors, graph.largest_budget() as u16)
}

/// A sheet of 1,282 words or more: at the limits of blocks and edges, or past them, or with words too many.
fn long_sheet(random: &mut Random) -> Vec<u16> {
    let (least, step) = (random.between(1, 80) as u16, random.between(0, 30) as u16);
    let budget = random.pick(&[0, 100, 300, 499, 500, 501]) as u16;
    let costs = |block| least + step * block % 60;
    // The length of a full sheet of this version.
    let (full, length) = match random.chance(50) {
        false => (longest(costs, budget), 1283),
        true => (second_longest(costs, budget), 1288),
    };
    let any = random.between(1284, 65535);
    let far = random.pick(&[1284, 2000, any, any, 65535]);
    match random.below(9) {
        0 => full,
        1 => lengthened(full, 128, random.pick(&[length - 1, length + 1, length + 2])),
        2 => lengthened(full, 129, random.pick(&[length, length + 2, far])),
        8 => many_budgets(random, 65535),
        3 => lengthened(full, random.pick(&[0, 1, 127, 128, 128, 65535]) as u16, far),
        4 => (0..far).map(|_| random.draw() as u16).collect(),
        _ => {
            let mut words = if random.chance(50) { valid_graph(random, Size::Small) } else { second_graph(random, Size::Small) };
            words.resize(far, random.below(4) as u16);
            words
        }
    }
}

// Sheets of either version.

fn any_valid(random: &mut Random, size: Size) -> Vec<u16> {
    if random.chance(50) {
        valid_graph(random, size)
    } else {
        second_graph(random, size)
    }
}

fn any_damaged(random: &mut Random, size: Size) -> Vec<u16> {
    if random.chance(50) {
        damaged_graph(random, size)
    } else {
        damaged_second_graph(random, size)
    }
}

fn near_the_limits(random: &mut Random) -> Vec<u16> {
    if random.chance(50) {
        graph_near_the_limits(random)
    } else {
        second_graph_near_the_limits(random)
    }
}

/// The corpora's valid and damaged sheets, and those that only a catalogue has.
fn any_sheet(random: &mut Random, earlier: &[Vec<u16>]) -> Vec<u16> {
    match random.below(100) {
        0..=2 => vec![],
        3 => (0..random.below(40)).map(|_| random.draw() as u16).collect(),
        4..=6 => long_sheet(random),
        7 => near_the_limits(random),
        // One that was there before: an equal fraction.
        8..=13 if !earlier.is_empty() => earlier[random.below(earlier.len())].clone(),
        8..=25 => with_more_blocks(random, Size::Small),
        26..=30 => with_more_blocks(random, Size::Any),
        31..=40 => with_more_blocks(random, Size::Tiny),
        41..=48 => any_valid(random, Size::Any),
        49..=62 => any_valid(random, Size::Small),
        63..=72 => any_valid(random, Size::Tiny),
        73..=75 => any_damaged(random, Size::Any),
        76..=85 => any_damaged(random, Size::Small),
        _ => any_damaged(random, Size::Tiny),
    }
}

/// How a catalogue ends: mostly with its last sheet; else cut through it, or with a length and fewer words; now and then an odd byte.
fn ended(random: &mut Random, mut bytes: Vec<u8>) -> Vec<u8> {
    match random.below(10) {
        0 => bytes.truncate(bytes.len().saturating_sub(random.between(1, 3))),
        1 => bytes.truncate(random.between(0, bytes.len())),
        2 | 3 => {
            let words = random.below(6);
            let length = words + random.pick(&[1, 1, 2, 7, 65535 - words]);
            bytes.extend((length as u16).to_le_bytes());
            bytes.extend((0..words).flat_map(|_| [random.below(5) as u8, 0]));
        }
        _ => {}
    }
    if random.chance(20) {
        bytes.push(random.draw() as u8);
    }
    bytes
}

/// A random catalogue of about `count` sheets; now and then of none, or of 200 and more, or near the limits, with great totals.
pub fn catalogue(seed: u64, count: usize) -> Vec<u8> {
    let mut random = Random::new(seed);
    // How many sheets, and how many of a hundred are near the limits.
    let (number, hard) = match random.below(16) {
        0 => (random.below(3), 0),
        1 => (random.pick(&[199, 200, 201, 202, 240]), 0),
        2 => (random.between(40, 80), 80),
        _ => (random.between(count - count / 2, count + count / 2), 0),
    };
    let mut sheets = Vec::new();
    while sheets.len() < number {
        let near = random.chance(hard);
        let sheet = if near { near_the_limits(&mut random) } else { any_sheet(&mut random, &sheets) };
        sheets.push(sheet);
    }
    ended(&mut random, encoded(&sheets))
}

/// A random catalogue of at most 3 sheets of this size.
pub fn short_catalogue(random: &mut Random, size: Size) -> Vec<u8> {
    let mut sheets: Vec<Vec<u16>> = Vec::new();
    for _ in 0..random.below(4) {
        let sheet = match random.below(12) {
            0 => vec![],
            1 | 2 if !sheets.is_empty() => sheets[0].clone(),
            1..=4 => with_more_blocks(random, size),
            5 => buildable_graph(random, size),
            6 => buildable_second_graph(random, size),
            7 | 8 => any_valid(random, size),
            _ => any_damaged(random, size),
        };
        sheets.push(sheet);
    }
    ended(random, encoded(&sheets))
}
