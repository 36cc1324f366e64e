// A corpus of graph sheets for each version: examples, a sheet for each refusal number, the worst sheets, and random ones.
// It rests on graph.rs and random/. In a corpus file each sheet is preceded by a word with its length in words.

use crate::graph::{budgets_sheet, graph_sheet, paper_example, with_budgets};
use crate::random::{
    damaged_graph, damaged_second_graph, graph_near_the_limits, many_budgets, second_graph, second_graph_near_the_limits, valid_graph, Random, Size,
};

/// Block 3 with a cost, its successors, and the start to it.
pub(crate) fn one_block(cost: u16, successors: &[u16], budget: u16) -> Vec<u16> {
    graph_sheet(&[0, 0, cost], &[vec![3], vec![], successors.to_vec()], budget)
}

fn changed(mut words: Vec<u16>, place: usize, word: u16) -> Vec<u16> {
    words[place] = word;
    words
}

/// The examples, starred or not, in the document's order.
pub fn examples() -> Vec<Vec<u16>> {
    let mut sheets: Vec<Vec<u16>> = [4, 5, 7, 8, 9, 11, 12].iter().map(|budget| paper_example(*budget)).collect();
    sheets.push(vec![2, 1, 0, 0, 1, 0, 0, 2, 0]);
    sheets.push(one_block(3, &[3, 2], 7));
    sheets.push(one_block(3, &[3, 2], 9));
    sheets.push(one_block(1, &[2, 2], 1));
    sheets.push(paper_example(501));
    sheets.push(changed(paper_example(9), 0, 129));
    sheets.push(changed(paper_example(9), 20, 1));
    sheets
}

/// One block of cost 1 with 510 edges to the exit and its edge to itself last: refused 10.
pub fn widest() -> Vec<u16> {
    let mut successors = vec![2; 510];
    successors.push(3);
    one_block(1, &successors, 500)
}

/// 126 blocks of cost 1, each to itself and the exit, and the start to each of them: refused 10.
pub fn most_copies() -> Vec<u16> {
    let mut costs = vec![0, 0];
    let mut successors = vec![(3..=128).collect::<Vec<u16>>(), vec![]];
    for block in 3..=128 {
        costs.push(1);
        successors.push(vec![block, 2]);
    }
    graph_sheet(&costs, &successors, 500)
}

/// A row of 46 blocks, each looping and going on, the start with so many edges to the first: 4,096 copies and 8,188 edges besides
/// the start's. With an extra block there is one copy more.
pub fn at_the_limits(start_edges: usize, extra_block: bool) -> Vec<u16> {
    let blocks = 48 + usize::from(extra_block);
    let mut costs = vec![1; blocks];
    costs[0] = 0;
    costs[1] = 0;
    let mut successors = vec![vec![3; start_edges], vec![]];
    for block in 3..=48 {
        successors.push(vec![block, if block == 48 { 2 } else { block + 1 }]);
    }
    if extra_block {
        successors[0].push(49);
        successors.push(vec![2]);
    }
    graph_sheet(&costs, &successors, 134)
}

/// The worst sheets: the widest and the one with most copies, both refused 10, and those at C = 4,096 and F = 8,192 and one above each.
pub fn worst() -> Vec<Vec<u16>> {
    vec![widest(), most_copies(), at_the_limits(1, false), at_the_limits(4, false), at_the_limits(5, false), at_the_limits(1, true)]
}

/// A sheet for each refusal number of a build with buffers that are long enough.
pub fn refusals() -> Vec<Vec<u16>> {
    vec![
        vec![2, 1],
        vec![1, 1, 0],
        vec![2, 1, 0, 0, 1, 0, 0, 2],
        vec![2, 1, 501, 0, 1, 0, 0, 2, 0],
        vec![2, 1, 0, 1, 1, 0, 0, 2, 0],
        vec![2, 1, 0, 0, 1, 0, 0, 1, 0],
        vec![2, 1, 0, 0, 1, 0, 0, 2, 1],
        vec![2, 1, 0, 0, 0, 0, 1, 2, 0],
        paper_example(4),
        widest(),
    ]
}

/// The corpus: the named sheets, then `count` random ones, valid and damaged.
pub fn corpus(seed: u64, count: usize) -> Vec<Vec<u16>> {
    let mut sheets = examples();
    sheets.extend(refusals());
    let mut random = Random::new(seed);
    for index in 0..count {
        sheets.push(match index % 20 {
            0 if index % 100 == 0 => graph_near_the_limits(&mut random),
            0 => valid_graph(&mut random, Size::Any),
            1..=7 => valid_graph(&mut random, Size::Small),
            8..=12 => valid_graph(&mut random, Size::Tiny),
            13 => damaged_graph(&mut random, Size::Any),
            14..=16 => damaged_graph(&mut random, Size::Small),
            _ => damaged_graph(&mut random, Size::Tiny),
        });
    }
    sheets
}

/// 128 blocks and 4,096 copies with much text in their margins: 128 `none`, 243 of three digits and 3,725 of two. With one budget, or with
/// four: 10, 20, 30 and 500.
///
/// So many copies hardly have more. A block has `none` at most once, and its other margins add up to less than 500: unless some have one digit, at
/// most 245 margins of the blocks from 3 on have three.
pub fn longest_margins(second: bool) -> Vec<u16> {
    let heads: Vec<u16> = (9..128).step_by(10).collect();
    // Block 3 has every multiple of 10; block 4 all but the first, or the first four where there are three start copies more.
    let mut costs = vec![0, 0, 10, if second { 40 } else { 10 }, 90, 90, 9, 1];
    let mut successors = vec![[vec![3, 4, 5, 6, 8], heads.clone()].concat(), vec![], [vec![3, 2, 4, 8], heads].concat(), vec![3]];
    // Block 5 has 100, 110, .. 500, block 6 has 100, 200, 210, .. 500, blocks 7 and 8 have 9, 109, 119, .. 499 and one more than these.
    successors.extend([vec![3], vec![8], vec![2, 5], vec![7]]);
    // Twelve rows of ten blocks: the last has 1, 101, 201, 211, .. 491, each before it one more, and so the first 10, 110, 210, .. 500.
    for block in 9..=128 {
        costs.push(1);
        successors.push(if block % 10 == 8 { vec![2, 6] } else { vec![block + 1] });
    }
    if second {
        return budgets_sheet(&costs, &successors, &[10, 20, 30, 500]);
    }
    graph_sheet(&costs, &successors, 500)
}

// The second version.

/// The paper's example, the loop and the least graphs with several budgets: two, equal start copies, four with nothing for the first,
/// one, the largest that there may be.
pub fn second_examples() -> Vec<Vec<u16>> {
    let paper = |budgets: &[u16]| with_budgets(&paper_example(9), budgets);
    let looping = |budgets: &[u16]| with_budgets(&one_block(3, &[3, 2], 7), budgets);
    vec![
        paper(&[5, 9]),
        paper(&[9, 11]),
        paper(&[4, 5, 9, 12]),
        paper(&[9]),
        paper(&[5, 7, 8, 500]),
        paper(&[0, 1, 4]),
        looping(&[2, 3, 7, 9]),
        looping(&[7, 8]),
        looping(&[0, 1, 2, 3]),
        vec![0, 2, 1, 1, 0, 0, 1, 0, 0, 2, 0],
        vec![0, 2, 1, 4, 0, 1, 2, 500, 0, 1, 0, 0, 2, 0],
    ]
}

/// A row of 10 blocks, each looping and going on, with the budgets 415 to 418, the start with so many edges to the first and one to a
/// block of so many edges to the exit: 4,096 copies and 8,180 edges besides the start's, four times, and that block's. With an extra
/// block there is one copy more.
pub fn second_at_the_limits(start_edges: usize, exit_edges: usize, extra_block: bool) -> Vec<u16> {
    let mut costs = vec![1; 13];
    costs[0] = 0;
    costs[1] = 0;
    let mut successors = vec![vec![3; start_edges], vec![]];
    for block in 3..=12 {
        successors.push(vec![block, if block == 12 { 2 } else { block + 1 }]);
    }
    successors[0].push(13);
    successors.push(vec![2; exit_edges]);
    if extra_block {
        costs.push(1);
        successors[12].push(14);
        successors.push(vec![2]);
    }
    budgets_sheet(&costs, &successors, &[415, 416, 417, 418])
}

/// The worst sheets of the second version: those of the first that are refused 10 with four budgets, and sheets at C = 4,096 and
/// F = 8,192 and one above each.
pub fn second_worst() -> Vec<Vec<u16>> {
    vec![
        with_budgets(&widest(), &[0, 1, 499, 500]),
        with_budgets(&most_copies(), &[0, 1, 499, 500]),
        second_at_the_limits(1, 1, false),
        second_at_the_limits(1, 4, false),
        second_at_the_limits(1, 5, false),
        second_at_the_limits(1, 1, true),
    ]
}

/// A sheet of the second version for each refusal number of a build with buffers that are long enough: 1 to 4, 41, 5 to 10.
pub fn second_refusals() -> Vec<Vec<u16>> {
    vec![
        vec![0, 2],
        vec![0, 2, 513],
        vec![0, 2, 1, 2, 0],
        vec![0, 2, 1, 2, 9, 501, 0, 1, 0, 0, 2, 0],
        vec![0, 2, 1, 2, 9, 9, 0, 1, 0, 0, 2, 0],
        vec![0, 2, 1, 1, 0, 1, 1, 0, 0, 2, 0],
        vec![0, 2, 1, 1, 0, 0, 1, 0, 0, 1, 0],
        vec![0, 2, 1, 1, 0, 0, 1, 0, 0, 2, 1],
        vec![0, 2, 1, 1, 0, 0, 0, 0, 1, 2, 0],
        with_budgets(&paper_example(9), &[0, 3, 4]),
        with_budgets(&widest(), &[3, 500]),
    ]
}

/// Hostile headers: rows that end in the header or before it does, no budget, five and more, equal and falling ones, one above 500
/// among many, and the least sheet of the first version with 0 in place of N.
pub fn hostile_headers() -> Vec<Vec<u16>> {
    let records = [0, 1, 0, 0, 2, 0];
    let with = |budgets: &[u16]| [&[0, 2, 1, budgets.len() as u16], budgets, &records].concat();
    let many = |number: u16, last: u16| with(&(1..=number).map(|place| if place == number { last } else { place.min(500) }).collect::<Vec<u16>>());
    vec![
        vec![0],
        vec![0, 2],
        vec![0, 2, 1],
        vec![0, 1, 1],
        vec![0, 2, 1, 0],
        vec![0, 2, 1, 1],
        vec![0, 2, 1, 65535],
        vec![0, 2, 1, 3, 5, 6],
        vec![0, 2, 1, 65535, 0, 1, 0, 0, 2, 0],
        with(&[]),
        with(&[1, 2, 3, 4, 5]),
        with(&[1, 2, 3, 4, 501]),
        with(&[1, 1]),
        with(&[2, 1]),
        with(&[1, 2, 3, 3]),
        with(&[501, 1]),
        with(&[1, 65535]),
        many(1279, 1),
        many(1279, 501),
        many(65525, 500),
        many(65525, 501),
        [vec![0, 1, 0], records.to_vec()].concat(),
    ]
}

/// One word more than the longest graph sheet has: 4 + 4 + 2 * 128 + 2 * 512.
const LONGER_SHEET: usize = 1289;

/// The corpus of the second version: the named sheets, then `count` random ones, valid and damaged, none of more than 1,289 words.
pub fn second_corpus(seed: u64, count: usize) -> Vec<Vec<u16>> {
    let mut sheets = second_examples();
    sheets.extend(second_refusals());
    sheets.extend(hostile_headers().into_iter().filter(|sheet| sheet.len() <= LONGER_SHEET));
    let mut random = Random::new(seed);
    for index in 0..count {
        sheets.push(match index % 20 {
            0 if index % 100 == 0 => second_graph_near_the_limits(&mut random),
            0 => second_graph(&mut random, Size::Any),
            1..=7 => second_graph(&mut random, Size::Small),
            8..=11 => second_graph(&mut random, Size::Tiny),
            12 => many_budgets(&mut random, LONGER_SHEET),
            13 => damaged_second_graph(&mut random, Size::Any),
            14..=16 => damaged_second_graph(&mut random, Size::Small),
            _ => damaged_second_graph(&mut random, Size::Tiny),
        });
    }
    sheets
}

/// Sheets as bytes, each after its length.
pub fn encoded(sheets: &[Vec<u16>]) -> Vec<u8> {
    let mut bytes = Vec::new();
    for sheet in sheets {
        bytes.extend((sheet.len() as u16).to_le_bytes());
        for word in sheet {
            bytes.extend(word.to_le_bytes());
        }
    }
    bytes
}

/// The sheets of a corpus file, each as its bytes.
pub fn decoded(bytes: &[u8]) -> Vec<&[u8]> {
    let mut sheets = Vec::new();
    let mut rest = bytes;
    while rest.len() >= 2 {
        let length = 2 * (usize::from(rest[0]) + 256 * usize::from(rest[1]));
        let end = (2 + length).min(rest.len());
        sheets.push(&rest[2..end]);
        rest = &rest[end..];
    }
    sheets
}
