// The paths of a graph sheet of either version, enumerated one by one.
// It rests on the sheet's words alone, and on nothing of the library.

/// The number of blocks, and where the block records begin.
fn blocks_at(words: &[u16]) -> (usize, usize) {
    if words[0] == 0 {
        (words[1] as usize, 4 + words[3] as usize)
    } else {
        (words[0] as usize, 3)
    }
}

pub fn blocks(words: &[u16]) -> u16 {
    blocks_at(words).0 as u16
}

/// The budgets, one in the first version.
pub fn budgets(words: &[u16]) -> Vec<usize> {
    let named = if words[0] == 0 { &words[4..4 + words[3] as usize] } else { &words[2..3] };
    named.iter().map(|budget| *budget as usize).collect()
}

pub fn largest_budget(words: &[u16]) -> usize {
    *budgets(words).last().unwrap()
}

/// The targets of a block, read from the words.
pub fn targets(words: &[u16], block: u16) -> Vec<u16> {
    let (blocks, at) = blocks_at(words);
    let mut found = Vec::new();
    let mut edge = words[at + 2 * (block as usize - 1) + 1] as usize;
    while edge != 0 {
        found.push(words[at + 2 * blocks + 2 * (edge - 1)]);
        edge = words[at + 2 * blocks + 2 * (edge - 1) + 1] as usize;
    }
    found
}

pub fn cost(words: &[u16], block: u16) -> usize {
    words[blocks_at(words).1 + 2 * (block as usize - 1)] as usize
}

/// Every path from a block to the exit costing at most `left`, as choices with blocks and cost.
/// Blocks other than 1 and 2 cost at least 1, so there are finitely many.
pub fn paths(words: &[u16], block: u16, left: usize) -> Vec<(Vec<u32>, Vec<u16>, usize)> {
    if cost(words, block) > left {
        return Vec::new();
    }
    if block == 2 {
        return vec![(vec![], vec![2], 0)];
    }
    let mut all = Vec::new();
    for (index, target) in targets(words, block).iter().enumerate() {
        for (choices, blocks, rest) in paths(words, *target, left - cost(words, block)) {
            let choices = [vec![index as u32 + 1], choices].concat();
            let blocks = [vec![block], blocks].concat();
            all.push((choices, blocks, cost(words, block) + rest));
        }
    }
    all
}

/// The number of paths, to keep clear of sheets with too many.
pub fn number_of_paths(words: &[u16], block: u16, left: usize) -> usize {
    if cost(words, block) > left {
        return 0;
    }
    if block == 2 {
        return 1;
    }
    let rest = left - cost(words, block);
    targets(words, block).iter().map(|target| number_of_paths(words, *target, rest)).sum()
}
