// Graph sheets that are measured: the largest graphs, the deepest descent, and families that grow by one number.
// It rests on the reference's `graph_sheet` and `with_budgets`, and its random numbers.

use reference::random::Random;
use reference::{graph_sheet, with_budgets};

/// A graph of so many edges: the start's, then each block in turn gets one to the exit (3 in a hundred) or to any block from 3 on.
fn spread(random: &mut Random, costs: Vec<u16>, start: &[u16], edges: usize, budget: u16) -> Vec<u16> {
    let blocks = costs.len();
    let mut successors = vec![Vec::new(); blocks];
    successors[0] = start.to_vec();
    for index in 0..edges - start.len() {
        let target = if random.chance(3) { 2 } else { random.between(3, blocks) as u16 };
        successors[2 + index % (blocks - 2)].push(target);
    }
    graph_sheet(&costs, &successors, budget)
}

fn costs(random: &mut Random, blocks: usize, low: usize, high: usize) -> Vec<u16> {
    let mut costs = vec![0, 0];
    costs.extend((2..blocks).map(|_| random.between(low, high) as u16));
    costs
}

/// N = 128, E = 512, B = 500: two that nothing fits, so that almost all work is weighing, and three that are accepted.
pub fn largest() -> Vec<(&'static str, Vec<u16>)> {
    let mut random = Random::new(5);
    let mut first_dear = |low, high| {
        let mut costs = costs(&mut random, 128, low, high);
        costs[2] = 60000;
        spread(&mut random, costs, &[3], 512, 500)
    };
    let mut sheets = vec![
        ("weighing, most cells set", first_dear(1, 3)),
        ("weighing, few cells set", first_dear(20, 60)),
    ];
    let mut random = Random::new(6);
    for (name, low, high) in
        [("accepted, some copies", 60, 110), ("accepted, more copies", 50, 100), ("accepted, most copies", 45, 95)]
    {
        let costs = costs(&mut random, 128, low, high);
        sheets.push((name, spread(&mut random, costs, &[3, 4, 5], 512, 500)));
    }
    sheets
}

/// The largest graphs in the second version with one budget of 500, and with four.
pub fn with_one_and_four(sheet: &[u16]) -> [Vec<u16>; 2] {
    [with_budgets(sheet, &[500]), with_budgets(sheet, &[125, 250, 375, 500])]
}

/// The accepted largest graphs with the same number of cycles for their blocks: claimed 500 with a handler of 100, and claimed 400 with none.
pub fn lowered() -> Vec<[(Vec<u16>, u16); 2]> {
    let accepted = largest().into_iter().filter(|(name, _)| name.starts_with("accepted"));
    accepted.map(|(_, sheet)| [(sheet.clone(), 100), (claiming(sheet, 400), 0)]).collect()
}

/// A sheet of the first version with another budget.
fn claiming(mut sheet: Vec<u16>, budget: u16) -> Vec<u16> {
    sheet[2] = budget;
    sheet
}

/// Two blocks, or three, with so many edges side by side as there may be.
pub fn parallel() -> Vec<(&'static str, Vec<u16>)> {
    vec![
        ("512 edges from the start to the exit, B = 500", graph_sheet(&[0, 0], &[vec![2; 512], vec![]], 500)),
        ("511 edges of a block of cost 1 to the exit, B = 500", graph_sheet(&[0, 0, 1], &[vec![3], vec![], vec![2; 511]], 500)),
        (
            "a block of cost 1 to itself, behind 510 edges to the exit, B = 40",
            graph_sheet(&[0, 0, 1], &[vec![3], vec![], [vec![2; 510], vec![3]].concat()], 40),
        ),
        ("two blocks, one edge, B = 0", graph_sheet(&[0, 0], &[vec![2], vec![]], 0)),
        ("two blocks, one edge, B = 500", graph_sheet(&[0, 0], &[vec![2], vec![]], 500)),
    ]
}

/// Blocks in a row, each with `more` edges to the exit beside the one onward: sheets of few and of many blocks, of small and of large budgets.
pub fn chains() -> Vec<Vec<u16>> {
    let mut sheets = Vec::new();
    for blocks in [2u16, 3, 4, 5, 8, 9, 11, 16, 17, 32, 33, 39, 64, 128] {
        for budget in [0, 1, 3, 10, 15, 16, 31, 32, 40, 62, 100, 127, 128, 255, 256, 500] {
            for (more, cost) in [(0, 1), (1, 1), (3, 1), (1, 7), (1, 600)] {
                if usize::from(blocks) * (more + 1) > 512 {
                    continue;
                }
                let costs: Vec<u16> = (1..=blocks).map(|block| if block < 3 { 0 } else { cost }).collect();
                let successors: Vec<Vec<u16>> = (1..=blocks)
                    .map(|block| {
                        let next = if block == 1 { if blocks > 2 { 3 } else { 2 } } else { block + 1 };
                        let onward = if next > blocks { 2 } else { next };
                        if block == 2 { vec![] } else { [vec![onward], vec![2; more]].concat() }
                    })
                    .collect();
                sheets.push(graph_sheet(&costs, &successors, budget));
            }
        }
    }
    sheets
}

/// As many edges between as many pairs of blocks as there may be, and blocks that never fit before those that do, or none.
pub fn dense() -> Vec<Vec<u16>> {
    let mut sheets = Vec::new();
    for blocks in [4u16, 8, 12, 16, 20, 23, 24, 28, 32, 48, 64, 128] {
        for budget in [10, 50, 125, 250, 500] {
            for (cost, dear) in [(1, 0), (3, 0), (40, 0), (1, blocks / 2)] {
                let costs: Vec<u16> =
                    (1..=blocks).map(|block| if block < 3 { 0 } else if block <= dear { 600 } else { cost }).collect();
                let mut successors = vec![vec![2]; usize::from(blocks)];
                successors[1].clear();
                let mut edges = usize::from(blocks) - 1;
                for target in 3..=blocks {
                    for (index, list) in successors.iter_mut().enumerate() {
                        if edges < 512 && index != 1 && (index != 0 || target < 7) {
                            list.push(target);
                            edges += 1;
                        }
                    }
                }
                sheets.push(graph_sheet(&costs, &successors, budget));
            }
        }
    }
    sheets
}

/// The deepest descent: a block of cost 1 that loops, B = 500.
pub fn deepest() -> Vec<u16> {
    graph_sheet(&[0, 0, 1], &[vec![3], vec![], vec![3, 2]], 500)
}

/// 64 blocks of these costs with so many edges and so large a budget; nothing fits where the first block costs more than that.
pub fn family(edges: usize, budget: u16, low: usize, high: usize, first: u16) -> Vec<u16> {
    let mut random = Random::new(7);
    let mut costs = costs(&mut random, 64, low, high);
    costs[2] = costs[2].max(first);
    spread(&mut random, costs, &[3], edges, budget)
}
