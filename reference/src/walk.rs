// Walks: their starts, the guarded move on a graph sheet, the bounded move on a bounded sheet, and the monitor. It rests on graph.rs,
// construction.rs, cheapest.rs, bounded.rs, the sections on walks and on the list of choices, and requests K2 and K6 of document 02.

use crate::bounded::Bounded;
use crate::cheapest::cheapest_completions;
use crate::construction::{weighed, Weighed};
use crate::graph::Graph;

#[derive(Clone, Copy, PartialEq, Eq, Debug)]
pub enum End {
    Going,
    Exit,
    Diverted,
}

#[derive(Clone, Copy, PartialEq, Eq, Debug)]
pub struct Walk {
    pub place: u32,
    pub count: u32,
    pub end: End,
    /// The number of the chosen budget, counted from 1.
    pub budget: u32,
}

impl Walk {
    /// The starting walk, which takes no input.
    pub fn start() -> Walk {
        Walk::going_from(1, 1)
    }

    /// A walk that begins at this place, with this budget number.
    fn going_from(place: usize, budget: u32) -> Walk {
        Walk { place: place as u32, count: 0, end: End::Going, budget }
    }

    /// A walk that nothing fits: it starts diverted at place 1.
    fn diverted_at_once(budget: u32) -> Walk {
        Walk { place: 1, count: 0, end: End::Diverted, budget }
    }
}

/// Whether the place is outside the sheet, or end exit and the exit's place are not together.
fn misplaced(walk: Walk, places: usize, exit: usize) -> bool {
    let outside = walk.place < 1 || walk.place > places as u32;
    let at_exit = walk.place == exit as u32;
    let ended_there = walk.end == End::Exit;
    outside || at_exit != ended_there
}

/// The k-th of these targets for a choice k, or none for 0 and choices beyond them.
fn chosen(targets: &[usize], choice: u32) -> Option<usize> {
    if choice < 1 || choice as usize > targets.len() {
        return None;
    }
    Some(targets[choice as usize - 1])
}

/// The start of a guarded walk with this budget number and a handler of this cost: answers 1 to 8 with 41 and 43, 21, 9, 33, 0; the walk
/// that it sets, none under a refusal; the work area after it.
pub fn start_guarded(words: &[u16], handler: u16, area: &[u8], number: u32) -> (u16, Option<Walk>, Vec<u8>) {
    // 1 to 8 with 41 and 43, 21, 9: as for a move.
    let Weighed { graph, table, area } = match weighed(words, handler, area) {
        Ok(weighed) => weighed,
        Err((answer, area)) => return (answer, None, area),
    };

    // 33: a budget number outside the sheet.
    let budget = match graph.budget(number) {
        Some(budget) => budget,
        None => return (33, None, area),
    };

    // Where nothing fits that lowered budget the walk starts diverted.
    let walk = match table.largest(1, budget) {
        Some(_) => Walk::going_from(1, number),
        None => Walk::diverted_at_once(number),
    };
    (0, Some(walk), area)
}

/// The start of a bounded walk with this budget number: answers 11, 33, 0; the walk that it sets, none under a refusal.
pub fn start_bounded(words: &[u16], number: u32) -> (u16, Option<Walk>) {
    // 11: the bounded sheet breaks a rule.
    let sheet = match Bounded::read(words) {
        Ok(sheet) => sheet,
        Err(answer) => return (answer, None),
    };

    // 33: a budget number outside the sheet.
    if sheet.budget(number).is_none() {
        return (33, None);
    }

    // The place is the start copy that the entry names; where it is 0 nothing fits, and the walk starts diverted.
    let walk = match sheet.entries[number as usize - 1] {
        0 => Walk::diverted_at_once(number),
        entry => Walk::going_from(entry, number),
    };
    (0, Some(walk))
}

/// The guarded move with a handler of this cost: answers 1 to 8 with 41 and 43, 21, 9, 33, 32, 31, 0; the walk and the work area after it.
pub fn guarded_move(
    words: &[u16],
    handler: u16,
    area: &[u8],
    walk: Walk,
    choice: u32,
) -> (u16, Walk, Vec<u8>) {
    // 1 to 8 with 41 and 43, 21, 9.
    let Weighed { graph, table, area } = match weighed(words, handler, area) {
        Ok(weighed) => weighed,
        Err((answer, area)) => return (answer, walk, area),
    };

    // 33: walk out of shape. Its budget number says which lowered budget is B.
    let budget = match graph.budget(walk.budget) {
        Some(budget) => budget,
        None => return (33, walk, area),
    };
    if misplaced(walk, graph.blocks, 2) || walk.count > budget as u32 {
        return (33, walk, area);
    }

    // 32: the walk has ended.
    if walk.end != End::Going {
        return (32, walk, area);
    }

    // 31: choice 0 or beyond the place's successors.
    let target = match chosen(graph.successors(walk.place as usize), choice) {
        Some(target) => target,
        None => return (31, walk, area),
    };

    // A completion of the target costing at most B - count lets the walk enter it.
    let left = budget - walk.count as usize;
    let after = if table.largest(target, left).is_some() {
        Walk {
            place: target as u32,
            count: walk.count + graph.cost(target) as u32,
            end: if target == 2 { End::Exit } else { End::Going },
            ..walk
        }
    } else {
        Walk { end: End::Diverted, ..walk }
    };
    (0, after, area)
}

/// The bounded move: answers 11, 33, 32, 31, 0; the walk after it.
pub fn bounded_move(words: &[u16], walk: Walk, choice: u32) -> (u16, Walk) {
    // 11: the bounded sheet breaks a rule.
    let sheet = match Bounded::read(words) {
        Ok(sheet) => sheet,
        Err(answer) => return (answer, walk),
    };

    // 33: walk out of shape. Its budget number says which budget is B.
    let budget = match sheet.budget(walk.budget) {
        Some(budget) => budget as u32,
        None => return (33, walk),
    };
    let exit = sheet.exit();
    let most = if walk.end == End::Going { budget } else { budget + 1 };
    if misplaced(walk, sheet.copies(), exit) || walk.count > most {
        return (33, walk);
    }

    // 32: the walk has ended.
    if walk.end != End::Going {
        return (32, walk);
    }

    // 31: choice 0 or beyond the place's successors.
    let target = match chosen(&sheet.targets(walk.place as usize), choice) {
        Some(target) => target,
        None => return (31, walk),
    };

    // Each move counts one; target 0 diverts, the exit's copy ends it.
    let count = walk.count + 1;
    let after = if target == 0 {
        Walk { count, end: End::Diverted, ..walk }
    } else {
        let end = if target == exit { End::Exit } else { End::Going };
        Walk { place: target as u32, count, end, ..walk }
    };
    (0, after)
}

/// The plain monitor of one graph sheet, a handler and one of the sheet's budgets. It knows of each block its cheapest completion, and
/// nothing that a build or a walk has written.
pub struct Monitor {
    graph: Graph,
    cheapest: Vec<Option<usize>>,
    /// B: the budget of this number, lowered by the handler's cost.
    budget: usize,
    number: u32,
}

impl Monitor {
    /// The monitor of an accepted sheet, a handler of this cost and a budget number of the sheet, or the number of the refusal: 1 to 8 with
    /// 41 and 43, then 33.
    pub fn new(words: &[u16], handler: u16, number: u32) -> Result<Monitor, u16> {
        let graph = Graph::read(words, handler)?;
        let budget = graph.budget(number).ok_or(33_u16)?;
        let cheapest = cheapest_completions(&graph);
        Ok(Monitor { graph, cheapest, budget, number })
    }

    /// Whether the block has a completion costing at most B - count.
    fn fits(&self, block: usize, count: usize) -> bool {
        self.cheapest[block].is_some_and(|cost| count + cost <= self.budget)
    }

    /// Its state at first: block 1, count 0, going, or diverted where nothing fits its budget.
    pub fn start(&self) -> Walk {
        if self.fits(1, 0) {
            Walk::going_from(1, self.number)
        } else {
            Walk::diverted_at_once(self.number)
        }
    }

    /// The number of successors of a block; 0 for a block outside the sheet.
    pub fn successors(&self, block: u32) -> usize {
        self.targets(block).len()
    }

    fn targets(&self, block: u32) -> &[usize] {
        if block < 1 || block > self.graph.blocks as u32 {
            return &[];
        }
        self.graph.successors(block as usize)
    }

    /// One step: the answer (32, 31 or 0) and the state after it.
    pub fn step(&self, state: Walk, choice: u32) -> (u16, Walk) {
        // After the end it answers 32, and nothing changes.
        if state.end != End::Going {
            return (32, state);
        }
        // A choice of 0 or above the block's number of successors is answered 31.
        let target = match chosen(self.targets(state.place), choice) {
            Some(target) => target,
            None => return (31, state),
        };
        // Has the target a completion costing at most B - count?
        if !self.fits(target, state.count as usize) {
            return (0, Walk { end: End::Diverted, ..state });
        }
        let after = Walk {
            place: target as u32,
            count: state.count + self.graph.cost(target) as u32,
            end: if target == 2 { End::Exit } else { End::Going },
            ..state
        };
        (0, after)
    }
}

/// One step of the monitor with the state's budget number; a refused sheet is answered with its number, a number outside it with 33.
pub fn monitor_step(words: &[u16], handler: u16, state: Walk, choice: u32) -> (u16, Walk) {
    match Monitor::new(words, handler, state.budget) {
        Ok(monitor) => monitor.step(state, choice),
        Err(answer) => (answer, state),
    }
}
