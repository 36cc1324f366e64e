// Random walks, budget numbers, choices and lists of choices for a sheet of either version.
// It rests on the library's number of successors, edge words and monitor.

use super::{get, largest, lowered_budgets, place_but, sizes, Layout, Random};
use crate::{edge_words, successor_count};
use crate::{End, Monitor, Walk};

/// A budget number of this sheet: from 1 to the number of its budgets.
pub fn inside_number(random: &mut Random, words: &[u16]) -> u32 {
    random.between(1, Layout::of(words).budgets.clamp(1, 4)) as u32
}

/// A budget number: mostly one of the sheet, else 0, one too large, or far outside.
pub fn budget_number(random: &mut Random, words: &[u16]) -> u32 {
    let inside = inside_number(random, words);
    let number = Layout::of(words).budgets;
    match random.below(20) {
        0 => 0,
        1 => number as u32 + 1,
        2 => random.pick(&[2, 5, 65535, 65536, 65536 + inside as usize, 4294967295]) as u32,
        _ => inside,
    }
}

/// A walk for a sheet with so many places and the exit at this one, in shape or out of shape by its budgets less the handler's cost. `beyond`
/// is 1 where an ended walk may count one more than the budget.
fn any_walk(random: &mut Random, words: &[u16], handler: u16, places: usize, exit: usize, beyond: usize) -> Walk {
    let number = budget_number(random, words);
    let budgets = lowered_budgets(words, handler);
    let chosen = (number as usize).checked_sub(1).and_then(|index| budgets.get(index));
    // For a number outside the sheet a count that some budget allows.
    let budget = chosen.copied().unwrap_or_else(|| largest(&budgets)).min(65535);
    let walk_of = |place: usize, count: usize, end: End| Walk { place: place as u32, count: count as u32, end, budget: number };
    let place = place_but(random, exit, places);
    let near = budget.saturating_sub(random.below(3));
    let few = random.between(0, budget);
    let count = random.pick(&[0, few, few, near]);
    let ended_count = random.pick(&[count, count, budget, budget + beyond]);
    match random.below(20) {
        0..=11 => walk_of(place, count, End::Going),
        12 => walk_of(exit, ended_count, End::Exit),
        13 => walk_of(place, ended_count, End::Diverted),
        // Place outside the sheet.
        14 => {
            let far = random.pick(&[0, places + 1, 65535, 65536 + place, 4294967295]);
            let end = if random.chance(70) { End::Going } else { End::Diverted };
            walk_of(far, count, end)
        }
        // End exit and the exit's place not together; place 2 with end exit is so only where the exit stands there.
        15 => walk_of(random.pick(&[place, place, 2]), count, End::Exit),
        16 => walk_of(exit, count, if random.chance(50) { End::Going } else { End::Diverted }),
        // Count too large.
        17 | 18 => {
            let far = random.pick(&[budget + 1, budget + 1, 65536 + count, 4294967295]);
            walk_of(place, far, End::Going)
        }
        _ => {
            let far = random.pick(&[budget + beyond + 1, 4294967295]);
            if random.chance(50) {
                walk_of(exit, far, End::Exit)
            } else {
                walk_of(place, far, End::Diverted)
            }
        }
    }
}

/// A walk for a guarded move on this sheet with a handler of this cost.
pub fn graph_walk(random: &mut Random, words: &[u16], handler: u16) -> Walk {
    any_walk(random, words, handler, sizes(words).0, 2, 0)
}

/// A walk for a bounded move on this sheet, which carries its budgets as they are.
pub fn bounded_walk(random: &mut Random, words: &[u16]) -> Walk {
    let (copies, copies_at) = (sizes(words).0, Layout::of(words).copies_at());
    let exit = (1..=copies.min(8)).find(|copy| get(words, copies_at + 3 * (copy - 1)) == 2).unwrap_or(2);
    any_walk(random, words, 0, copies, exit, 1)
}

/// A choice at a place with so many successors: mostly one of them.
fn any_choice(random: &mut Random, successors: usize) -> u32 {
    let valid = random.between(1, successors.max(1));
    let choice = match random.below(20) {
        0 => 0,
        1 => successors + 1,
        2 => random.pick(&[successors + 2, 65535, 65536, 65536 + valid, 4294967295]),
        _ => valid,
    };
    choice as u32
}

/// A choice for a guarded move of this walk.
pub fn graph_choice(random: &mut Random, words: &[u16], walk: Walk) -> u32 {
    let (_, count) = successor_count(words, walk.place.min(65535) as u16);
    any_choice(random, usize::from(count))
}

/// A choice for a bounded move of this walk.
pub fn bounded_choice(random: &mut Random, words: &[u16], walk: Walk) -> u32 {
    let (_, part) = edge_words(words, walk.place);
    any_choice(random, part.len() / 2)
}

/// A list of choices for an accepted graph sheet, a handler of this cost and a budget number of the sheet; empty for a refused one.
pub fn choices(random: &mut Random, words: &[u16], handler: u16, number: u32) -> Vec<u32> {
    let mut list = Vec::new();
    let monitor = match Monitor::new(words, handler, number) {
        Ok(monitor) => monitor,
        Err(_) => return list,
    };
    if random.chance(4) {
        return list;
    }
    // A careful list avoids being diverted where it can; a steady one has valid choices only.
    let careful = random.chance(35);
    let steady = random.chance(30);
    let all = largest(&lowered_budgets(words, handler)) + 4;
    let most = if random.chance(15) { all } else { random.between(1, all.min(40)) };
    let mut after_the_end = random.below(4);
    let mut state = monitor.start();
    while list.len() < most {
        let successors = monitor.successors(state.place);
        let mut choice = any_choice(random, successors);
        if steady || careful {
            for _ in 0..4 {
                let (answer, after) = monitor.step(state, choice);
                let unwanted = (steady && answer == 31) || (careful && after.end == End::Diverted);
                if unwanted {
                    choice = random.between(1, successors) as u32;
                }
            }
        }
        list.push(choice);
        if state.end != End::Going {
            if after_the_end == 0 {
                break;
            }
            after_the_end -= 1;
        }
        state = monitor.step(state, choice).1;
    }
    list
}
