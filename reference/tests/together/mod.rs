// One list of choices, or one path, given to the monitor, to bounded moves and to guarded moves with one handler: what must then hold of them.
// It rests on the library's public functions, and on budgets, costs and paths read from the graph sheet's words.

use crate::paths::{blocks, budgets, cost, largest_budget, number_of_paths, paths};
use reference::random::Random;
use reference::*;

/// The bounded sheet of a graph sheet whose build is accepted. Behind its words the output row keeps its content.
pub fn sheet_of(words: &[u16], handler: u16) -> Vec<u16> {
    let built = build(words, handler, &[7; LARGEST_AREA], &[9; LARGEST_OUTPUT]);
    assert_eq!(built.answer, 0);
    let filled = filled_words(&built.output);
    assert!(built.output[filled..].iter().all(|word| *word == 9));
    built.output[..filled].to_vec()
}

/// The block that a bounded walk shows.
fn shown(sheet: &[u16], walk: Walk) -> u16 {
    sheet[copies_at(sheet) + 3 * (walk.place as usize - 1)]
}

/// Whether some path from start to exit costs at most so much, by the row of block 1 in the table of the claimed budgets.
fn some_path_costs_at_most(words: &[u16], most: usize) -> bool {
    completion_table(words, 0)[..=most].contains(&1)
}

/// The claim on a list of choices with one handler and one budget number of the sheet. Hands back how the run ends.
pub fn go_together(words: &[u16], handler: u16, number: u32, choices: &[u32], random: &mut Random) -> End {
    let claimed = budgets(words)[number as usize - 1];
    let budget = claimed - usize::from(handler);
    let sheet = sheet_of(words, handler);
    assert_eq!(check_bounded(&sheet), 0);
    // It carries the lowered budgets, where a graph sheet has the claimed ones.
    assert_eq!(budgets(&sheet), budgets(words).iter().map(|claimed| claimed - usize::from(handler)).collect::<Vec<_>>());
    let monitor = Monitor::new(words, handler, number).ok().unwrap();
    let area_needed = blocks(words) as usize * (largest_budget(words) - usize::from(handler) + 1);
    let junk = vec![random.below(256) as u8; area_needed];

    // The starts: on a sheet of the first version the starting walk.
    let mut state = monitor.start();
    let (answer, started, _) = start_guarded(words, handler, &junk, number);
    let mut guarded = started.unwrap();
    assert_eq!((answer, guarded), (0, state));
    let (answer, started) = start_bounded(&sheet, number);
    let mut bounded = started.unwrap();
    assert_eq!((answer, shown(&sheet, bounded)), (0, 1));
    assert_eq!((bounded.count, bounded.end, bounded.budget), (0, state.end, number));
    if words[0] != 0 {
        assert_eq!((state, bounded), (Walk::start(), Walk::start()));
    }
    let any_path = some_path_costs_at_most(words, budget);
    assert_eq!(state.end, if any_path { End::Going } else { End::Diverted });

    let mut moves = 0;
    // The cost of the blocks that the bounded walk has entered.
    let mut cycles = 0;
    for choice in choices {
        let (first, after) = monitor.step(state, *choice);
        assert_eq!(monitor_step(words, handler, state, *choice), (first, after));
        state = after;
        let (second, after) = bounded_move(&sheet, bounded, *choice);
        bounded = after;
        let area = vec![random.below(256) as u8; area_needed];
        let (third, after, _) = guarded_move(words, handler, &area, guarded, *choice);
        guarded = after;
        assert_eq!((first, first), (second, third));
        if first == 0 {
            moves += 1;
            cycles += if bounded.end == End::Diverted { 0 } else { cost(words, shown(&sheet, bounded)) };
        }
        // With the handler, which a diverted run goes on to, the run stays within the claimed budget.
        assert!(cycles + usize::from(handler) <= claimed);
    }
    assert_eq!((state.place, state.place), (u32::from(shown(&sheet, bounded)), guarded.place));
    assert_eq!((state.end, state.end), (bounded.end, guarded.end));
    assert_eq!((number, number), (bounded.budget, guarded.budget));
    assert_eq!((state.count, state.count), (guarded.count, cycles as u32));
    assert_eq!(bounded.count, moves);
    if state.end == End::Going {
        assert!(bounded.count as usize <= budget);
        assert!(monitor.successors(state.place) >= 1);
        assert_eq!(monitor.step(state, 1).0, 0);
    } else {
        assert!(bounded.count as usize <= budget + 1);
    }
    state.end
}

/// The claim on paths with one handler and one budget number of the sheet: of those that cost up to 3 more than the claimed budget the kept
/// ones run unchanged and no other does. Hands back how many are kept and how many are not; none where there are too many.
pub fn kept_and_stopped(words: &[u16], handler: u16, number: u32) -> Option<(usize, usize)> {
    let claimed = budgets(words)[number as usize - 1];
    if number_of_paths(words, 1, claimed + 3) > 500 {
        return None;
    }
    let sheet = sheet_of(words, handler);
    let (mut kept, mut stopped) = (0, 0);
    for (choices, blocks, total) in paths(words, 1, claimed + 3) {
        let mut walk = start_bounded(&sheet, number).1.unwrap();
        let mut seen = vec![1];
        let mut unchanged = true;
        for choice in &choices {
            let (answer, after) = bounded_move(&sheet, walk, *choice);
            unchanged &= answer == 0;
            walk = after;
            seen.push(shown(&sheet, walk));
        }
        unchanged &= seen == blocks && walk.end == End::Exit;
        assert_eq!(unchanged, total + usize::from(handler) <= claimed);
        kept += usize::from(unchanged);
        stopped += usize::from(!unchanged);
    }
    Some((kept, stopped))
}
