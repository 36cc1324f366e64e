// The handler's cost (request K6): builds, starts, moves and orders of refusals computed by hand, and the claims on random sheets of both
// versions. It rests on the library's public functions and on paths enumerated one by one.

mod paths;
mod together;

use paths::budgets;
use reference::corpus::{refusals, second_refusals};
use reference::random::{self, Random, Size};
use reference::*;
use std::collections::BTreeMap;
use together::{go_together, kept_and_stopped, sheet_of};

fn paper(budgets: &[u16]) -> Vec<u16> {
    with_budgets(&paper_example(9), budgets)
}

/// Block 3 with cost 3, to itself and to the exit.
fn looping(budgets: &[u16]) -> Vec<u16> {
    budgets_sheet(&[0, 0, 3], &[vec![3], vec![], vec![3, 2]], budgets)
}

fn walk(place: u32, count: u32, end: End, budget: u32) -> Walk {
    Walk { place, count, end, budget }
}

fn going(place: u32, count: u32, budget: u32) -> Walk {
    walk(place, count, End::Going, budget)
}

fn diverted(place: u32, count: u32, budget: u32) -> Walk {
    walk(place, count, End::Diverted, budget)
}

fn at_exit(count: u32, budget: u32) -> Walk {
    walk(2, count, End::Exit, budget)
}

/// The paper's example with 8 cycles for its blocks: 7 copies, 8 edges.
const EIGHT: [u16; 40] = [
    7, 8, 8, // header
    1, 8, 1, 2, 0, 0, 3, 8, 2, 4, 3, 4, 5, 6, 5, 6, 2, 6, 7, 1, 8, // copies
    3, 0, 4, 3, 5, 0, 6, 0, 6, 0, 7, 7, 0, 0, 2, 0, // edges
];

/// With 9 cycles: 9 copies, 11 edges.
const NINE: [u16; 52] = [
    9, 11, 9, // header
    1, 9, 1, 2, 0, 0, 3, 9, 2, 4, 7, 4, 5, 6, 5, 6, 2, 6, 6, 6, 8, 7, 1, 10, 8, 5, 11, // copies
    3, 0, 4, 3, 5, 0, 7, 0, 6, 0, 8, 7, 0, 0, 8, 9, 9, 0, 2, 0, 2, 0, // edges
];

/// With 5 and 9: 12 copies, 15 edges, the start copies 1 and 2, the exit copy 3.
const TWO: [u16; 74] = [
    0, 12, 15, 2, 5, 9, 1, 2, // header: copies, edges, number of budgets, budgets, entries
    1, 5, 1, 1, 9, 2, 2, 0, 0, 3, 5, 3, 3, 9, 5, 4, 3, 7, 4, 7, 8, 5, 6, 9, 6, 2, 10, 6, 6, 12, 7, 1, 14, 8, 5, 15, // copies
    4, 0, 5, 0, 6, 4, 0, 0, 7, 6, 8, 0, 9, 0, 10, 0, 9, 0, 11, 11, 0, 0, 11, 13, 12, 0, 3, 0, 3, 0, // edges
];

// Builds.

#[test]
fn a_build_carries_the_lowered_budget() {
    assert_eq!(sheet_of(&paper_example(9), 1), EIGHT);
    assert_eq!(sheet_of(&paper_example(12), 3), NINE);
    assert_eq!(sheet_of(&paper_example(9), 0), NINE);
    // At 12 nothing is diverted; a handler of 1 lowers the budget all the same, and the path of 12 cycles is.
    assert_eq!(sheet_of(&paper_example(12), 1), [&[9, 11, 11], &NINE[3..]].concat());
    // In the second version the same, behind its header.
    assert_eq!(sheet_of(&paper(&[9]), 1), [&[0, 7, 8, 1, 8, 1], &EIGHT[3..]].concat());
    assert_eq!(sheet_of(&paper(&[12]), 3), [&[0, 9, 11, 1, 9, 1], &NINE[3..]].concat());
}

#[test]
fn every_budget_is_lowered() {
    assert_eq!(sheet_of(&paper(&[8, 12]), 3), TWO);
    assert_eq!(sheet_of(&paper(&[5, 9]), 0), TWO);
    // Equal start copies are shared by what is left of the budgets: of 10, 11 and 12 there is 7, 8 and 9.
    assert_eq!(
        sheet_of(&looping(&[10, 11, 12]), 3),
        [0, 6, 8, 3, 7, 8, 9, 1, 1, 2, 1, 6, 1, 1, 9, 2, 2, 0, 0, 3, 3, 3, 3, 6, 5, 3, 9, 7, 5, 0, 6, 0, 0, 4, 3, 0, 4, 6, 3, 0, 5, 8, 3, 0]
    );
    // Four budgets: nothing fits the first, once lowered.
    assert_eq!(sheet_of(&looping(&[5, 6, 10, 12]), 3)[..12], [0, 7, 9, 4, 2, 3, 7, 9, 0, 1, 2, 3]);
    assert_eq!(sheet_of(&looping(&[5, 6, 10, 12]), 5)[..12], [0, 5, 6, 4, 0, 1, 5, 7, 0, 0, 1, 2]);
}

#[test]
fn every_claim_and_every_cost_of_the_example() {
    for claimed in 0..=20_u16 {
        for handler in 0..=25 {
            let (copies, edges) = match claimed.checked_sub(handler) {
                Some(5..=7) => (6, 7),
                Some(8) => (7, 8),
                Some(9..=11) => (9, 11),
                Some(12..) => (8, 9),
                _ => (0, 0),
            };
            for words in [paper_example(claimed), paper(&[claimed])] {
                let built = build(&words, handler, &[7; LARGEST_AREA], &[9; LARGEST_OUTPUT]);
                let answer = match copies {
                    0 if handler > claimed => 43,
                    0 => 9,
                    _ => 0,
                };
                assert_eq!(built.answer, answer, "claimed {claimed}, handler {handler}");
                if answer == 0 && words[0] != 0 {
                    assert_eq!(built.output[..3], [copies, edges, claimed - handler]);
                } else if answer == 0 {
                    assert_eq!(built.output[..6], [0, copies, edges, 1, claimed - handler, 1]);
                }
            }
        }
    }
}

#[test]
fn a_handler_that_costs_the_smallest_budget() {
    // The budget becomes 0: nothing fits it but in the least graph.
    let sheet = sheet_of(&paper(&[3, 12]), 3);
    assert_eq!(sheet, [&[0, 9, 11, 2, 0, 9, 0, 1], &NINE[3..]].concat());
    assert_eq!(build(&paper(&[3, 12]), 4, &[7; 90], &[9; 60]).answer, 43);
    for budget in [0, 1, 9, 500] {
        let least = [2, 1, budget, 0, 1, 0, 0, 2, 0];
        assert_eq!(sheet_of(&least, budget), [2, 1, 0, 1, 0, 1, 2, 0, 0, 2, 0]);
        assert_eq!(build(&least, budget, &[7; 2], &[9; 11]).area, [1, 1]);
        assert_eq!(build(&least, budget + 1, &[7; 2], &[9; 11]).answer, 43);
        assert_eq!(build(&paper_example(budget), budget, &[7; 8], &[]).answer, 9);
    }
    let least = [0, 2, 1, 4, 7, 8, 9, 500, 0, 1, 0, 0, 2, 0];
    assert_eq!(sheet_of(&least, 7), [0, 2, 1, 4, 0, 1, 2, 493, 1, 1, 1, 1, 1, 0, 1, 2, 0, 0, 2, 0]);
}

#[test]
fn area_and_output_go_by_the_lowered_budgets() {
    // 8 blocks, 9 cycles left of 12: 80 bytes. 52 words, and 74 for two budgets.
    let table = completion_table(&paper_example(9), 0);
    for (words, sheet) in [(paper_example(12), &NINE[..]), (paper(&[8, 12]), &TWO)] {
        assert_eq!(completion_table(&words, 3), table);
        let needed = sheet.len();
        let short = build(&words, 3, &[7; 79], &vec![9; needed]);
        assert_eq!(short, Built { answer: 21, area: vec![7; 79], output: vec![9; needed] });
        let narrow = build(&words, 3, &[7; 80], &vec![9; needed - 1]);
        assert_eq!(narrow, Built { answer: 22, area: table.clone(), output: vec![9; needed - 1] });
        let exact = build(&words, 3, &[7; 80], &vec![9; needed]);
        assert_eq!(exact, Built { answer: 0, area: table.clone(), output: sheet.to_vec() });
        // An area for the claimed budget: what is behind the 80 bytes is kept.
        let longer = build(&words, 3, &[7; 104], &vec![9; needed + 1]);
        assert_eq!((longer.answer, &longer.area[..80], &longer.area[80..]), (0, &table[..], &[7; 24][..]));
        assert_eq!((&longer.output[..needed], longer.output[needed]), (sheet, 9));
        // 9: nothing fits 4 cycles, and the area holds their table.
        let unfit = build(&words, 8, &[7; 41], &[9; 2]);
        assert_eq!((unfit.answer, unfit.area[40], unfit.output), (9, 7, vec![9; 2]));
        assert_eq!(unfit.area[..40], completion_table(&paper_example(4), 0));
        assert_eq!(build(&words, 8, &[7; 39], &[9; 2]), Built { answer: 21, area: vec![7; 39], output: vec![9; 2] });
    }
}

#[test]
fn the_limits_of_copies_and_edges_by_the_lowered_budget() {
    // At 134 there are 4,096 copies and 8,192 edges; a cycle more makes it 10, a handler of that cost 0 again.
    let mut words = reference::corpus::at_the_limits(4, false);
    words[2] = 135;
    let answer = |handler: u16| build(&words, handler, &[7; LARGEST_AREA], &[9; LARGEST_OUTPUT]).answer;
    assert_eq!([answer(0), answer(1), answer(89), answer(90), answer(135), answer(136)], [10, 0, 0, 9, 9, 43]);
    assert_eq!(sheet_of(&words, 1)[..3], [4096, 8192, 134]);
}

// Refusals.

/// The answer of a build, which a guarded start and a guarded move share up to 9, with buffers that keep their content under it.
fn refused(words: &[u16], handler: u16, area: usize) -> u16 {
    let (area, output, lent) = (vec![7; area], vec![9; 60], going(9, 600, 9));
    let built = build(words, handler, &area, &output);
    let answer = built.answer;
    assert_eq!(built, Built { answer, area: area.clone(), output });
    assert_eq!(start_guarded(words, handler, &area, 9), (answer, None, area.clone()));
    assert_eq!(guarded_move(words, handler, &area, lent, 0), (answer, lent, area));
    if answer != 21 {
        assert_eq!(Monitor::new(words, handler, 9).err(), Some(answer));
        assert_eq!(monitor_step(words, handler, lent, 0), (answer, lent));
        assert_eq!(completion_table(words, handler), []);
    }
    answer
}

#[test]
fn a_handler_above_the_smallest_budget() {
    let answer = |words: &[u16], handler: u16| refused(words, handler, 200);
    assert_eq!([answer(&paper_example(9), 10), answer(&paper_example(9), 65535), answer(&paper_example(0), 1)], [43; 3]);
    assert_eq!([answer(&paper_example(500), 501), answer(&paper_example(500), 65535)], [43; 2]);
    // By the smallest of several, whatever the others are.
    for handler in [6, 8, 9, 10, 13, 14, 15, 501, 65535] {
        assert_eq!(answer(&paper(&[5, 14]), handler), 43);
        assert_eq!(answer(&paper(&[5, 9, 13, 14]), handler), 43);
    }
    assert_eq!(answer(&looping(&[0, 1, 2, 500]), 1), 43);
    for (words, most) in [(paper(&[5, 14]), 5), (looping(&[3, 4, 5, 500]), 3)] {
        for handler in 0..=most {
            assert_eq!(build(&words, handler, &[7; LARGEST_AREA], &[9; LARGEST_OUTPUT]).answer, 0);
        }
    }
}

#[test]
fn it_comes_after_41_and_before_5() {
    // Each of these sheets is refused by one number alone, with any budgets from 0 to 500: those checked before 43 stay, the others make way.
    let first = [1, 2, 3, 4, 5, 6, 7, 8, 9, 10];
    let second = [1, 2, 3, 4, 41, 5, 6, 7, 8, 9, 10];
    for (words, number) in refusals().iter().zip(first).chain(second_refusals().iter().zip(second)) {
        for handler in [501, 502, 65535] {
            for area in [0, 1, 200] {
                let before = matches!(number, 1..=4 | 41);
                assert_eq!(refused(words, handler, area), if before { number } else { 43 }, "{words:?}");
            }
        }
    }
    // After 4 and 41 by the claimed budgets: lowered ones would be 500 or less, or none at all.
    let records = [0, 1, 0, 0, 2, 0];
    let with = |header: &[u16]| [header, &records].concat();
    for handler in [0, 1, 2, 10, 500, 501, 502, 65535] {
        assert_eq!(refused(&with(&[2, 1, 501]), handler, 9), 4);
        assert_eq!(refused(&with(&[2, 1, 65535]), handler, 9), 4);
        assert_eq!(refused(&with(&[0, 2, 1, 2, 9, 501]), handler, 9), 4);
        assert_eq!(refused(&with(&[0, 2, 1, 2, 9, 9]), handler, 9), 41);
        assert_eq!(refused(&with(&[0, 2, 1, 2, 9, 8]), handler, 9), 41);
        assert_eq!(refused(&with(&[0, 2, 1, 0]), handler, 9), 41);
        assert_eq!(refused(&with(&[0, 2, 1, 5, 1, 2, 3, 4, 5]), handler, 9), 41);
    }
    // Before 5, 6, 7, 8 and 21, and only where it holds.
    for header in [&[2, 1, 7][..], &[0, 2, 1, 1, 7], &[0, 2, 1, 3, 7, 8, 500]] {
        let damaged = [[1, 1, 0, 0, 2, 0], [0, 1, 0, 0, 1, 0], [0, 1, 0, 0, 2, 1], [0, 0, 0, 1, 2, 0], records];
        for (behind, number) in damaged.iter().zip([5, 6, 7, 8, 21]) {
            let words = [header, behind].concat();
            assert_eq!((refused(&words, 8, 1), refused(&words, 7, 1), refused(&words, 0, 1)), (43, number, number));
        }
    }
    // 1, 2 and 3 before it.
    assert_eq!((refused(&[], 1, 9), refused(&[2, 1], 1, 9), refused(&[0, 2], 65535, 9)), (1, 1, 1));
    assert_eq!((refused(&[1, 1, 0], 1, 9), refused(&[0, 2, 513, 1, 0], 1, 9)), (2, 2));
    assert_eq!((refused(&with(&[2, 2, 0]), 1, 9), refused(&[0, 2, 1, 2, 0], 1, 9), refused(&with(&[0, 2, 1, 2, 0]), 1, 9)), (3, 3, 3));
}

#[test]
fn checks_without_a_handler_never_answer_it() {
    let (words, operations) = (paper(&[0, 9]), [2, 1, 0, 0, 1, 0, 0, 2, 0, 0]);
    assert_eq!((check_graph(&words), successor_count(&words, 6)), (0, (0, 2)));
    assert_eq!(convert_operations(&operations, &mut [7; 9]), 0);
    // The listing takes the cost as 0.
    let bytes: Vec<u8> = paper_example(9).iter().flat_map(|word| word.to_le_bytes()).collect();
    assert!(listing(&bytes).starts_with("copies 9 edges 11 budget 9\n"));
    assert!(report(&[&[37, 0], &bytes[..]].concat()).starts_with("1 8 9 11 none"));
}

// Starts and moves.

#[test]
fn starts_by_the_lowered_budget() {
    // Of 5, 6, 10 and 12 there is 2, 3, 7 and 9, and with 5 for the handler 0, 1, 5 and 7; the least path costs 3.
    let words = looping(&[5, 6, 10, 12]);
    for (handler, bytes, going_ones) in [(0, 39, 1..=4), (2, 33, 1..=4), (3, 30, 2..=4), (5, 24, 3..=4)] {
        let table = completion_table(&words, handler);
        assert_eq!(table.len(), bytes);
        for number in 1..=4 {
            let expected = if going_ones.contains(&number) { going(1, 0, number) } else { diverted(1, 0, number) };
            assert_eq!(start_guarded(&words, handler, &vec![7; bytes], number), (0, Some(expected), table.clone()));
            assert_eq!(Monitor::new(&words, handler, number).map(|monitor| monitor.start()), Ok(expected));
        }
        for number in [0, 5, 65535, u32::MAX] {
            assert_eq!(start_guarded(&words, handler, &vec![7; bytes], number), (33, None, table.clone()));
            assert_eq!(Monitor::new(&words, handler, number).err(), Some(33));
        }
        assert_eq!(start_guarded(&words, handler, &vec![7; bytes - 1], 9), (21, None, vec![7; bytes - 1]));
    }
    // 43 before 33; 9 where nothing fits the largest.
    assert_eq!(start_guarded(&words, 6, &[7; 39], 9), (43, None, vec![7; 39]));
    assert_eq!(start_guarded(&looping(&[4, 5]), 3, &[7; 9], 9), (9, None, completion_table(&looping(&[1, 2]), 0)));
    assert_eq!(start_guarded(&paper_example(9), 4, &[7; 48], 1).1, Some(Walk::start()));
    assert_eq!(start_guarded(&paper_example(9), 5, &[7; 40], 1).0, 9);
}

#[test]
fn guarded_moves_by_the_lowered_budget() {
    let words = paper(&[8, 12]);
    let go = |handler: u16, walk: Walk, choice: u32| {
        let area = vec![7; 8 * (13 - usize::from(handler))];
        let (answer, after, area) = guarded_move(&words, handler, &area, walk, choice);
        assert_eq!(area, completion_table(&words, handler));
        (answer, after)
    };
    // At block 3 the way through block 5 costs 8 at least.
    assert_eq!(go(0, going(3, 2, 1), 2), (0, going(5, 6, 1)));
    assert_eq!(go(1, going(3, 2, 1), 2), (0, diverted(3, 2, 1)));
    assert_eq!(go(3, going(3, 2, 1), 2), (0, diverted(3, 2, 1)));
    assert_eq!(go(3, going(3, 2, 2), 2), (0, going(5, 6, 2)));
    assert_eq!(go(4, going(3, 2, 2), 2), (0, going(5, 6, 2)));
    assert_eq!(go(5, going(3, 2, 2), 2), (0, diverted(3, 2, 2)));
    // A path whose cost and the handler's are the claimed budget together is kept, one more is not.
    assert_eq!(go(0, going(6, 7, 2), 2), (0, going(8, 12, 2)));
    assert_eq!(go(1, going(6, 7, 2), 2), (0, diverted(6, 7, 2)));
    assert_eq!(go(3, going(6, 4, 2), 2), (0, going(8, 9, 2)));
    assert_eq!(go(4, going(6, 4, 2), 2), (0, diverted(6, 4, 2)));
    // 33: a count above the lowered budget, also where it is within the claimed one.
    for (handler, number, most) in [(0, 1, 8), (0, 2, 12), (3, 1, 5), (3, 2, 9), (5, 1, 3), (5, 2, 7)] {
        assert_eq!(go(handler, at_exit(most, number), 1).0, 32);
        assert_eq!(go(handler, diverted(7, most, number), 1).0, 32);
        assert_eq!(go(handler, going(7, most, number), 0).0, 31);
        assert_eq!(go(handler, going(7, most, number), 1), (0, at_exit(most, number)));
        for count in most + 1..=13 {
            assert_eq!(go(handler, at_exit(count, number), 1), (33, at_exit(count, number)));
            assert_eq!(go(handler, diverted(7, count, number), 1).0, 33);
            assert_eq!(go(handler, going(7, count, number), 1).0, 33);
        }
    }
    assert_eq!(go(3, going(1, 0, 3), 1).0, 33);
    assert_eq!(guarded_move(&words, 9, &[7; 40], going(9, 99, 9), 0), (43, going(9, 99, 9), vec![7; 40]));
}

#[test]
fn the_monitor_by_the_lowered_budget() {
    let words = paper(&[8, 12]);
    assert_eq!(monitor_step(&words, 0, going(3, 2, 1), 2), (0, going(5, 6, 1)));
    assert_eq!(monitor_step(&words, 1, going(3, 2, 1), 2), (0, diverted(3, 2, 1)));
    assert_eq!(monitor_step(&words, 4, going(3, 2, 2), 2), (0, going(5, 6, 2)));
    assert_eq!(monitor_step(&words, 5, going(3, 2, 2), 2), (0, diverted(3, 2, 2)));
    assert_eq!(monitor_step(&words, 3, going(6, 4, 2), 2), (0, going(8, 9, 2)));
    assert_eq!(monitor_step(&words, 4, going(6, 4, 2), 2), (0, diverted(6, 4, 2)));
    assert_eq!(monitor_step(&words, 8, Walk::start(), 1), (0, diverted(1, 0, 1)));
    assert_eq!(monitor_step(&words, 9, Walk::start(), 1), (43, Walk::start()));
    assert_eq!(monitor_step(&words, 8, going(1, 0, 3), 1), (33, going(1, 0, 3)));
}

#[test]
fn a_diverted_run_and_the_handler_within_the_claimed_budget() {
    // Claimed 12 with a handler of 3: the blocks 3, 5 and 6 cost 7, block 8 no longer fits, and the handler makes it 10.
    let sheet = sheet_of(&paper_example(12), 3);
    let mut run = Walk::start();
    for (choice, after) in [(1, going(3, 1, 1)), (2, going(5, 2, 1)), (1, going(6, 3, 1)), (2, diverted(6, 4, 1))] {
        let (answer, moved) = bounded_move(&sheet, run, choice);
        assert_eq!((answer, moved), (0, after));
        run = moved;
    }
    let mut random = Random::new(1);
    assert_eq!(go_together(&paper_example(12), 3, 1, &[1, 2, 1, 2], &mut random), End::Diverted);
    assert_eq!(go_together(&paper_example(12), 3, 1, &[1, 1, 1, 2, 1], &mut random), End::Exit);
    assert_eq!(go_together(&paper_example(12), 0, 1, &[1, 2, 1, 2, 1], &mut random), End::Exit);
    assert_eq!(go_together(&paper(&[3, 12]), 3, 1, &[], &mut random), End::Diverted);
    // The four paths of the example cost 5, 9, 8 and 12.
    let counts = |handler: u16| kept_and_stopped(&paper_example(12), handler, 1);
    assert_eq!([counts(0), counts(1), counts(3), counts(4), counts(7)], [Some((4, 0)), Some((3, 1)), Some((3, 1)), Some((2, 2)), Some((1, 3))]);
}

// Random sheets of both versions.

/// This sheet, which passes 1 to 4 and 41, with its budgets lowered by hand.
fn lowered(words: &[u16], handler: u16) -> Vec<u16> {
    let mut after = words.to_vec();
    let places = if words[0] == 0 { 4..4 + words[3] as usize } else { 2..3 };
    after[places].iter_mut().for_each(|budget| *budget -= handler);
    after
}

/// A graph sheet of either version, valid or damaged; now and then one with very many budgets, or any words at all.
fn any_sheet(random: &mut Random, round: usize) -> Vec<u16> {
    match round % 40 {
        0 => random::graph_words(random, Size::Any, 70),
        1 => random::many_budgets(random, 2000),
        2 => (0..random.below(30)).map(|_| random.below(12) as u16).collect(),
        3 => (0..random.below(30)).map(|index| if index == 0 { 0 } else { random.below(6) as u16 }).collect(),
        round if round % 2 == 0 => random::graph_words(random, Size::Small, 70),
        _ => random::graph_words(random, Size::Tiny, 70),
    }
}

#[test]
fn every_call_answers_as_on_the_lowered_sheet_with_no_cost() {
    let mut random = Random::new(61);
    let mut counts: BTreeMap<&str, usize> = BTreeMap::new();
    let mut count = |name: &'static str, holds: bool| *counts.entry(name).or_default() += usize::from(holds);
    for round in 0..12000 {
        let words = any_sheet(&mut random, round);
        let handler = random::handler(&mut random, &words);
        let area_length = random::area_length(&mut random, &words, handler);
        let needed = random::built_words(&words, handler).map_or(60, |sheet| sheet.len());
        let output = vec![9; random::length_near(&mut random, needed)];
        let area: Vec<u8> = (0..area_length).map(|_| random.draw() as u8).collect();
        let walk = random::graph_walk(&mut random, &words, handler);
        let choice = random::graph_choice(&mut random, &words, walk);

        // What stands for the call with this cost: a call with none on another sheet, or the refusal 43.
        let checked = check_graph(&words);
        let smallest = if matches!(checked, 1..=4 | 41) { usize::MAX } else { budgets(&words)[0] };
        let built = build(&words, handler, &area, &output);
        let moved = guarded_move(&words, handler, &area, walk, choice);
        let started = start_guarded(&words, handler, &area, walk.budget);
        let stepped = monitor_step(&words, handler, walk, choice);
        count("refused before 43", smallest == usize::MAX && handler > 0);
        count("0", built.answer == 0 && handler == 0);
        if usize::from(handler) > smallest {
            assert_eq!(built, Built { answer: 43, area: area.clone(), output });
            assert_eq!(moved, (43, walk, area.clone()));
            assert_eq!(started, (43, None, area));
            assert_eq!(stepped, (43, walk));
            count("43", true);
            count("43 before 5 to 8", checked != 0);
            count("43 and one less", usize::from(handler) == smallest + 1);
            count("43 within another budget", usize::from(handler) <= *budgets(&words).last().unwrap());
            continue;
        }
        let same = if smallest == usize::MAX { words.clone() } else { lowered(&words, handler) };
        assert_eq!(built, build(&same, 0, &area, &output));
        assert_eq!(moved, guarded_move(&same, 0, &area, walk, choice));
        assert_eq!(started, start_guarded(&same, 0, &area, walk.budget));
        assert_eq!(stepped, monitor_step(&same, 0, walk, choice));
        assert_eq!(completion_table(&words, handler), completion_table(&same, 0));
        count("accepted", built.answer == 0 && handler > 0);
        count("accepted at the smallest budget", built.answer == 0 && handler > 0 && usize::from(handler) == smallest);
        count("accepted with several budgets", built.answer == 0 && handler > 0 && words[0] == 0 && words[3] > 1);
        count("9", built.answer == 9 && handler > 0 && random::built_words(&words, 0).is_some());
        count("21", built.answer == 21 && handler > 0);
        count("22", built.answer == 22 && handler > 0);
        count("33 within the claimed budget", moved.0 == 33 && handler > 0 && guarded_move(&words, 0, &[0; LARGEST_AREA], walk, choice).0 != 33);
        count("moved", moved.0 == 0 && handler > 0);
    }
    assert!(counts.len() == 14 && counts.values().all(|times| *times > 40), "{counts:?}");
}

/// A sheet of one version and then of the other, and a cost with which its build is accepted.
fn buildable(random: &mut Random, round: usize, size: Size) -> (Vec<u16>, u16) {
    for _ in 0..1000 {
        let words = match round % 2 {
            0 => random::buildable_graph(random, size),
            _ => random::buildable_second_graph(random, size),
        };
        let handler = random::handler(random, &words);
        if handler > 0 && random::built_words(&words, handler).is_some() {
            return (words, handler);
        }
    }
    panic!("no sheet whose build is accepted with a handler");
}

#[test]
fn lists_of_choices_with_one_handler() {
    let mut random = Random::new(67);
    let mut ends: BTreeMap<String, usize> = BTreeMap::new();
    for (size, rounds) in [(Size::Tiny, 3000), (Size::Small, 2000), (Size::Any, 200)] {
        for round in 0..rounds {
            let (words, handler) = buildable(&mut random, round, size);
            let number = random::inside_number(&mut random, &words);
            let choices = random::choices(&mut random, &words, handler, number);
            let end = go_together(&words, handler, number, &choices, &mut random);
            let at_once = start_bounded(&sheet_of(&words, handler), number).1.unwrap().end == End::Diverted;
            *ends.entry(if at_once { "at once".into() } else { format!("{end:?}") }).or_default() += 1;
        }
    }
    assert!(ends.len() == 4 && ends.values().all(|times| *times > 200), "{ends:?}");
}

#[test]
fn kept_paths_cost_at_most_the_claimed_budget_less_the_handler() {
    let mut random = Random::new(71);
    let (mut kept, mut stopped) = (0, 0);
    for round in 0..2000 {
        let (words, handler) = buildable(&mut random, round, Size::Tiny);
        let number = random::inside_number(&mut random, &words);
        if let Some(counts) = kept_and_stopped(&words, handler, number) {
            kept += counts.0;
            stopped += counts.1;
        }
    }
    assert!(kept > 1000 && stopped > 1000, "{kept} {stopped}");
}

#[test]
fn random_costs_of_handlers() {
    let mut random = Random::new(73);
    let mut counts: BTreeMap<&str, usize> = BTreeMap::new();
    let mut count = |name: &'static str, holds: bool| *counts.entry(name).or_default() += usize::from(holds);
    for round in 0..3000 {
        let words = match round % 2 {
            0 => random::valid_graph(&mut random, Size::Small),
            _ => random::second_graph(&mut random, Size::Small),
        };
        let handler = usize::from(random::handler(&mut random, &words));
        let (smallest, largest) = (budgets(&words)[0], *budgets(&words).last().unwrap());
        count("0", handler == 0);
        count("below the smallest", handler > 0 && handler + 1 < smallest);
        count("one below", handler > 0 && handler + 1 == smallest);
        count("equal", handler > 0 && handler == smallest);
        count("one above", handler == smallest + 1);
        count("between", handler > smallest && handler < largest);
        count("above every budget", handler > largest);
        count("the largest word", handler == 65535);
    }
    assert!((900..1200).contains(&counts["0"]), "{counts:?}");
    assert!(counts.len() == 8 && counts.values().all(|times| *times > 60), "{counts:?}");
}
