// Every example of document 01 as a test, its orders of refusals, and its claims on random sheets of both versions; no handler costs anything.
// It rests on the library's public functions and on paths enumerated one by one, nothing cleverer.

mod paths;
mod together;

use paths::{blocks, budgets, cost, largest_budget, number_of_paths, paths, targets};
use reference::random::{self, Random, Size};
use reference::*;
use together::{go_together, kept_and_stopped};

const AREA: usize = LARGEST_AREA;
const OUTPUT: usize = LARGEST_OUTPUT;

fn bytes(words: &[u16]) -> Vec<u8> {
    words.iter().flat_map(|word| word.to_le_bytes()).collect()
}

fn list(words: &[u16]) -> String {
    listing(&bytes(words))
}

fn heading(words: &[u16]) -> String {
    list(words).lines().next().unwrap_or("").to_string()
}

fn sheet_of(words: &[u16]) -> Vec<u16> {
    together::sheet_of(words, 0)
}

fn going(place: u32, count: u32) -> Walk {
    ended(place, count, End::Going)
}

/// A walk with the one budget of a sheet of the first version.
fn ended(place: u32, count: u32, end: End) -> Walk {
    Walk { place, count, end, budget: 1 }
}

// The worked example.

#[test]
fn paper_example_is_the_sheet_described() {
    let words = paper_example(9);
    assert_eq!(
        words,
        [
            8, 9, 9, // header
            0, 1, 0, 0, 2, 2, 1, 4, 4, 5, 1, 6, 1, 8, 5, 9, // blocks
            3, 0, 4, 3, 5, 0, 6, 0, 6, 0, 7, 7, 8, 0, 2, 0, 2, 0, // edges
        ]
    );
    assert_eq!(check_graph(&words), 0);
}

#[test]
fn paper_example_completions_of_block_3() {
    let table = completion_table(&paper_example(20), 0);
    let costs: Vec<usize> = (0..=20).filter(|cost| table[2 * 21 + cost] == 1).collect();
    assert_eq!(costs, [5, 8, 9, 12]);
}

#[test]
fn paper_example_whole_listing() {
    let expected = "copies 9 edges 11 budget 9\n\
        1 1 9 3\n2 2 0\n3 3 9 4 5\n4 4 7 7\n5 5 6 6\n6 6 2 8 0\n7 6 6 8 9\n8 7 1 2\n9 8 5 2\n";
    assert_eq!(list(&paper_example(9)), expected);
    assert_eq!(
        list(&paper_example(11)),
        expected.replace("budget 9", "budget 11"),
    );
}

#[test]
fn paper_example_other_budgets() {
    assert_eq!(list(&paper_example(4)), "refused 9\n");
    assert_eq!(heading(&paper_example(5)), "copies 6 edges 7 budget 5");
    assert_eq!(heading(&paper_example(7)), "copies 6 edges 7 budget 7");
    assert_eq!(heading(&paper_example(8)), "copies 7 edges 8 budget 8");
    assert_eq!(heading(&paper_example(12)), "copies 8 edges 9 budget 12");
    let (words, mut targets) = (sheet_of(&paper_example(12)), Vec::new());
    for copy in 1..=8 {
        let (answer, part) = edge_words(&words, copy);
        assert_eq!(answer, 0);
        targets.extend(part.chunks(2).map(|record| record[0]));
    }
    assert_eq!(targets.len(), 9);
    assert!(targets.iter().all(|target| *target != 0));
}

#[test]
fn smallest_sheet() {
    let words = [2, 1, 0, 0, 1, 0, 0, 2, 0];
    assert_eq!(sheet_of(&words), [2, 1, 0, 1, 0, 1, 2, 0, 0, 2, 0]);
}

#[test]
fn self_loop() {
    let graph = |budget| graph_sheet(&[0, 0, 3], &[vec![3], vec![], vec![3, 2]], budget);
    let words = sheet_of(&graph(7));
    assert_eq!(words[..3], [4, 5, 7]);
    let copies: Vec<(u16, u16)> = words[3..15].chunks(3).map(|copy| (copy[0], copy[1])).collect();
    assert_eq!(copies, [(1, 6), (2, 0), (3, 3), (3, 6)]);
    assert_eq!(sheet_of(&graph(9))[0], 5);
}

#[test]
fn two_edges_to_the_same_target() {
    let words = sheet_of(&graph_sheet(&[0, 0, 1], &[vec![3], vec![], vec![2, 2]], 1));
    assert_eq!(edge_words(&words, 3), (0, vec![2, 3, 2, 0]));
    assert_eq!(list(&graph_sheet(&[0, 0, 1], &[vec![3], vec![], vec![2, 2]], 1)),
        "copies 3 edges 3 budget 1\n1 1 1 3\n2 2 0\n3 3 1 2 2\n");
}

#[test]
fn refusals_of_the_example_list() {
    assert_eq!(check_graph(&paper_example(500)), 0);
    assert_eq!(check_graph(&paper_example(501)), 4);
    let many = |blocks: usize| {
        let mut costs = vec![1; blocks];
        costs[0] = 0;
        costs[1] = 0;
        let mut successors = vec![vec![]; blocks];
        successors[0] = vec![2];
        graph_sheet(&costs, &successors, 5)
    };
    assert_eq!(check_graph(&many(128)), 0);
    assert_eq!(check_graph(&many(129)), 2);
    assert_eq!(check_graph(&[2, 1, 0, 0, 1, 0, 0, 2, 1]), 7);
}

// Each refusal, and their orders.

#[test]
fn refusals_1_to_8_in_order() {
    assert_eq!(check_graph(&[]), 1);
    assert_eq!(check_graph(&[0, 0]), 1);
    assert_eq!(check_graph(&[1, 1, 501]), 2);
    assert_eq!(check_graph(&[2, 0, 501]), 2);
    assert_eq!(check_graph(&[2, 513, 501]), 2);
    assert_eq!(check_graph(&[2, 1, 501]), 3);
    assert_eq!(check_graph(&[2, 1, 0, 0, 1, 0, 0, 2, 0, 0]), 3);
    assert_eq!(check_graph(&[2, 1, 501, 1, 9, 0, 0, 0, 0]), 4);
    // 5 before 6 before 7 before 8.
    assert_eq!(check_graph(&[2, 1, 0, 1, 9, 0, 1, 1, 0]), 5);
    assert_eq!(check_graph(&[2, 1, 0, 0, 9, 1, 1, 1, 0]), 5);
    assert_eq!(check_graph(&[3, 1, 0, 0, 1, 0, 0, 0, 0, 2, 0]), 5);
    assert_eq!(check_graph(&[2, 1, 0, 0, 9, 0, 1, 0, 0]), 6);
    assert_eq!(check_graph(&[2, 1, 0, 0, 9, 0, 1, 1, 0]), 6);
    assert_eq!(check_graph(&[2, 1, 0, 0, 9, 0, 1, 3, 0]), 6);
    // A target is looked at in a chain or not.
    assert_eq!(check_graph(&[2, 2, 0, 0, 1, 0, 0, 2, 0, 1, 0]), 6);
    // Above E, twice, missed.
    assert_eq!(check_graph(&[2, 1, 0, 0, 2, 0, 0, 2, 0]), 7);
    assert_eq!(check_graph(&[2, 1, 0, 0, 1, 0, 0, 2, 2]), 7);
    assert_eq!(check_graph(&[2, 1, 0, 0, 1, 0, 1, 2, 0]), 7);
    assert_eq!(check_graph(&[2, 1, 0, 0, 0, 0, 0, 2, 0]), 7);
    // The exit's chain: sound is 8, unsound is 7.
    assert_eq!(check_graph(&[2, 1, 0, 0, 0, 0, 1, 2, 0]), 8);
    assert_eq!(check_graph(&[2, 1, 0, 0, 1, 0, 2, 2, 0]), 7);
    // A file with an odd number of bytes.
    assert_eq!(listing(&[0]), "refused 1\n");
    let mut file = bytes(&paper_example(9));
    file.push(0);
    assert_eq!(listing(&file), "refused 1\n");
    assert_eq!(listing(&[]), "refused 1\n");
    assert_eq!(listing(&[2, 0, 1, 0, 0]), "refused 1\n");
}

#[test]
fn number_of_successors() {
    let words = paper_example(9);
    let counts: Vec<(u16, u16)> = (0..=9).map(|block| successor_count(&words, block)).collect();
    let expected = [
        (33, 0), (0, 1), (0, 0), (0, 2), (0, 1), (0, 1), (0, 2), (0, 1), (0, 1), (33, 0),
    ];
    assert_eq!(counts, expected);
    assert_eq!(successor_count(&[2], 7), (1, 0));
}

#[test]
fn build_answers_in_order_with_what_they_leave() {
    let words = paper_example(9);
    let table = completion_table(&words, 0);
    assert_eq!(table.len(), 80);
    let needed = 3 + 3 * 9 + 2 * 11;

    let refused = build(&words[..36], 0, &[7; 3], &[9; 2]);
    assert_eq!(refused, Built { answer: 3, area: vec![7; 3], output: vec![9; 2] });

    let short = build(&paper_example(4), 0, &[7; 39], &[9; 2]);
    assert_eq!(short, Built { answer: 21, area: vec![7; 39], output: vec![9; 2] });

    let unfit = build(&paper_example(4), 0, &[7; 42], &[9; 2]);
    assert_eq!((unfit.answer, &unfit.output), (9, &vec![9; 2]));
    assert_eq!(unfit.area[..40], completion_table(&paper_example(4), 0));
    assert_eq!(unfit.area[40..], [7, 7]);

    let narrow = build(&words, 0, &[7; 80], &vec![9; needed - 1]);
    assert_eq!((narrow.answer, narrow.area), (22, table.clone()));
    assert_eq!(narrow.output, vec![9; needed - 1]);

    let exact = build(&words, 0, &[7; 81], &vec![9; needed + 2]);
    assert_eq!(exact.answer, 0);
    assert_eq!((&exact.area[..80], exact.area[80]), (&table[..], 7));
    assert_eq!(exact.output[..needed], sheet_of(&words));
    assert_eq!(exact.output[needed..], [9, 9]);
}

#[test]
fn limits_of_copies_and_edges() {
    let graph = reference::corpus::at_the_limits;
    assert_eq!(sheet_of(&graph(1, false))[..3], [4096, 8189, 134]);
    assert_eq!(sheet_of(&graph(4, false))[..3], [4096, 8192, 134]);
    assert_eq!(check_bounded(&sheet_of(&graph(4, false))), 0);
    let answer = |words: &[u16], output: usize| build(words, 0, &vec![7; AREA], &vec![9; output]).answer;
    assert_eq!(answer(&graph(5, false), OUTPUT), 10);
    assert_eq!(answer(&graph(1, true), OUTPUT), 10);
    // 10 before 22, and the area holds the table.
    assert_eq!(answer(&graph(5, false), 0), 10);
    assert_eq!(answer(&graph(4, false), 0), 22);
    let built = build(&graph(5, false), 0, &vec![7; 48 * 135 + 1], &[9]);
    assert_eq!(built.area[..48 * 135], completion_table(&graph(5, false), 0));
    assert_eq!((built.area[48 * 135], built.output), (7, vec![9]));
}

#[test]
fn bounded_sheet_rules() {
    let sound = [2, 1, 0, 1, 0, 1, 2, 0, 0, 2, 0];
    assert_eq!(check_bounded(&sound), 0);
    let changed = |index: usize, value: u16| {
        let mut words = sound.to_vec();
        words[index] = value;
        check_bounded(&words)
    };
    for length in 0..sound.len() {
        assert_eq!(check_bounded(&sound[..length]), 11);
    }
    assert_eq!(changed(2, 500), 0);
    assert_eq!(changed(2, 501), 11);
    assert_eq!(changed(3, 2), 11); // no copy of block 1
    assert_eq!(changed(4, 1), 11); // low above B
    assert_eq!(changed(5, 0), 11); // edge not used
    assert_eq!(changed(6, 3), 11); // no copy of block 2
    assert_eq!(changed(8, 1), 11); // the exit has a chain
    assert_eq!(changed(9, 0), 0);
    assert_eq!(changed(9, 1), 11);
    assert_eq!(changed(9, 3), 11);
    assert_eq!(changed(10, 1), 11);

    // Copy 3 has no chain, loops and unreached copies pass, the order is strict.
    let free = [4, 2, 5, 1, 5, 1, 2, 0, 0, 3, 4, 0, 128, 0, 2, 2, 0, 4, 0];
    assert_eq!(check_bounded(&free), 0);
    let mut twice = free;
    twice[12] = 3;
    twice[13] = 4;
    assert_eq!(check_bounded(&twice), 11);
    twice[13] = 5;
    assert_eq!(check_bounded(&twice), 0);
    let mut block_129 = free;
    block_129[12] = 129;
    assert_eq!(check_bounded(&block_129), 11);
    let mut crossed = free;
    crossed[5] = 2;
    crossed[14] = 1;
    assert_eq!(check_bounded(&crossed), 11);
    let mut second_start = free;
    second_start[..12].copy_from_slice(&[4, 2, 5, 1, 4, 1, 1, 5, 0, 2, 0, 0]);
    assert_eq!(check_bounded(&second_start), 11);
    let mut exit_low = free;
    exit_low[7] = 1;
    assert_eq!(check_bounded(&exit_low), 11);
}

#[test]
fn edge_words_of_a_copy() {
    let words = sheet_of(&paper_example(9));
    assert_eq!(edge_words(&words, 1), (0, vec![3, 0]));
    assert_eq!(edge_words(&words, 2), (0, vec![]));
    assert_eq!(edge_words(&words, 6), (0, vec![8, 7, 0, 0]));
    assert_eq!(edge_words(&words, 0), (33, vec![]));
    assert_eq!(edge_words(&words, 10), (33, vec![]));
    assert_eq!(edge_words(&words, u32::MAX), (33, vec![]));
    assert_eq!(edge_words(&words[1..], 0), (11, vec![]));
}

#[test]
fn guarded_moves_in_order() {
    let words = paper_example(9);
    let table = completion_table(&words, 0);
    let go = |walk: Walk, choice: u32| {
        let (answer, after, area) = guarded_move(&words, 0, &[7; 82], walk, choice);
        assert_eq!((&area[..80], &area[80..]), (&table[..], &[7, 7][..]));
        if answer != 0 {
            assert_eq!(after, walk);
        }
        (answer, after)
    };
    assert_eq!(guarded_move(&words[..36], 0, &[], going(9, 99), 0), (3, going(9, 99), vec![]));
    assert_eq!(guarded_move(&words, 0, &[7; 79], going(9, 99), 0), (21, going(9, 99), vec![7; 79]));
    assert_eq!(guarded_move(&paper_example(4), 0, &[7; 40], going(9, 99), 0).0, 9);
    assert_eq!(go(going(0, 0), 0).0, 33);
    assert_eq!(go(going(9, 0), 0).0, 33);
    assert_eq!(go(going(2, 0), 0).0, 33);
    assert_eq!(go(going(3, 10), 0).0, 33);
    assert_eq!(go(ended(3, 2, End::Exit), 0).0, 33);
    assert_eq!(go(ended(2, 2, End::Diverted), 0).0, 33);
    assert_eq!(go(ended(2, 10, End::Exit), 0).0, 33);
    assert_eq!(go(ended(3, 10, End::Diverted), 0).0, 33);
    assert_eq!(go(ended(2, 9, End::Exit), 0).0, 32);
    assert_eq!(go(ended(3, 9, End::Diverted), 0).0, 32);
    assert_eq!(go(Walk::start(), 0).0, 31);
    assert_eq!(go(Walk::start(), 2).0, 31);
    assert_eq!(go(Walk::start(), 1), (0, going(3, 2)));
    assert_eq!(go(going(3, 2), 2), (0, going(5, 6)));
    assert_eq!(go(going(5, 6), 1), (0, going(6, 7)));
    assert_eq!(go(going(6, 7), 2), (0, ended(6, 7, End::Diverted)));
    assert_eq!(go(going(6, 7), 1), (0, going(7, 8)));
    assert_eq!(go(going(7, 8), 1), (0, ended(2, 8, End::Exit)));
    // A path costing exactly the budget is kept.
    assert_eq!(go(going(6, 4), 2), (0, going(8, 9)));
    assert_eq!(go(going(6, 5), 2), (0, ended(6, 5, End::Diverted)));
}

#[test]
fn bounded_moves_in_order() {
    let words = sheet_of(&paper_example(9));
    let go = |walk: Walk, choice: u32| bounded_move(&words, walk, choice);
    assert_eq!(bounded_move(&words[1..], going(0, 99), 0), (11, going(0, 99)));
    assert_eq!(go(going(0, 0), 0).0, 33);
    assert_eq!(go(going(10, 0), 0).0, 33);
    assert_eq!(go(going(2, 0), 0).0, 33);
    assert_eq!(go(going(1, 10), 0).0, 33);
    assert_eq!(go(ended(3, 1, End::Exit), 0).0, 33);
    assert_eq!(go(ended(2, 11, End::Exit), 0).0, 33);
    assert_eq!(go(ended(2, 10, End::Exit), 0).0, 32);
    assert_eq!(go(ended(3, 10, End::Diverted), 0).0, 32);
    assert_eq!(go(Walk::start(), 0).0, 31);
    assert_eq!(go(Walk::start(), 2).0, 31);
    assert_eq!(go(Walk::start(), 1), (0, going(3, 1)));
    assert_eq!(go(going(6, 3), 2), (0, ended(6, 4, End::Diverted)));
    assert_eq!(go(going(8, 9), 1), (0, ended(2, 10, End::Exit)));
    // A going walk with count B whose move does not end counts on; the next move is then 33.
    assert_eq!(go(going(1, 9), 1), (0, going(3, 10)));
    assert_eq!(go(going(3, 10), 1).0, 33);
}

#[test]
fn plain_monitor() {
    let words = paper_example(9);
    assert_eq!(monitor_step(&words, 0, Walk::start(), 1), (0, going(3, 2)));
    assert_eq!(monitor_step(&words, 0, Walk::start(), 0), (31, Walk::start()));
    let diverted = ended(6, 7, End::Diverted);
    assert_eq!(monitor_step(&words, 0, going(6, 7), 2), (0, diverted));
    assert_eq!(monitor_step(&words, 0, diverted, 2), (32, diverted));
}

// The claims, on random sheets.

/// A valid sheet of one version and then of the other.
fn of_both(random: &mut Random, round: usize) -> Vec<u16> {
    if round % 2 == 0 {
        random::valid_graph(random, Size::Tiny)
    } else {
        random::second_graph(random, Size::Tiny)
    }
}

fn buildable_of_both(random: &mut Random, round: usize, size: Size) -> Vec<u16> {
    if round % 2 == 0 {
        random::buildable_graph(random, size)
    } else {
        random::buildable_second_graph(random, size)
    }
}

#[test]
fn tables_and_copies_agree_with_enumerated_paths() {
    let mut random = Random::new(11);
    let mut checked = 0;
    for round in 0..3000 {
        let words = of_both(&mut random, round);
        assert_eq!(check_graph(&words), 0);
        let (blocks, budget) = (blocks(&words), largest_budget(&words));
        if (1..=blocks).map(|block| number_of_paths(&words, block, budget)).sum::<usize>() > 3000 {
            continue;
        }
        checked += 1;

        // The table holds the costs of all paths.
        let mut table = vec![0; blocks as usize * (budget + 1)];
        for block in 1..=blocks {
            for (_, _, total) in paths(&words, block, budget) {
                table[(block as usize - 1) * (budget + 1) + total] = 1;
            }
        }
        assert_eq!(completion_table(&words, 0), table);
        let largest = |block: u16, left: usize| {
            let row = &table[(block as usize - 1) * (budget + 1)..][..=left];
            row.iter().rposition(|byte| *byte == 1)
        };

        // The start copies, and the copies: added round by round until no round adds one.
        let built = build(&words, 0, &vec![7; AREA], &vec![9; OUTPUT]);
        if largest(1, budget).is_none() {
            assert_eq!(built.answer, 9);
            continue;
        }
        let starts: Vec<Option<usize>> = budgets(&words).iter().map(|budget| largest(1, *budget)).collect();
        let mut copies: Vec<(u16, usize)> = Vec::new();
        for low in starts.iter().flatten() {
            if !copies.contains(&(1, *low)) {
                copies.push((1, *low));
            }
        }
        loop {
            let mut more = Vec::new();
            for (block, low) in &copies {
                for target in targets(&words, *block) {
                    if let Some(next) = largest(target, low - cost(&words, *block)) {
                        if !copies.contains(&(target, next)) && !more.contains(&(target, next)) {
                            more.push((target, next));
                        }
                    }
                }
            }
            if more.is_empty() {
                break;
            }
            copies.extend(more);
        }
        copies.sort();
        let number = |copy: (u16, usize)| 1 + copies.iter().position(|other| *other == copy).unwrap() as u16;

        // The header, with an entry for each budget in the second version.
        assert_eq!(built.answer, 0);
        let sheet = &built.output[..filled_words(&built.output)];
        let edges: usize = copies.iter().map(|(block, _)| targets(&words, *block).len()).sum();
        let named: Vec<u16> = budgets(&words).iter().map(|budget| *budget as u16).collect();
        let header = if words[0] == 0 {
            let entries: Vec<u16> = starts.iter().map(|low| low.map_or(0, |low| number((1, low)))).collect();
            [vec![0, copies.len() as u16, edges as u16, named.len() as u16], named, entries].concat()
        } else {
            vec![copies.len() as u16, edges as u16, named[0]]
        };
        assert_eq!(sheet[..header.len()], header);
        assert_eq!(copies_at(sheet), header.len());
        assert_eq!(check_bounded(sheet), 0);

        for (index, (block, low)) in copies.iter().enumerate() {
            assert_eq!(sheet[header.len() + 3 * index..][..2], [*block, *low as u16]);
            let expected: Vec<u16> = targets(&words, *block)
                .iter()
                .map(|target| match largest(*target, low - cost(&words, *block)) {
                    Some(next) => number((*target, next)),
                    None => 0,
                })
                .collect();
            let (answer, part) = edge_words(sheet, index as u32 + 1);
            assert_eq!(answer, 0);
            let found: Vec<u16> = part.chunks(2).map(|record| record[0]).collect();
            assert_eq!(found, expected);
        }
    }
    assert!(checked > 2000);
}

#[test]
fn lists_of_choices() {
    let mut random = Random::new(5);
    for (size, rounds) in [(Size::Tiny, 6000), (Size::Small, 2000), (Size::Any, 300)] {
        for round in 0..rounds {
            let words = buildable_of_both(&mut random, round, size);
            let number = random::inside_number(&mut random, &words);
            let choices = random::choices(&mut random, &words, 0, number);
            go_together(&words, 0, number, &choices, &mut random);
        }
    }
    go_together(&paper_example(9), 0, 1, &[], &mut random);
    go_together(&with_budgets(&paper_example(9), &[4, 9]), 0, 1, &[], &mut random);
}

#[test]
fn paths_run_unchanged_exactly_within_the_budget() {
    let mut random = Random::new(23);
    let (mut kept, mut stopped) = (0, 0);
    for round in 0..1600 {
        let words = buildable_of_both(&mut random, round, Size::Tiny);
        let number = random::inside_number(&mut random, &words);
        if let Some(counts) = kept_and_stopped(&words, 0, number) {
            kept += counts.0;
            stopped += counts.1;
        }
    }
    assert!(kept > 1000 && stopped > 1000);
}

#[test]
fn tiny_material_is_tiny() {
    let mut random = Random::new(3);
    let is_tiny = |words: &[u16]| blocks(words) <= 5 && words[if words[0] == 0 { 2 } else { 1 }] <= 8 && largest_budget(words) <= 8;
    for round in 0..6000 {
        let words = of_both(&mut random, round);
        assert_eq!(check_graph(&words), 0);
        assert!(is_tiny(&words));
        let words = match round % 2 {
            0 => random::damaged_graph(&mut random, Size::Tiny),
            _ => random::damaged_second_graph(&mut random, Size::Tiny),
        };
        assert!(matches!(check_graph(&words), 1..=4 | 41) || is_tiny(&words));
        let sound = match round % 2 {
            0 => random::sound_bounded_sheet(&mut random, Size::Tiny),
            _ => random::sound_second_bounded_sheet(&mut random, Size::Tiny),
        };
        assert_eq!(check_bounded(&sound), 0);
        let words = match round % 2 {
            0 => random::damaged_bounded_sheet(&mut random, Size::Tiny),
            _ => random::damaged_second_bounded_sheet(&mut random, Size::Tiny),
        };
        assert!(check_bounded(&words) == 11 || largest_budget(&words) <= 8);
    }
}

#[test]
fn nothing_panics_and_refusals_keep_what_is_lent() {
    let mut random = Random::new(77);
    for round in 0..6000 {
        let size = if round % 10 == 0 { Size::Any } else { Size::Tiny };
        let words = match random.below(6) {
            0 => (0..random.below(30)).map(|_| random.below(12) as u16).collect(),
            // Any words behind a first word 0.
            1 => (0..random.below(30)).map(|index| if index == 0 { 0 } else { random.below(6) as u16 }).collect(),
            2 => random::bounded_words(&mut random, size, 100),
            3 => random::bounded_words(&mut random, size, 0),
            4 => random::graph_words(&mut random, size, 0),
            _ if random.chance(10) => random::many_budgets(&mut random, 70000),
            _ => random::graph_words(&mut random, size, 100),
        };
        let area = vec![7; random.below(60)];
        let output = vec![9; random.below(60)];
        let answer = check_graph(&words);
        let built = build(&words, 0, &area, &output);
        if built.answer != 0 {
            assert_eq!(built.output, output);
        }
        if answer != 0 {
            assert_eq!(built.answer, answer);
            assert_eq!(completion_table(&words, 0), []);
        }
        if answer != 0 || built.answer == 21 {
            assert_eq!(built.area, area);
        }
        let walk = random::graph_walk(&mut random, &words, 0);
        let (answer, after, moved) = guarded_move(&words, 0, &area, walk, random.below(4) as u32);
        if answer != 0 {
            assert_eq!(after, walk);
        }
        // A start leaves the area as a move does, and its refusals are the move's up to 33.
        let (start, set, started) = start_guarded(&words, 0, &area, walk.budget);
        assert_eq!(started, moved);
        assert_eq!(set.is_some(), start == 0);
        if !matches!(answer, 0 | 31 | 32 | 33) {
            assert_eq!(start, answer);
        }
        let walk = random::bounded_walk(&mut random, &words);
        let (answer, after) = bounded_move(&words, walk, random.below(4) as u32);
        if answer != 0 {
            assert_eq!(after, walk);
        }
        let (start, set) = start_bounded(&words, walk.budget);
        assert_eq!((start == 11, start == 0), (answer == 11, set.is_some()));
        monitor_step(&words, 0, walk, random.below(4) as u32);
        successor_count(&words, random.below(140) as u16);
        edge_words(&words, random.below(30) as u32);
        listing(&bytes(&words));
    }
}
