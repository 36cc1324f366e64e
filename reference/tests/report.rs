// The report of a catalogue: requests K1 and K5 line by line, on the example of document 01 and on cut, long and random catalogues of both
// versions. It rests on the library's public functions; the blocks that kept paths enter, and completion costs, are found here by other ways.

mod paths;

use paths::{blocks, budgets, cost, largest_budget, number_of_paths, paths, targets};
use reference::catalogue::{catalogue, example, full, long_lines, second_example, short_catalogue};
use reference::corpus::{self, encoded};
use reference::random::{self, Random, Size};
use reference::*;
use std::collections::BTreeSet;

/// The smallest sheet: the start goes to the exit.
const SMALLEST: [u16; 9] = [2, 1, 0, 0, 1, 0, 0, 2, 0];

/// A catalogue of words as they stand.
fn bytes(words: &[u16]) -> Vec<u8> {
    words.iter().flat_map(|word| word.to_le_bytes()).collect()
}

fn loops(cost: u16, budget: u16) -> Vec<u16> {
    graph_sheet(&[0, 0, cost], &[vec![3], vec![], vec![3, 2]], budget)
}

/// The report without the margins: of each line the first four fields.
fn without_margins(text: &str) -> String {
    let line = |line: &str| line.split(' ').take(4).collect::<Vec<_>>().join(" ") + "\n";
    text.lines().map(line).collect()
}

/// The margins of an accepted sheet alone in a catalogue: what follows place, N, C and F in its line, as they are written.
fn margins(words: &[u16]) -> Vec<String> {
    let text = report(&encoded(&[words.to_vec()]));
    let line = text.lines().next().unwrap();
    line.split(' ').skip(4).map(String::from).collect()
}

#[test]
fn paper_example_at_five_budgets() {
    let sheets: Vec<Vec<u16>> = [4, 5, 8, 9, 12].iter().map(|budget| paper_example(*budget)).collect();
    let expected = "1 refused 9\n2 8 6 7 none none none none none none\n3 8 7 8 none none none 4 none 4 none\n\
        4 8 9 11 none none none none none 4 none none none\n5 8 8 9 none none none none none none none none\ntotal 32 30 35\nmost 4 9 8\n\
        unused 2 5\nunused 2 8\nunused 3 8\n";
    assert_eq!(report(&encoded(&sheets)), expected);
}

#[test]
fn empty_catalogues() {
    assert_eq!(report(&[]), "total 0 0 0\nmost none\n");
    // An odd byte alone is no word.
    assert_eq!(report(&[9]), "total 0 0 0\nmost none\n");
}

#[test]
fn a_length_of_0_is_an_empty_sheet() {
    assert_eq!(report(&[0, 0]), "1 refused 1\ntotal 0 0 0\nmost none\n");
    let around = bytes(&[&[0][..], &[9], &SMALLEST, &[0, 0]].concat());
    assert_eq!(report(&around), "1 refused 1\n2 2 2 1 none none\n3 refused 1\n4 refused 1\ntotal 2 2 1\nmost 2 2 2\n");
}

#[test]
fn an_odd_last_byte_is_ignored() {
    let mut whole = encoded(&[SMALLEST.to_vec()]);
    let expected = "1 2 2 1 none none\ntotal 2 2 1\nmost 1 2 2\n";
    assert_eq!(report(&whole), expected);
    whole.push(1);
    assert_eq!(report(&whole), expected);
}

#[test]
fn a_length_beyond_the_words_left_is_3_and_the_last() {
    let whole = encoded(&[SMALLEST.to_vec(), SMALLEST.to_vec()]);
    let one = "1 2 2 1 none none\ntotal 2 2 1\nmost 1 2 2\n";
    let cut = "1 2 2 1 none none\n2 refused 3\ntotal 2 2 1\nmost 1 2 2\n";
    assert_eq!(whole.len(), 40);
    for length in 20..40 {
        // From 22 on the second length is there, and its 9 words are not; at 39 half of the last one is.
        assert_eq!(report(&whole[..length]), if length < 22 { one } else { cut });
    }
    // It is 3 also where the words that are there, or so few words, would be refused otherwise.
    for words in [&[1][..], &[2, 7], &[65535], &[9, 1, 1, 501], &[4, 129, 1, 0], &[3, 2, 1]] {
        assert_eq!(report(&bytes(words)), "1 refused 3\ntotal 0 0 0\nmost none\n");
    }
    // A sheet with exactly the words left.
    assert_eq!(report(&bytes(&[2, 2, 1])), "1 refused 1\ntotal 0 0 0\nmost none\n");
}

#[test]
fn each_refusal_gives_its_one_line() {
    let expected: String = (1..=10).map(|number| format!("{number} refused {number}\n")).collect();
    assert_eq!(report(&encoded(&corpus::refusals())), expected + "total 0 0 0\nmost none\n");
}

#[test]
fn words_after_200_sheets_are_ignored() {
    let lines = |sheets: usize| (1..=sheets).map(|place| format!("{place} 2 2 1 none none\n")).collect::<String>();
    let mut sheets = vec![SMALLEST.to_vec(); 199];
    assert_eq!(report(&encoded(&sheets)), lines(199) + "total 398 398 199\nmost 1 2 2\n");
    sheets.push(SMALLEST.to_vec());
    let expected = lines(200) + "total 400 400 200\nmost 1 2 2\n";
    assert_eq!(report(&encoded(&sheets)), expected);
    // A 201st sheet with the greatest fraction and an unused block, a cut one, an odd byte: nothing of it counts.
    sheets.push(graph_sheet(&[0, 0, 1, 1], &[vec![3], vec![], vec![3, 2], vec![2]], 50));
    let mut more = encoded(&sheets);
    assert_eq!(report(&more), expected);
    more.truncate(more.len() - 3);
    assert_eq!(report(&more), expected);
    // The 200th cut.
    more.truncate(200 * 20 - 1);
    assert_eq!(report(&more), lines(199) + "200 refused 3\ntotal 398 398 199\nmost 1 2 2\n");
}

#[test]
fn fractions_are_compared_exactly_and_the_earlier_stays() {
    // 2 + B copies of 3 blocks.
    assert_eq!(report(&encoded(&[loops(1, 4)])), "1 3 6 9 none none 1 1 1 none\ntotal 3 6 9\nmost 1 6 3\n");
    // 5/3, 6/3, 6/3: the earlier of the equal ones.
    let text = report(&encoded(&[loops(1, 3), loops(1, 4), loops(1, 4)]));
    assert!(text.contains("\nmost 2 6 3\n"));
    // 14/6 is equal to 7/3, whichever is first.
    let two_loops = graph_sheet(
        &[0, 0, 1, 1, 1, 1],
        &[vec![3, 4], vec![], vec![3, 2], vec![4, 2], vec![2], vec![]],
        6,
    );
    let text = report(&encoded(&[loops(1, 5), two_loops.clone(), loops(1, 5)]));
    assert!(text.ends_with("total 12 28 48\nmost 1 7 3\nunused 2 5\nunused 2 6\n"), "{text}");
    let text = report(&encoded(&[two_loops.clone(), loops(1, 5)]));
    assert!(text.contains("\nmost 1 14 6\n"), "{text}");
    // 6/3, then 7/3: rounded they would be equal. 8/3 is greater than 14/6 by less than one.
    assert!(report(&encoded(&[loops(1, 4), loops(1, 5)])).contains("\nmost 2 7 3\n"));
    assert!(report(&encoded(&[two_loops, loops(1, 6)])).contains("\nmost 2 8 3\n"));
}

#[test]
fn longer_than_any_accepted_sheet() {
    let mut long = paper_example(9);
    long.resize(65535, 0);
    let mut blocks_129 = long.clone();
    blocks_129[0] = 129;
    let text = report(&encoded(&[long, SMALLEST.to_vec(), blocks_129, SMALLEST.to_vec()]));
    assert_eq!(text, "1 refused 3\n2 2 2 1 none none\n3 refused 2\n4 2 2 1 none none\ntotal 4 4 2\nmost 2 2 2\n");
}

#[test]
fn unused_blocks_agree_with_enumerated_paths_and_with_the_copies() {
    let mut random = Random::new(31);
    let (mut compared, mut enumerated, mut unused) = (0, 0, 0);
    for round in 0..3000 {
        let size = if round % 3 == 0 { Size::Small } else { Size::Tiny };
        for words in catalogue_sheets(&short_catalogue(&mut random, size)).into_iter().flatten() {
            let Some(built) = random::built_words(&words, 0) else {
                continue;
            };
            let found = unused_blocks(&words);
            let number = usize::from(built[usize::from(built[0] == 0)]);
            let copies = &built[copies_at(&built)..][..3 * number];
            let without = |entered: &BTreeSet<u16>| -> Vec<usize> {
                (1..=blocks(&words)).filter(|block| !entered.contains(block)).map(usize::from).collect()
            };
            assert_eq!(found, without(&copies.chunks(3).map(|copy| copy[0]).collect()), "{words:?}");
            compared += 1;
            unused += found.len();
            if size == Size::Tiny && number_of_paths(&words, 1, largest_budget(&words)) < 3000 {
                let kept = paths(&words, 1, largest_budget(&words));
                assert_eq!(found, without(&kept.into_iter().flat_map(|(_, blocks, _)| blocks).collect()), "{words:?}");
                enumerated += 1;
            }
        }
    }
    assert!(compared > 2000 && enumerated > 1500 && unused > 2000, "{compared} {enumerated} {unused}");
}

#[test]
fn random_catalogues_have_every_shape() {
    let (mut odd, mut cut, mut none, mut full, mut over, mut longest) = (0, 0, 0, 0, 0, 0);
    let mut refused = [0; 42];
    for seed in 0..300 {
        let bytes = catalogue(seed, 12);
        let sheets = catalogue_sheets(&bytes);
        let taken: usize = sheets.iter().flatten().map(|sheet| 2 + 2 * sheet.len()).sum();
        odd += bytes.len() % 2;
        cut += sheets.iter().filter(|sheet| sheet.is_none()).count();
        none += usize::from(sheets.is_empty());
        full += usize::from(sheets.len() == 200);
        over += usize::from(sheets.len() == 200 && taken + 1 < bytes.len());
        longest = sheets.iter().flatten().map(Vec::len).fold(longest, usize::max);
        let text = report(&bytes);
        assert!(text.ends_with('\n') && !text.contains("  ") && !text.contains(" \n"));
        for line in text.lines() {
            if let Some((_, number)) = line.split_once(" refused ") {
                refused[number.parse::<usize>().unwrap()] += 1;
            }
        }
    }
    assert!(odd > 20 && cut > 20 && none > 0 && full > 5 && over > 2 && longest == 65535);
    assert!((1..=10).chain([41]).all(|number| refused[number] > 0), "{refused:?}");
}

#[test]
fn the_stored_catalogue() {
    let bytes = example();
    let text = report(&bytes);
    assert!(bytes.len() < 30000 && bytes.len() % 2 == 1);
    for number in 1..=10 {
        assert!(text.contains(&format!(" refused {number}\n")));
    }
    assert_eq!(catalogue_sheets(&bytes).last(), Some(&None));
    let text = without_margins(&text);
    // The later of two equal fractions; 1,283 words, one more, and 129 blocks; totals that do not fit a word.
    assert!(text.contains("\nmost 26 403 3\n") && text.contains("\n27 6 806 1610\n"));
    assert!(text.contains("\n45 128 90 360\n46 refused 3\n47 refused 2\n48 8 9 11\n49 refused 3\n"));
    assert!(text.contains("\ntotal 983 67706 135525\n"));
}

#[test]
fn budgets_of_the_second_version() {
    // 2 + B copies of 3 blocks with one budget, and one more for each further start copy; an unused block by the largest budget.
    let looping = |budgets: &[u16]| with_budgets(&loops(1, 4), budgets);
    let dear = |budgets: &[u16]| budgets_sheet(&[0, 0, 2, 9], &[vec![3, 4], vec![], vec![2], vec![2]], budgets);
    let sheets = [looping(&[4]), looping(&[3, 4]), dear(&[2, 9]), dear(&[2, 8]), looping(&[4, 4]), looping(&[0]), looping(&[0, 1])];
    let expected = "1 3 6 9 none none 1 1 1 none\n2 3 7 10 1 none none 1 1 1 none\n3 4 5 6 7 none none none none\n4 4 3 3 none none none\n\
        5 refused 41\n6 refused 9\n7 3 3 3 none none none\ntotal 17 24 31\nmost 2 7 3\nunused 4 4\n";
    assert_eq!(report(&encoded(&sheets)), expected);
}

#[test]
fn each_refusal_of_the_second_version_gives_its_one_line() {
    let numbers = [1, 2, 3, 4, 41, 5, 6, 7, 8, 9, 10];
    let expected: String = numbers.iter().enumerate().map(|(index, number)| format!("{} refused {number}\n", index + 1)).collect();
    assert_eq!(report(&encoded(&corpus::second_refusals())), expected + "total 0 0 0\nmost none\n");
}

#[test]
fn the_stored_catalogue_of_the_second_version() {
    let bytes = second_example();
    let text = report(&bytes);
    assert!(bytes.len() < 30000 && bytes.len() % 2 == 1);
    for number in (1..=10).chain([41]) {
        assert!(text.contains(&format!(" refused {number}\n")), "{number}");
    }
    assert_eq!(catalogue_sheets(&bytes).last(), Some(&None));
    let text = without_margins(&text);
    // The earlier of two equal fractions; 1,288 words, one more, and 129 blocks; many budgets, and the last of many above 500.
    assert!(text.contains("\n45 3 403 803\n46 3 406 806\n47 13 4096 8192\n48 13 4096 8192\n49 refused 10\n"));
    assert!(text.contains("\n50 128 96 392\n51 refused 3\n52 refused 2\n53 refused 41\n54 refused 4\n55 refused 3\n"));
    assert!(text.contains("\nmost 47 4096 13\nunused 43 4\n"));
}

#[test]
fn margins_of_the_loop() {
    // Block 3 costs 3 and goes to itself or the exit: it completes in 3, 6, 9, .. cycles, and so does the start. With 7 cycles the copies
    // are (1, 6), (2, 0), (3, 3), (3, 6): the start's next cost is 9, above 7; the exit has no other; block 3 has 6 after 3, and 9 after 6.
    let text = report(&encoded(&[loops(3, 7), loops(3, 2)]));
    assert_eq!(text, "1 3 4 5 none none 3 none\n2 refused 9\ntotal 3 4 5\nmost 1 4 3\n");
    // With 8 that 9 is still above the budget, by one; with 9 it is the budget, and there is a copy more.
    assert_eq!(report(&encoded(&[loops(3, 8)])), "1 3 4 5 none none 3 none\ntotal 3 4 5\nmost 1 4 3\n");
    assert_eq!(report(&encoded(&[loops(3, 9)])), "1 3 5 7 none none 3 3 none\ntotal 3 5 7\nmost 1 5 3\n");
}

#[test]
fn margins_go_by_the_largest_budget() {
    // Nothing fits 2 cycles; the start copies of 3, 7 and 9 are (1, 3), (1, 6), (1, 9), and the next costs of the first two are 6 and 9,
    // though 6 is above 3 and 9 above 7. Then come (2, 0), (3, 3), (3, 6), (3, 9).
    let looping = |budgets: &[u16]| with_budgets(&loops(3, 7), budgets);
    assert_eq!(report(&encoded(&[looping(&[2, 3, 7, 9])])), "1 3 7 9 3 3 none none 3 3 none\ntotal 3 7 9\nmost 1 7 3\n");
    // With 8 in place of 9 the copies (1, 6) and (3, 6) have no next cost, and 7 and 8 share the start copy.
    assert_eq!(report(&encoded(&[looping(&[2, 3, 7, 8])])), "1 3 5 6 3 none none 3 none\ntotal 3 5 6\nmost 1 5 3\n");
    // One budget of the second version; two that share the start copy, whose next cost is one above the larger.
    assert_eq!(report(&encoded(&[looping(&[7])])), "1 3 4 5 none none 3 none\ntotal 3 4 5\nmost 1 4 3\n");
    assert_eq!(report(&encoded(&[looping(&[3, 5])])), "1 3 3 3 none none none\ntotal 3 3 3\nmost 1 3 3\n");
}

#[test]
fn margins_of_the_paper_example_with_two_budgets() {
    // Blocks 1 and 3 complete in 5, 8, 9, 12 cycles, block 4 in 3 and 7, block 5 in 6 and 10, block 6 in 2 and 6, block 7 in 1, block 8 in 5.
    // The copies: (1, 5), (1, 9), (2, 0), (3, 5), (3, 9), (4, 3), (4, 7), (5, 6), (6, 2), (6, 6), (7, 1), (8, 5).
    let expected = "3 none none 3 none 4 none none 4 none none none";
    assert_eq!(margins(&with_budgets(&paper_example(9), &[5, 9])).join(" "), expected);
    // With 10 cycles only the next cost of (5, 6) comes in; the copies stay.
    let expected = "3 none none 3 none 4 none 4 4 none none none";
    assert_eq!(margins(&with_budgets(&paper_example(9), &[5, 10])).join(" "), expected);
    // With 7 and 8: (1, 5), (1, 8), (2, 0), (3, 5), (3, 8), (4, 3), (5, 6), (6, 2), (7, 1).
    let expected = "3 none none 3 none 4 none 4 none";
    assert_eq!(margins(&with_budgets(&paper_example(9), &[7, 8])).join(" "), expected);
}

#[test]
fn the_next_cost_at_the_budget_and_one_above() {
    // The start goes to block 5 of cost 2, that to block 3 of cost 1, that to the exit or to block 4 of cost 4. Block 3 completes in 1 and 5,
    // block 5 and the start in 3 and 7. With 4 to 6 cycles the copies are (1, 3), (2, 0), (3, 1), (5, 3). The next cost of (3, 1) is 5,
    // and with 5 cycles it counts, although no path so long through block 3 is kept.
    let sheet = |budget| graph_sheet(&[0, 0, 1, 4, 2], &[vec![5], vec![], vec![2, 4], vec![2], vec![3]], budget);
    let text = report(&encoded(&[sheet(4), sheet(5), sheet(6), sheet(7)]));
    let lines: Vec<&str> = text.lines().take(4).collect();
    let expected = ["1 5 4 4 none none none none", "2 5 4 4 none none 4 none", "3 5 4 4 none none 4 none", "4 5 5 5 none none none none none"];
    assert_eq!(lines, expected);
}

/// The completion costs of each block, from 0 to `most`: a block has a cost where one of its targets has what the block leaves of it.
/// Found from the top, each asked for once. Place 0 is unused.
fn completion_costs(words: &[u16], most: usize) -> Vec<Vec<bool>> {
    fn has(words: &[u16], block: u16, left: usize, known: &mut [Vec<Option<bool>>]) -> bool {
        let at = usize::from(block);
        if let Some(answer) = known[at][left] {
            return answer;
        }
        let answer = match left.checked_sub(cost(words, block)) {
            None => false,
            Some(rest) if block == 2 => rest == 0,
            Some(rest) => targets(words, block).into_iter().any(|target| has(words, target, rest, known)),
        };
        known[at][left] = Some(answer);
        answer
    }
    let mut known = vec![vec![None; most + 1]; usize::from(blocks(words)) + 1];
    let of = |block: u16, known: &mut [Vec<Option<bool>>]| (0..=most).map(|left| has(words, block, left, known)).collect();
    let mut all = vec![vec![]];
    all.extend((1..=blocks(words)).map(|block| of(block, &mut known)));
    all
}

#[test]
fn margins_agree_with_every_number_of_cycles() {
    let mut random = Random::new(47);
    let (mut sheets, mut numbers, mut nones, mut starts, mut at, mut above, mut enumerated) = (0, 0, 0, 0, 0, 0, 0);
    for round in 0..1500 {
        let size = [Size::Tiny, Size::Small, Size::Tiny, Size::Small, Size::Any][round % 5];
        let words = match round % 3 {
            0 => random::buildable_graph(&mut random, size),
            1 => random::buildable_second_graph(&mut random, size),
            _ if round % 300 == 2 => random::graph_near_the_limits(&mut random),
            _ if round % 300 == 152 => random::second_graph_near_the_limits(&mut random),
            _ => random::second_graph(&mut random, size),
        };
        let Some(built) = random::built_words(&words, 0) else {
            continue;
        };
        let budget = largest_budget(&words);
        // One cycle more than the budget, to know the next costs that are just above it.
        let costs = completion_costs(&words, budget + 1);
        if blocks(&words) <= 5 && budget <= 8 {
            for block in (1..=blocks(&words)).filter(|block| number_of_paths(&words, *block, budget) < 3000) {
                let found: BTreeSet<usize> = paths(&words, block, budget).into_iter().map(|(_, _, cost)| cost).collect();
                assert!((0..=budget).all(|cost| costs[usize::from(block)][cost] == found.contains(&cost)), "{words:?}");
                enumerated += 1;
            }
        }
        let written = margins(&words);
        let number = usize::from(built[usize::from(built[0] == 0)]);
        assert_eq!(written.len(), number);
        for (copy, margin) in built[copies_at(&built)..][..3 * number].chunks(3).zip(&written) {
            let (of_block, low) = (&costs[usize::from(copy[0])], usize::from(copy[1]));
            let largest = |left: usize| (0..=left).rev().find(|cost| of_block[*cost]);
            if margin == "none" {
                assert!((low..=budget).all(|left| largest(left) == Some(low)), "{words:?} {copy:?}");
                nones += 1;
                above += usize::from(of_block[budget + 1]);
            } else {
                assert!(!margin.starts_with('0') && margin.bytes().all(|digit| digit.is_ascii_digit()), "{margin}");
                let next = low + margin.parse::<usize>().unwrap();
                assert!((low..next).all(|left| largest(left) == Some(low)), "{words:?} {copy:?}");
                assert!(next <= budget && largest(next) == Some(next), "{words:?} {copy:?}");
                numbers += 1;
                at += usize::from(next == budget);
                starts += usize::from(copy[0] == 1);
            }
            assert!(copy[0] != 2 || margin == "none");
        }
        sheets += 1;
        assert!(budgets(&words).len() > 1 || written[0] == "none", "{words:?}");
    }
    let seen = (sheets, numbers, nones, starts, at, above, enumerated);
    assert!(sheets > 1000 && numbers > 5000 && nones > 3000 && starts > 300 && at > 200 && above > 300 && enumerated > 1000, "{seen:?}");
}

#[test]
fn catalogues_of_200_sheets_with_4096_copies() {
    // In the first one the margins are 1 but for the start copy of the largest budget, the exit, the first block of the row when all of that
    // budget is left, and the block that goes to the exit alone. The row's later blocks are entered with less.
    let text = report(&full());
    assert!(without_margins(&text).ends_with("\n199 48 4096 8192\n200 13 4096 8192\ntotal 6100 819200 1638400\nmost 2 4096 13\n"));
    for (line, nones) in text.lines().zip([3, 4].repeat(100)) {
        let (words, digits): (Vec<&str>, Vec<&str>) = line.split(' ').skip(4).partition(|margin| *margin == "none");
        assert!(words.len() == nones && digits.len() == 4096 - nones && digits.iter().all(|margin| *margin == "1"));
    }
    // The second has the longest lines: at places of three digits 12,804 characters and a newline.
    let text = report(&long_lines());
    assert!(without_margins(&text).ends_with("\n199 128 4096 5286\n200 128 4096 5334\ntotal 25600 819200 1062000\nmost 1 4096 128\n"));
    for (line, place) in text.lines().zip(1..=200) {
        let of_length = |length: usize| line.split(' ').skip(4).filter(|margin| margin.len() == length).count();
        assert_eq!([of_length(2), of_length(3), of_length(4)], [3725, 243, 128]);
        assert_eq!(line.len(), 12801 + format!("{place}").len());
    }
}
