// The bounded sheet in both versions: its check (refusal 11), its edges by copy, and the edge words of one copy.
// It rests on header.rs, the section "Bounded sheet" and row 11 of the first table of refusals, and request K2 of document 02.

use crate::header;

/// The words of a bounded sheet by their place. Only used once the length is known to fit.
pub(crate) struct Bounded<'a> {
    words: &'a [u16],
    copies: usize,
    edges: usize,
    pub(crate) budgets: Vec<usize>,
    /// The start copy of each budget, 0 where nothing fits it; copy 1 in the first version.
    pub(crate) entries: Vec<usize>,
    /// Where the copy records begin.
    records: usize,
}

impl<'a> Bounded<'a> {
    /// The sheet, if it keeps every rule.
    pub(crate) fn read(words: &'a [u16]) -> Result<Bounded<'a>, u16> {
        match check_bounded(words) {
            0 => Bounded::of(words).ok_or(11),
            answer => Err(answer),
        }
    }

    /// The sheet by its header, or none where the row ends before its header does, or has not exactly 3C + 2F words behind it.
    fn of(words: &'a [u16]) -> Option<Bounded<'a>> {
        if words.len() < 3 {
            return None;
        }
        let (copies, edges) = header::sizes(words);
        let budgets = header::budgets(words)?;
        let (entries, records) = if header::is_second(words) {
            let entries_at = 4 + budgets.len();
            let records = entries_at + budgets.len();
            (words.get(entries_at..records)?.iter().map(|entry| usize::from(*entry)).collect(), records)
        } else {
            (vec![1], 3)
        };
        if words.len() != records + 3 * copies + 2 * edges {
            return None;
        }
        Some(Bounded { words, copies, edges, budgets, entries, records })
    }

    pub(crate) fn copies(&self) -> usize {
        self.copies
    }
    pub(crate) fn block(&self, copy: usize) -> usize {
        usize::from(self.words[self.records + 3 * (copy - 1)])
    }
    pub(crate) fn low(&self, copy: usize) -> usize {
        usize::from(self.words[self.records + 3 * (copy - 1) + 1])
    }
    fn first_edge(&self, copy: usize) -> usize {
        usize::from(self.words[self.records + 3 * (copy - 1) + 2])
    }
    /// Where the record of this edge begins in the row.
    fn edge_record(&self, edge: usize) -> usize {
        self.records + 3 * self.copies + 2 * (edge - 1)
    }
    fn target(&self, edge: usize) -> usize {
        usize::from(self.words[self.edge_record(edge)])
    }
    fn next_edge(&self, edge: usize) -> usize {
        usize::from(self.words[self.edge_record(edge) + 1])
    }

    /// The copies of a block, rising.
    fn copies_of(&self, block: usize) -> Vec<usize> {
        (1..=self.copies).filter(|copy| self.block(*copy) == block).collect()
    }

    /// The number of the exit's only copy. The sheet keeps every rule.
    pub(crate) fn exit(&self) -> usize {
        self.copies_of(2)[0]
    }

    /// The budget with this number, or none for a number outside the sheet.
    pub(crate) fn budget(&self, number: u32) -> Option<usize> {
        header::budget_numbered(&self.budgets, number)
    }

    /// The targets of a copy in 1..=C in chain order. The sheet keeps every rule.
    pub(crate) fn targets(&self, copy: usize) -> Vec<usize> {
        let mut targets = Vec::new();
        let mut edge = self.first_edge(copy);
        while edge != 0 {
            targets.push(self.target(edge));
            edge = self.next_edge(edge);
        }
        targets
    }
}

/// 0 for an accepted bounded sheet, else 11.
pub fn check_bounded(words: &[u16]) -> u16 {
    // Under 3 words, and exactly 3 + 3C + 2F words, in the second version 4 + 2 * budgets + 3C + 2F.
    match Bounded::of(words) {
        Some(sheet) if keeps_every_rule(&sheet) => 0,
        _ => 11,
    }
}

fn keeps_every_rule(sheet: &Bounded) -> bool {
    let (copies, edges) = (sheet.copies, sheet.edges);

    // Limits.
    if copies < 2 || copies > 4096 || edges < 1 || edges > 8192 {
        return false;
    }

    // B at most 500; in the second version 1 to 4 budgets, strictly rising, each at most 500.
    if !header::are_few_and_rising(&sheet.budgets) || sheet.budgets.iter().any(|budget| *budget > 500) {
        return false;
    }

    // Block 1 to 128, low at most the largest budget.
    let largest = sheet.budgets[sheet.budgets.len() - 1];
    for copy in 1..=copies {
        let block = sheet.block(copy);
        if block < 1 || block > 128 || sheet.low(copy) > largest {
            return false;
        }
    }

    // Copy order: rising by block, then low, and no pair twice.
    for copy in 2..=copies {
        let before = (sheet.block(copy - 1), sheet.low(copy - 1));
        let here = (sheet.block(copy), sheet.low(copy));
        if before >= here {
            return false;
        }
    }

    // One copy of block 2, its low 0 and its chain empty.
    let exits = sheet.copies_of(2);
    if exits.len() != 1 || sheet.low(exits[0]) != 0 || sheet.first_edge(exits[0]) != 0 {
        return false;
    }

    // The copies of block 1: one in the first version, and in the second those that the entries name.
    let starts = sheet.copies_of(1);
    if header::is_second(sheet.words) {
        for (entry, budget) in sheet.entries.iter().zip(&sheet.budgets) {
            let names_a_start = starts.contains(entry) && sheet.low(*entry) <= *budget;
            if *entry != 0 && !names_a_start {
                return false;
            }
        }
        if sheet.entries.last() == Some(&0) || starts.iter().any(|start| !sheet.entries.contains(start)) {
            return false;
        }
    } else if starts.len() != 1 {
        return false;
    }

    // Edge order with every edge used: the chains of copies 1 to C meet 1, 2, .., F in this order.
    let mut expected = 1;
    for copy in 1..=copies {
        let mut edge = sheet.first_edge(copy);
        while edge != 0 {
            if edge != expected || edge > edges {
                return false;
            }
            expected += 1;
            edge = sheet.next_edge(edge);
        }
    }
    if expected != edges + 1 {
        return false;
    }

    // Targets 0 or any copy but those of block 1.
    for edge in 1..=edges {
        let target = sheet.target(edge);
        if target > copies || starts.contains(&target) {
            return false;
        }
    }
    true
}

/// The answer (11, then 33, else 0) and the edge words of one copy; empty under a refusal.
pub fn edge_words(words: &[u16], copy: u32) -> (u16, Vec<u16>) {
    let sheet = match Bounded::read(words) {
        Ok(sheet) => sheet,
        Err(answer) => return (answer, Vec::new()),
    };
    if copy < 1 || copy > sheet.copies() as u32 {
        return (33, Vec::new());
    }
    let mut part = Vec::new();
    let mut edge = sheet.first_edge(copy as usize);
    while edge != 0 {
        part.push(sheet.target(edge) as u16);
        part.push(sheet.next_edge(edge) as u16);
        edge = sheet.next_edge(edge);
    }
    (0, part)
}

/// Where the copy records begin in a bounded sheet that keeps every rule, or in a row that a build has filled.
pub fn copies_at(words: &[u16]) -> usize {
    match header::budgets(words) {
        Some(budgets) if header::is_second(words) => 4 + 2 * budgets.len(),
        _ => 3,
    }
}

/// How many words the bounded sheet has with which such a row begins.
pub fn filled_words(words: &[u16]) -> usize {
    let (copies, edges) = header::sizes(words);
    copies_at(words) + 3 * copies + 2 * edges
}
