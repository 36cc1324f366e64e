// A build tuned as one would in C: one pass of checks that decodes as it goes, rows that are kept between calls and cleared only as far as they
// are used, completions as masks over blocks, marks as masks over lows. It rests on document 01 and requests K2 and K6 of document 02; the
// measurement holds it to the reference.

const MOST_BLOCKS: usize = 128;
const MOST_EDGES: usize = 512;
const MOST_BUDGET: usize = 500;
const MOST_BUDGETS: usize = 4;
const MOST_COPIES: usize = 4096;
const MOST_BOUNDED_EDGES: usize = 8192;
const WIDTH: usize = MOST_BUDGET + 1;
const NONE: u16 = u16::MAX;

/// What the header of a graph sheet says.
struct Header {
    second: bool,
    n: usize,
    /// The budgets less the handler's cost, and how many there are.
    lowered: [u16; MOST_BUDGETS],
    several: usize,
}

impl Header {
    /// A header with these budgets, none of them below the handler's cost.
    fn new(second: bool, n: usize, budgets: &[u16], handler: u16) -> Header {
        let mut lowered = [0; MOST_BUDGETS];
        for (lower, budget) in lowered.iter_mut().zip(budgets) {
            *lower = budget - handler;
        }
        Header { second, n, lowered, several: budgets.len() }
    }

    fn budgets(&self) -> &[u16] {
        &self.lowered[..self.several]
    }

    /// The number of costs that the table has for each block.
    fn width(&self) -> usize {
        self.lowered[self.several - 1] as usize + 1
    }

    /// The number of words of the bounded sheet's header.
    fn bounded_words(&self) -> usize {
        if self.second { 4 + 2 * self.several } else { 3 }
    }
}

/// What a build works in, made once.
pub struct Workspace {
    costs: [usize; MOST_BLOCKS + 1],
    first: [usize; MOST_BLOCKS + 2],
    targets: [u8; MOST_EDGES],
    next: [u128; MOST_BLOCKS + 1],
    has: [u128; WIDTH],
    lows: Vec<u16>,
    numbers: Vec<u16>,
    marks: [[u64; 8]; MOST_BLOCKS + 1],
    waiting: Vec<(u8, u16)>,
}

impl Default for Workspace {
    fn default() -> Self {
        Workspace {
            costs: [0; MOST_BLOCKS + 1],
            first: [0; MOST_BLOCKS + 2],
            targets: [0; MOST_EDGES],
            next: [0; MOST_BLOCKS + 1],
            has: [0; WIDTH],
            lows: vec![0; MOST_BLOCKS * WIDTH],
            numbers: vec![0; MOST_BLOCKS * WIDTH],
            marks: [[0; 8]; MOST_BLOCKS + 1],
            waiting: Vec::with_capacity(MOST_COPIES + MOST_EDGES),
        }
    }
}

impl Workspace {
    /// The conditions 1 to 8 with 41 and 43; where none holds the graph stands in flat rows.
    fn check(&mut self, sheet: &[u16], handler: u16) -> Result<Header, u16> {
        if sheet.len() < 3 {
            return Err(1);
        }
        let second = sheet[0] == 0;
        let sizes = usize::from(second);
        let (n, m) = (sheet[sizes] as usize, sheet[sizes + 1] as usize);
        if !(2..=MOST_BLOCKS).contains(&n) || !(1..=MOST_EDGES).contains(&m) {
            return Err(2);
        }
        let blocks_at = match (second, sheet.get(3)) {
            (false, _) => 3,
            (true, Some(number)) => 4 + *number as usize,
            (true, None) => return Err(3),
        };
        if sheet.len() != blocks_at + 2 * n + 2 * m {
            return Err(3);
        }
        let budgets = &sheet[if second { 4 } else { 2 }..blocks_at];
        if budgets.iter().any(|budget| *budget as usize > MOST_BUDGET) {
            return Err(4);
        }
        if !(1..=MOST_BUDGETS).contains(&budgets.len()) || budgets.windows(2).any(|pair| pair[0] >= pair[1]) {
            return Err(41);
        }
        if handler > budgets[0] {
            return Err(43);
        }
        match self.decode(&sheet[blocks_at..], n, m) {
            0 => Ok(Header::new(second, n, budgets, handler)),
            answer => Err(answer),
        }
    }

    /// The conditions 5 to 8 on the records; under 0 the graph stands in flat rows.
    fn decode(&mut self, records: &[u16], n: usize, m: usize) -> u16 {
        let (blocks, edges) = records.split_at(2 * n);
        if blocks[0] != 0 || blocks[2] != 0 || blocks[4..].chunks_exact(2).any(|record| record[0] == 0) {
            return 5;
        }
        if edges.chunks_exact(2).any(|record| (record[0] as usize) < 2 || record[0] as usize > n) {
            return 6;
        }
        let mut seen = [0u64; MOST_EDGES / 64 + 1];
        let mut count = 0;
        for block in 1..=n {
            self.costs[block] = blocks[2 * block - 2] as usize;
            self.first[block] = count;
            let mut mask = 0;
            let mut edge = blocks[2 * block - 1] as usize;
            while edge != 0 {
                if edge > m || seen[edge / 64] >> (edge % 64) & 1 == 1 {
                    return 7;
                }
                seen[edge / 64] |= 1 << (edge % 64);
                let target = edges[2 * edge - 2];
                self.targets[count] = target as u8;
                mask |= 1u128 << (target - 1);
                count += 1;
                edge = edges[2 * edge - 1] as usize;
            }
            self.next[block] = mask;
        }
        self.first[n + 1] = count;
        if count != m {
            return 7;
        }
        if blocks[3] != 0 {
            return 8;
        }
        0
    }

    /// The completions, cost by cost, as masks over blocks; then the bytes of the area.
    fn weigh(&mut self, n: usize, width: usize, area: &mut [u8]) {
        for cost in 0..width {
            let mut mask = u128::from(cost == 0) << 1;
            for block in 3..=n {
                let own = self.costs[block];
                if own <= cost && self.has[cost - own] & self.next[block] != 0 {
                    mask |= 1 << (block - 1);
                }
            }
            self.has[cost] = mask;
            if mask & self.next[1] != 0 {
                self.has[cost] |= 1;
            }
        }
        for block in 0..n {
            for (byte, mask) in area[block * width..(block + 1) * width].iter_mut().zip(&self.has) {
                *byte = (mask >> block) as u8 & 1;
            }
        }
    }

    fn fill_lows(&mut self, n: usize, width: usize, area: &[u8]) {
        for block in 0..n {
            let mut low = NONE;
            let row = block * width..(block + 1) * width;
            for (cost, (entry, byte)) in self.lows[row.clone()].iter_mut().zip(&area[row]).enumerate() {
                if *byte == 1 {
                    low = cost as u16;
                }
                *entry = low;
            }
        }
    }

    /// Marks the copies that are reached; their numbers of copies and edges, or none once there are too many.
    fn reach(&mut self, header: &Header, width: usize) -> Option<(usize, usize)> {
        self.marks[..=header.n].fill([0; 8]);
        self.waiting.clear();
        let (mut copies, mut edges) = (0, 0);
        for budget in header.budgets() {
            let start = self.lows[*budget as usize];
            if start != NONE && self.marks[1][start as usize / 64] >> (start % 64) & 1 == 0 {
                self.marks[1][start as usize / 64] |= 1 << (start % 64);
                self.waiting.push((1, start));
                copies += 1;
            }
        }
        while let Some((block, low)) = self.waiting.pop() {
            let left = low as usize - self.costs[block as usize];
            let targets = &self.targets[self.first[block as usize]..self.first[block as usize + 1]];
            edges += targets.len();
            if edges > MOST_BOUNDED_EDGES {
                return None;
            }
            for target in targets {
                let next = self.lows[(*target as usize - 1) * width + left];
                if next != NONE {
                    let word = &mut self.marks[*target as usize][next as usize / 64];
                    if *word >> (next % 64) & 1 == 0 {
                        *word |= 1 << (next % 64);
                        copies += 1;
                        self.waiting.push((*target, next));
                    }
                }
            }
            if copies > MOST_COPIES {
                return None;
            }
        }
        Some((copies, edges))
    }

    fn write(&mut self, header: &Header, width: usize, copies: usize, edges: usize, output: &mut [u16]) {
        let first = header.bounded_words();
        let (mut at, mut edge, mut number) = (first, 1, 0);
        for block in 1..=header.n {
            let degree = self.first[block + 1] - self.first[block];
            for (index, mut word) in self.marks[block].into_iter().enumerate() {
                while word != 0 {
                    let low = 64 * index + word.trailing_zeros() as usize;
                    word &= word - 1;
                    number += 1;
                    self.numbers[(block - 1) * width + low] = number;
                    output[at] = block as u16;
                    output[at + 1] = low as u16;
                    output[at + 2] = if degree == 0 { 0 } else { edge };
                    at += 3;
                    edge += degree as u16;
                }
            }
        }
        let several = header.several;
        if header.second {
            output[..4].copy_from_slice(&[0, copies as u16, edges as u16, several as u16]);
            output[4..4 + several].copy_from_slice(header.budgets());
            for (entry, budget) in output[4 + several..first].iter_mut().zip(header.budgets()) {
                let start = self.lows[*budget as usize];
                *entry = if start == NONE { 0 } else { self.numbers[start as usize] };
            }
        } else {
            output[..3].copy_from_slice(&[copies as u16, edges as u16, header.lowered[0]]);
        }
        let mut edge = 1;
        for copy in 0..copies {
            let (block, low) = (output[first + 3 * copy] as usize, output[first + 3 * copy + 1] as usize);
            let targets = &self.targets[self.first[block]..self.first[block + 1]];
            let left = low - self.costs[block];
            for (place, target) in targets.iter().enumerate() {
                let row = (*target as usize - 1) * width;
                let next = self.lows[row + left];
                output[at] = if next == NONE { 0 } else { self.numbers[row + next as usize] };
                output[at + 1] = if place + 1 == targets.len() { 0 } else { edge + 1 };
                at += 2;
                edge += 1;
            }
        }
    }

    /// The build: answer, work area and output row as documents 01 and 02 have them.
    pub fn build(&mut self, sheet: &[u16], handler: u16, area: &mut [u8], output: &mut [u16]) -> u16 {
        let header = match self.check(sheet, handler) {
            Ok(header) => header,
            Err(answer) => return answer,
        };
        let (n, width) = (header.n, header.width());
        if area.len() < n * width {
            return 21;
        }
        self.weigh(n, width, area);
        self.fill_lows(n, width, area);
        if self.lows[width - 1] == NONE {
            return 9;
        }
        let Some((copies, edges)) = self.reach(&header, width) else {
            return 10;
        };
        if output.len() < header.bounded_words() + 3 * copies + 2 * edges {
            return 22;
        }
        self.write(&header, width, copies, edges, output);
        0
    }
}
