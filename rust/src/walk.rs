// A walk: place, count, end and budget number, with its starts and its two moves.
// It rests on raw.rs, where a walk crosses as four words.

use crate::{raw, Refusal};

#[derive(Clone, Copy, PartialEq, Eq, Debug)]
pub enum End {
    Going,
    Exit,
    Diverted,
}

#[derive(Clone, Copy, PartialEq, Eq, Debug)]
pub struct Walk {
    pub place: u16,
    pub count: u16,
    pub end: End,
    /// The number of the chosen budget, counted from 1; 1 for a sheet of the first version.
    pub budget: u16,
}

impl Walk {
    /// The starting walk: place 1, count 0, going, budget number 1.
    pub fn start() -> Walk {
        let mut row = [0; 4];
        raw::start(&mut row);
        Walk::from_words(row)
    }

    /// A walk that starts on a graph sheet with this budget number, diverted where nothing fits that budget once lowered: 1 to 8 with 41 and
    /// 43, 21, 9, 33. The work area is as after a weighing.
    pub fn start_guarded(sheet: &[u16], handler: u16, area: &mut [u8], budget: u16) -> Result<Walk, Refusal> {
        let mut row = [0; 4];
        let answer = raw::start_guarded(sheet, handler, area, &mut row, budget);
        Refusal::from_answer(answer).map(|()| Walk::from_words(row))
    }

    /// A walk that starts on a bounded sheet with this budget number, at its entry, or diverted where that is 0: 11, 33.
    pub fn start_bounded(sheet: &[u16], budget: u16) -> Result<Walk, Refusal> {
        let mut row = [0; 4];
        let answer = raw::start_bounded(sheet, &mut row, budget);
        Refusal::from_answer(answer).map(|()| Walk::from_words(row))
    }

    fn words(self) -> [u16; 4] {
        let end = match self.end {
            End::Going => 0,
            End::Exit => 1,
            End::Diverted => 2,
        };
        [self.place, self.count, end, self.budget]
    }

    /// A call writes no other end than 0, 1 and 2.
    fn from_words(row: [u16; 4]) -> Walk {
        let end = match row[2] {
            0 => End::Going,
            1 => End::Exit,
            _ => End::Diverted,
        };
        Walk { place: row[0], count: row[1], end, budget: row[3] }
    }

    /// A move on a graph sheet, guarded by its completion costs: 1 to 8 with 41 and 43, 21, 9, 33, 32, 31. The work area is as after a
    /// weighing.
    pub fn guarded_move(&mut self, sheet: &[u16], handler: u16, area: &mut [u8], choice: u16) -> Result<(), Refusal> {
        let mut row = self.words();
        let answer = raw::guarded_move(sheet, handler, area, &mut row, choice);
        *self = Walk::from_words(row);
        Refusal::from_answer(answer)
    }

    /// A move on a bounded sheet: 11, 33, 32, 31.
    pub fn bounded_move(&mut self, sheet: &[u16], choice: u16) -> Result<(), Refusal> {
        let mut row = self.words();
        let answer = raw::bounded_move(sheet, &mut row, choice);
        *self = Walk::from_words(row);
        Refusal::from_answer(answer)
    }
}
