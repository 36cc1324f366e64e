// The header of a sheet in both versions: a row whose first word is 0 is of the second version, every other of the first.
// It rests on the sections "Graph sheet" and "Bounded sheet" of document 01 and on request K2 of document 02.

/// The most budgets that a sheet may have.
pub(crate) const MOST_BUDGETS: usize = 4;

/// Whether a row is of the second version.
pub(crate) fn is_second(words: &[u16]) -> bool {
    words.first() == Some(&0)
}

/// N and E of a graph sheet, C and F of a bounded sheet. The row has at least 3 words.
pub(crate) fn sizes(words: &[u16]) -> (usize, usize) {
    let first = usize::from(is_second(words));
    (usize::from(words[first]), usize::from(words[first + 1]))
}

/// The budgets that a row names, however many; none where it ends before them.
pub(crate) fn budgets(words: &[u16]) -> Option<Vec<usize>> {
    let named = if is_second(words) {
        let number = usize::from(*words.get(3)?);
        words.get(4..4 + number)?
    } else {
        words.get(2..3)?
    };
    Some(named.iter().map(|budget| usize::from(*budget)).collect())
}

/// Whether there are 1 to 4 budgets and they rise strictly.
pub(crate) fn are_few_and_rising(budgets: &[usize]) -> bool {
    let few = !budgets.is_empty() && budgets.len() <= MOST_BUDGETS;
    few && budgets.windows(2).all(|pair| pair[0] < pair[1])
}

/// The budget with this number, or none for a number outside the sheet.
pub(crate) fn budget_numbered(budgets: &[usize], number: u32) -> Option<usize> {
    let place = usize::try_from(number).ok()?.checked_sub(1)?;
    budgets.get(place).copied()
}
