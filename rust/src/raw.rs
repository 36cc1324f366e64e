// The exported functions as the static library has them: a slice is a pointer and a length, a walk four words.
// It rests on target/staticlib/libgilstavo.a; nothing checks these declarations against crates/gilstavo_c/src/lib.rt.
//
// Why each call is safe: every exported function takes any content and any length of its slices (it has no `requires`), reads and
// writes within them only, and keeps no pointer. The borrows below give pointers that are valid, aligned and not shared.

mod exported {
    extern "C" {
        pub fn gilstavo_check_graph(sheet: *const u16, sheet_words: usize) -> u16;
        pub fn gilstavo_count_successors(sheet: *const u16, sheet_words: usize, block: u16, count: *mut u16) -> u16;
        pub fn gilstavo_convert_operations(
            sheet: *const u16,
            sheet_words: usize,
            output: *mut u16,
            output_words: usize,
        ) -> u16;
        pub fn gilstavo_weigh(sheet: *const u16, sheet_words: usize, handler: u16, area: *mut u8, area_bytes: usize) -> u16;
        pub fn gilstavo_build(
            sheet: *const u16,
            sheet_words: usize,
            handler: u16,
            area: *mut u8,
            area_bytes: usize,
            output: *mut u16,
            output_words: usize,
        ) -> u16;
        pub fn gilstavo_check_bounded(sheet: *const u16, sheet_words: usize) -> u16;
        pub fn gilstavo_edge_words(
            sheet: *const u16,
            sheet_words: usize,
            copy: u16,
            start: *mut usize,
            size: *mut usize,
        ) -> u16;
        pub fn gilstavo_start(walk: *mut [u16; 4]);
        pub fn gilstavo_start_guarded(
            sheet: *const u16,
            sheet_words: usize,
            handler: u16,
            area: *mut u8,
            area_bytes: usize,
            walk: *mut [u16; 4],
            budget: u16,
        ) -> u16;
        pub fn gilstavo_start_bounded(sheet: *const u16, sheet_words: usize, walk: *mut [u16; 4], budget: u16) -> u16;
        pub fn gilstavo_guarded_move(
            sheet: *const u16,
            sheet_words: usize,
            handler: u16,
            area: *mut u8,
            area_bytes: usize,
            walk: *mut [u16; 4],
            choice: u16,
        ) -> u16;
        pub fn gilstavo_bounded_move(sheet: *const u16, sheet_words: usize, walk: *mut [u16; 4], choice: u16) -> u16;
    }
}

pub fn check_graph(sheet: &[u16]) -> u16 {
    unsafe { exported::gilstavo_check_graph(sheet.as_ptr(), sheet.len()) }
}

pub fn count_successors(sheet: &[u16], block: u16, count: &mut u16) -> u16 {
    unsafe { exported::gilstavo_count_successors(sheet.as_ptr(), sheet.len(), block, count) }
}

pub fn convert_operations(sheet: &[u16], output: &mut [u16]) -> u16 {
    unsafe {
        exported::gilstavo_convert_operations(sheet.as_ptr(), sheet.len(), output.as_mut_ptr(), output.len())
    }
}

pub fn weigh(sheet: &[u16], handler: u16, area: &mut [u8]) -> u16 {
    unsafe { exported::gilstavo_weigh(sheet.as_ptr(), sheet.len(), handler, area.as_mut_ptr(), area.len()) }
}

pub fn build(sheet: &[u16], handler: u16, area: &mut [u8], output: &mut [u16]) -> u16 {
    unsafe {
        exported::gilstavo_build(
            sheet.as_ptr(),
            sheet.len(),
            handler,
            area.as_mut_ptr(),
            area.len(),
            output.as_mut_ptr(),
            output.len(),
        )
    }
}

pub fn check_bounded(sheet: &[u16]) -> u16 {
    unsafe { exported::gilstavo_check_bounded(sheet.as_ptr(), sheet.len()) }
}

pub fn edge_words(sheet: &[u16], copy: u16) -> (u16, usize, usize) {
    let (mut start, mut size) = (0, 0);
    let answer =
        unsafe { exported::gilstavo_edge_words(sheet.as_ptr(), sheet.len(), copy, &mut start, &mut size) };
    (answer, start, size)
}

pub fn start(walk: &mut [u16; 4]) {
    unsafe { exported::gilstavo_start(walk) }
}

pub fn start_guarded(sheet: &[u16], handler: u16, area: &mut [u8], walk: &mut [u16; 4], budget: u16) -> u16 {
    unsafe {
        exported::gilstavo_start_guarded(
            sheet.as_ptr(),
            sheet.len(),
            handler,
            area.as_mut_ptr(),
            area.len(),
            walk,
            budget,
        )
    }
}

pub fn start_bounded(sheet: &[u16], walk: &mut [u16; 4], budget: u16) -> u16 {
    unsafe { exported::gilstavo_start_bounded(sheet.as_ptr(), sheet.len(), walk, budget) }
}

pub fn guarded_move(sheet: &[u16], handler: u16, area: &mut [u8], walk: &mut [u16; 4], choice: u16) -> u16 {
    unsafe {
        exported::gilstavo_guarded_move(
            sheet.as_ptr(),
            sheet.len(),
            handler,
            area.as_mut_ptr(),
            area.len(),
            walk,
            choice,
        )
    }
}

pub fn bounded_move(sheet: &[u16], walk: &mut [u16; 4], choice: u16) -> u16 {
    unsafe { exported::gilstavo_bounded_move(sheet.as_ptr(), sheet.len(), walk, choice) }
}
