//! The calls of include/dekohuna.h over slices. A Rust slice meets what the header asks of a buffer: its pointer is
//! valid, aligned and not null, and a `&mut` slice overlaps no other.

pub const DONE: u8 = 0;
pub const OUTPUT_SHORT: u8 = 10;
pub const LIMIT_REACHED: u8 = 200;
pub const HISTORY_FULL: u8 = 201;
pub const NOTHING_ENABLED: u8 = 202;

/// A label: kind, a, b.
pub type Label = [u32; 3];

/// A call's answer: what it counted, and a code that is 0, the number of a cause, or a run's reason.
#[derive(Clone, Copy, Debug, PartialEq, Eq)]
pub struct Answer {
    pub value: u64,
    pub code: u8,
}

/// A returned word is value·256 + code.
fn answer(word: u64) -> Answer {
    Answer {
        value: word >> 8,
        code: word as u8,
    }
}

extern "C" {
    fn dekohuna_check(table: *const u16, table_words: usize) -> u64;
    fn dekohuna_build(
        table: *const u16,
        table_words: usize,
        out: *mut u32,
        out_words: usize,
    ) -> u64;
    fn dekohuna_size(table: *const u16, table_words: usize) -> u64;
    fn dekohuna_fire(
        image: *const u32,
        image_words: usize,
        marking: *mut u8,
        marking_bytes: usize,
        transition: u32,
    ) -> u64;
    fn dekohuna_look(
        image: *const u32,
        image_words: usize,
        marking: *const u8,
        marking_bytes: usize,
        transition: u32,
        next: *mut u8,
        next_bytes: usize,
    ) -> u64;
    fn dekohuna_summary_make(
        image: *const u32,
        image_words: usize,
        marking: *const u8,
        marking_bytes: usize,
        counts: *mut u32,
        count_words: usize,
        enabled: *mut u64,
        enabled_words: usize,
    ) -> u64;
    fn dekohuna_summary_fire(
        image: *const u32,
        image_words: usize,
        marking: *mut u8,
        marking_bytes: usize,
        counts: *mut u32,
        count_words: usize,
        enabled: *mut u64,
        enabled_words: usize,
        transition: u32,
    ) -> u64;
    fn dekohuna_summary_check(
        image: *const u32,
        image_words: usize,
        marking: *const u8,
        marking_bytes: usize,
        counts: *const u32,
        count_words: usize,
        enabled: *const u64,
        enabled_words: usize,
    ) -> u64;
    fn dekohuna_summary_lowest(enabled: *const u64, enabled_words: usize) -> u64;
    fn dekohuna_summary_number(enabled: *const u64, enabled_words: usize) -> u64;
    fn dekohuna_replay(
        image: *const u32,
        image_words: usize,
        marking: *mut u8,
        marking_bytes: usize,
        numbers: *const u32,
        number_count: usize,
    ) -> u64;
    fn dekohuna_run(
        image: *const u32,
        image_words: usize,
        marking: *mut u8,
        marking_bytes: usize,
        limit: u64,
        history: *mut u32,
        history_words: usize,
    ) -> u64;
    fn dekohuna_run_lowest(
        image: *const u32,
        image_words: usize,
        marking: *mut u8,
        marking_bytes: usize,
        limit: u64,
        history: *mut u32,
        history_words: usize,
    ) -> u64;
    fn dekohuna_read(
        table: *const u16,
        table_words: usize,
        marking: *const u8,
        marking_bytes: usize,
        state: *mut u16,
        state_words: usize,
    ) -> u64;
    fn dekohuna_start(
        table: *const u16,
        table_words: usize,
        state: *mut u16,
        state_words: usize,
    ) -> u64;
    fn dekohuna_open_steps(
        table: *const u16,
        table_words: usize,
        state: *const u16,
        state_words: usize,
        labels: *mut u32,
        label_words: usize,
    ) -> u64;
    fn dekohuna_step(
        table: *const u16,
        table_words: usize,
        state: *const u16,
        state_words: usize,
        kind: u32,
        a: u32,
        b: u32,
        next: *mut u16,
        next_words: usize,
    ) -> u64;
    fn dekohuna_rewrite(
        table: *const u16,
        table_words: usize,
        out: *mut u16,
        out_words: usize,
    ) -> u64;
    fn dekohuna_original_node(table: *const u16, table_words: usize, number: u32) -> u64;
    fn dekohuna_original_branch(table: *const u16, table_words: usize, number: u32) -> u64;
    fn dekohuna_original_name(table: *const u16, table_words: usize, number: u32) -> u64;
}

// In every call below each pointer and length are those of one slice, and slices that are written are borrowed alone.
// The library keeps none of them after the call.

pub fn check(table: &[u16]) -> Answer {
    answer(unsafe { dekohuna_check(table.as_ptr(), table.len()) })
}

pub fn build(table: &[u16], out: &mut [u32]) -> Answer {
    answer(unsafe { dekohuna_build(table.as_ptr(), table.len(), out.as_mut_ptr(), out.len()) })
}

pub fn size(table: &[u16]) -> Answer {
    answer(unsafe { dekohuna_size(table.as_ptr(), table.len()) })
}

pub fn fire(image: &[u32], marking: &mut [u8], transition: u32) -> Answer {
    answer(unsafe {
        dekohuna_fire(
            image.as_ptr(),
            image.len(),
            marking.as_mut_ptr(),
            marking.len(),
            transition,
        )
    })
}

pub fn look(image: &[u32], marking: &[u8], transition: u32, next: &mut [u8]) -> Answer {
    answer(unsafe {
        dekohuna_look(
            image.as_ptr(),
            image.len(),
            marking.as_ptr(),
            marking.len(),
            transition,
            next.as_mut_ptr(),
            next.len(),
        )
    })
}

pub fn summary_make(
    image: &[u32],
    marking: &[u8],
    counts: &mut [u32],
    enabled: &mut [u64],
) -> Answer {
    answer(unsafe {
        dekohuna_summary_make(
            image.as_ptr(),
            image.len(),
            marking.as_ptr(),
            marking.len(),
            counts.as_mut_ptr(),
            counts.len(),
            enabled.as_mut_ptr(),
            enabled.len(),
        )
    })
}

pub fn summary_fire(
    image: &[u32],
    marking: &mut [u8],
    counts: &mut [u32],
    enabled: &mut [u64],
    transition: u32,
) -> Answer {
    answer(unsafe {
        dekohuna_summary_fire(
            image.as_ptr(),
            image.len(),
            marking.as_mut_ptr(),
            marking.len(),
            counts.as_mut_ptr(),
            counts.len(),
            enabled.as_mut_ptr(),
            enabled.len(),
            transition,
        )
    })
}

pub fn summary_check(image: &[u32], marking: &[u8], counts: &[u32], enabled: &[u64]) -> Answer {
    answer(unsafe {
        dekohuna_summary_check(
            image.as_ptr(),
            image.len(),
            marking.as_ptr(),
            marking.len(),
            counts.as_ptr(),
            counts.len(),
            enabled.as_ptr(),
            enabled.len(),
        )
    })
}

pub fn summary_lowest(enabled: &[u64]) -> Answer {
    answer(unsafe { dekohuna_summary_lowest(enabled.as_ptr(), enabled.len()) })
}

pub fn summary_number(enabled: &[u64]) -> Answer {
    answer(unsafe { dekohuna_summary_number(enabled.as_ptr(), enabled.len()) })
}

pub fn replay(image: &[u32], marking: &mut [u8], numbers: &[u32]) -> Answer {
    answer(unsafe {
        dekohuna_replay(
            image.as_ptr(),
            image.len(),
            marking.as_mut_ptr(),
            marking.len(),
            numbers.as_ptr(),
            numbers.len(),
        )
    })
}

pub fn run(image: &[u32], marking: &mut [u8], limit: u64, history: &mut [u32]) -> Answer {
    answer(unsafe {
        dekohuna_run(
            image.as_ptr(),
            image.len(),
            marking.as_mut_ptr(),
            marking.len(),
            limit,
            history.as_mut_ptr(),
            history.len(),
        )
    })
}

pub fn run_lowest(image: &[u32], marking: &mut [u8], limit: u64, history: &mut [u32]) -> Answer {
    answer(unsafe {
        dekohuna_run_lowest(
            image.as_ptr(),
            image.len(),
            marking.as_mut_ptr(),
            marking.len(),
            limit,
            history.as_mut_ptr(),
            history.len(),
        )
    })
}

pub fn read(table: &[u16], marking: &[u8], state: &mut [u16]) -> Answer {
    answer(unsafe {
        dekohuna_read(
            table.as_ptr(),
            table.len(),
            marking.as_ptr(),
            marking.len(),
            state.as_mut_ptr(),
            state.len(),
        )
    })
}

pub fn start(table: &[u16], state: &mut [u16]) -> Answer {
    answer(unsafe { dekohuna_start(table.as_ptr(), table.len(), state.as_mut_ptr(), state.len()) })
}

pub fn open_steps(table: &[u16], state: &[u16], labels: &mut [u32]) -> Answer {
    answer(unsafe {
        dekohuna_open_steps(
            table.as_ptr(),
            table.len(),
            state.as_ptr(),
            state.len(),
            labels.as_mut_ptr(),
            labels.len(),
        )
    })
}

pub fn step(table: &[u16], state: &[u16], label: Label, next: &mut [u16]) -> Answer {
    let [kind, a, b] = label;
    answer(unsafe {
        dekohuna_step(
            table.as_ptr(),
            table.len(),
            state.as_ptr(),
            state.len(),
            kind,
            a,
            b,
            next.as_mut_ptr(),
            next.len(),
        )
    })
}

pub fn rewrite(table: &[u16], out: &mut [u16]) -> Answer {
    answer(unsafe { dekohuna_rewrite(table.as_ptr(), table.len(), out.as_mut_ptr(), out.len()) })
}

pub fn original_node(table: &[u16], number: u32) -> Answer {
    answer(unsafe { dekohuna_original_node(table.as_ptr(), table.len(), number) })
}

pub fn original_branch(table: &[u16], number: u32) -> Answer {
    answer(unsafe { dekohuna_original_branch(table.as_ptr(), table.len(), number) })
}

pub fn original_name(table: &[u16], number: u32) -> Answer {
    answer(unsafe { dekohuna_original_name(table.as_ptr(), table.len(), number) })
}
