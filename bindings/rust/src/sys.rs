//! The library's function with memory of the caller's own: all that is unsafe in this crate, behind a safe call.

/// A table has at least so many numbers for each entry of its limit.
pub const ENTRY_NUMBERS: usize = 16;

unsafe extern "C" {
    /// Each slice is a pointer and a length in numbers (include/tsilmogar.h).
    fn tsilmogar_analyze(
        tree: *const u8,
        tree_length: usize,
        out: *mut u8,
        out_length: usize,
        diagnostics: *mut u8,
        diagnostics_length: usize,
        locals: *mut u32,
        locals_length: usize,
        frames: *mut u32,
        frames_length: usize,
        captures: *mut u32,
        captures_length: usize,
        references: *mut u32,
        references_length: usize,
        max_locals: u32,
        max_frames: u32,
        max_captures: u32,
        max_references: u32,
        report: *mut [u64; 9],
    );
}

/// A working table, and how many entries may be in use at once. With fewer than [`ENTRY_NUMBERS`] numbers for each of
/// them the call is refused with 13.
#[derive(Debug)]
pub struct Table<'a> {
    /// The table's memory.
    pub numbers: &'a mut [u32],
    /// The limit.
    pub limit: u32,
}

/// All that a call writes to.
#[derive(Debug)]
pub struct Lent<'a> {
    /// Takes the output.
    pub output: &'a mut [u8],
    /// Takes the diagnostics.
    pub diagnostics: &'a mut [u8],
    /// For live locals.
    pub locals: Table<'a>,
    /// For open frames.
    pub frames: Table<'a>,
    /// For captures in open frames.
    pub captures: Table<'a>,
    /// For references kept in open frames.
    pub references: Table<'a>,
    /// Takes number, place, output length, diagnostics length, errored, rounds, object depth, local depth, greatest
    /// local depth.
    pub report: &'a mut [u64; 9],
}

/// One call, with just what is lent. It never fails otherwise than by a refusal in the report, and leaves all six
/// buffers zero then.
pub fn analyze(tree: &[u8], lent: Lent<'_>) {
    let Lent {
        output,
        diagnostics,
        locals,
        frames,
        captures,
        references,
        report,
    } = lent;
    // SAFETY: each pointer and length is that of one slice, which is there, aligned and initialised; the borrow checker
    // saw that those written to are shared with nothing. The library keeps no pointer and writes within the lengths,
    // which is proved of it.
    unsafe {
        tsilmogar_analyze(
            tree.as_ptr(),
            tree.len(),
            output.as_mut_ptr(),
            output.len(),
            diagnostics.as_mut_ptr(),
            diagnostics.len(),
            locals.numbers.as_mut_ptr(),
            locals.numbers.len(),
            frames.numbers.as_mut_ptr(),
            frames.numbers.len(),
            captures.numbers.as_mut_ptr(),
            captures.numbers.len(),
            references.numbers.as_mut_ptr(),
            references.numbers.len(),
            locals.limit,
            frames.limit,
            captures.limit,
            references.limit,
            report,
        );
    }
}
