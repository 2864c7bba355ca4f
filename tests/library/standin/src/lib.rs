//! Stands in for the proved library: the same call, answered by the model. Only to try the programs beside it.

mod wrong;

use wire::{Answer, Lent};

/// All that a call may write to.
struct Buffers<'a> {
    out: &'a mut [u8],
    diagnostics: &'a mut [u8],
    tables: [&'a mut [u32]; 4],
    report: &'a mut [u64],
}

/// # Safety
/// Each pointer is to so many numbers as the length after it says, the report to nine.
#[unsafe(no_mangle)]
pub unsafe extern "C" fn tsilmogar_analyze(
    tree: *const u8,
    tree_length: usize,
    out: *mut u8,
    out_length: usize,
    diagnostics: *mut u8,
    diagnostics_length: usize,
    locals: *mut u32,
    locals_length: usize,
    frames: *mut u32,
    frames_length: usize,
    captures: *mut u32,
    captures_length: usize,
    references: *mut u32,
    references_length: usize,
    max_locals: u32,
    max_frames: u32,
    max_captures: u32,
    max_references: u32,
    report: *mut u64,
) {
    let lent = Lent {
        max_locals,
        max_frames,
        max_captures,
        max_references,
        locals: locals_length as u32,
        frames: frames_length as u32,
        captures: captures_length as u32,
        references: references_length as u32,
        out: out_length as u32,
        diagnostics: diagnostics_length as u32,
    };
    // SAFETY: the caller says so.
    let (tree, mut buffers) = unsafe {
        let buffers = Buffers {
            out: std::slice::from_raw_parts_mut(out, out_length),
            diagnostics: std::slice::from_raw_parts_mut(diagnostics, diagnostics_length),
            tables: [
                std::slice::from_raw_parts_mut(locals, locals_length),
                std::slice::from_raw_parts_mut(frames, frames_length),
                std::slice::from_raw_parts_mut(captures, captures_length),
                std::slice::from_raw_parts_mut(references, references_length),
            ],
            report: std::slice::from_raw_parts_mut(report, 9),
        };
        (std::slice::from_raw_parts(tree, tree_length), buffers)
    };
    lay_out(
        &model::analyze_with(wrong::fault(), &lent, tree),
        &mut buffers,
    );
    wrong::now_and_then(&mut buffers);
}

fn lay_out(answer: &Answer, buffers: &mut Buffers) {
    for table in &mut buffers.tables {
        table.fill(0);
    }
    write(buffers.out, &answer.out);
    write(buffers.diagnostics, &answer.diagnostics);
    let [object, local, most] = answer.depths.map(u64::from);
    let lengths = [answer.out.len() as u64, answer.diagnostics.len() as u64];
    let rounds = u64::from(answer.rounds);
    buffers.report.copy_from_slice(&[
        u64::from(answer.number),
        answer.place,
        lengths[0],
        lengths[1],
        u64::from(answer.errored),
        rounds,
        object,
        local,
        most,
    ]);
}

fn write(buffer: &mut [u8], bytes: &[u8]) {
    buffer.fill(0);
    buffer[..bytes.len()].copy_from_slice(bytes);
}
