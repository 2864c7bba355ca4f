//! Wrong answers on demand, to see that the programs notice them.
//!
//! `TSILMOGAR_STANDIN_WRONG=n` spoils every n-th call, each time in the next way that can be seen in that call.
//! `TSILMOGAR_STANDIN_FAULT=NAME` switches on one deliberate fault of the model.

use std::sync::OnceLock;
use std::sync::atomic::{AtomicU64, Ordering};

use model::Fault;

use crate::Buffers;

/// Ways to spoil a call.
const WAYS: u64 = 20;

static CALLS: AtomicU64 = AtomicU64::new(0);

pub fn fault() -> Option<Fault> {
    static NAMED: OnceLock<Option<Fault>> = OnceLock::new();
    *NAMED.get_or_init(|| {
        let name = std::env::var("TSILMOGAR_STANDIN_FAULT").ok()?;
        let named = Fault::ALL.iter().find(|fault| format!("{fault:?}") == name);
        Some(*named.expect("a fault of the model"))
    })
}

fn every() -> Option<u64> {
    static ASKED: OnceLock<Option<u64>> = OnceLock::new();
    *ASKED.get_or_init(|| std::env::var("TSILMOGAR_STANDIN_WRONG").ok()?.parse().ok())
}

pub fn now_and_then(buffers: &mut Buffers) {
    let calls = CALLS.fetch_add(1, Ordering::Relaxed) + 1;
    if let Some(every) = every()
        && calls % every == 0
    {
        let first = calls / every - 1;
        let spoilt = (first..first + WAYS).any(|way| spoil(way % WAYS, buffers));
        assert!(spoilt, "some way is always open");
    }
}

/// Whether there was something to spoil in this way.
fn spoil(way: u64, buffers: &mut Buffers) -> bool {
    let lengths = [buffers.report[2] as usize, buffers.report[3] as usize];
    match way {
        0..9 => {
            buffers.report[way as usize] ^= 1;
            true
        }
        9 => flip(&mut buffers.out[..lengths[0]]),
        10 => flip(&mut buffers.diagnostics[..lengths[1]]),
        11 => flip(&mut buffers.out[lengths[0]..]),
        12 => flip(&mut buffers.diagnostics[lengths[1]..]),
        13..17 => leave(buffers.tables[way as usize - 13]),
        17 => beside(buffers.out.as_mut_ptr_range().end),
        18 => beside(buffers.tables[0].as_mut_ptr_range().end),
        _ => beside(buffers.report.as_mut_ptr_range().end),
    }
}

/// The last byte of a part.
fn flip(part: &mut [u8]) -> bool {
    part.last_mut().map(|byte| *byte ^= 1).is_some()
}

/// A number in a table.
fn leave(table: &mut [u32]) -> bool {
    table.last_mut().map(|number| *number = 1).is_some()
}

/// One number after a buffer, where the programs keep a guard that isn't 0.
fn beside<T: Default>(end: *mut T) -> bool {
    // SAFETY: not for any caller, only for those beside this folder.
    unsafe { end.write(T::default()) };
    true
}
