//! A model of document 01, worked out from its text alone: slow, plain, and used only for tests.

mod analysis;
pub mod cases;
mod fault;
mod room;
mod tree;
mod walk;

#[cfg(test)]
mod tests;

pub use fault::Fault;
use room::{Amounts, Refusal, Rooms};
pub use room::{Peak, Room, amounts, with_amount};
use tree::Tree;
use wire::{Answer, Lent};

const LARGEST_TREE: usize = 16_777_216;
const NUMBERS_AN_ENTRY: u64 = 16;

/// The whole call of document 01.
pub fn analyze(lent: &Lent, tree: &[u8]) -> Answer {
    analyze_with(None, lent, tree)
}

/// The same call with one deliberate fault switched on, to see what notices it.
pub fn analyze_with(fault: Option<Fault>, lent: &Lent, tree: &[u8]) -> Answer {
    match call(fault, lent, tree) {
        Ok(answer) => answer,
        Err(refusal) => Answer::refused(refusal.number, refusal.place as u64),
    }
}

/// The first walk alone: number and place of its refusal, or zeros.
pub fn first_walk(fault: Option<Fault>, tree: &[u8]) -> (u32, u64) {
    match read(fault, tree) {
        Ok(_) => (0, 0),
        Err(refusal) => (refusal.number, refusal.place as u64),
    }
}

/// The smallest limits and lengths under which the tree is accepted, if any are enough.
pub fn needed(tree: &[u8]) -> Option<Lent> {
    let whole = read(None, tree).ok()?;
    let (_, rooms) = analysis::run(None, Rooms::new(Amounts::UNLIMITED, None), &whole).ok()?;
    let peak = rooms.peak;
    Some(Lent::exact(peak.limits(), peak.out(), peak.diagnostics()))
}

/// Every moment of an accepted tree at which a smaller amount of some room would have been refused, in order.
pub fn peaks(tree: &[u8]) -> Option<Vec<Peak>> {
    let whole = read(None, tree).ok()?;
    let (_, rooms) =
        analysis::run(None, Rooms::new(Amounts::UNLIMITED, Some(vec![])), &whole).ok()?;
    rooms.peaks
}

fn call(fault: Option<Fault>, lent: &Lent, tree: &[u8]) -> Result<Answer, Refusal> {
    let suffice = tables_suffice(fault, lent);
    let short = Refusal {
        number: 13,
        place: 0,
    };
    if !suffice && fault != Some(Fault::TablesAfterWalk) {
        return Err(short);
    }
    let whole = read(fault, tree)?;
    if !suffice {
        return Err(short);
    }
    let (answer, _) = analysis::run(fault, Rooms::new(Amounts::lent(lent), None), &whole)?;
    Ok(answer)
}

fn read(fault: Option<Fault>, tree: &[u8]) -> Result<Tree, Refusal> {
    if tree.len() > LARGEST_TREE {
        return Err(Refusal {
            number: 14,
            place: 0,
        });
    }
    walk::whole(fault, tree)
}

fn tables_suffice(fault: Option<Fault>, lent: &Lent) -> bool {
    let asked = |limit: u32| match fault {
        Some(Fault::TableLengthWraps) => u64::from((NUMBERS_AN_ENTRY as u32).wrapping_mul(limit)),
        _ => NUMBERS_AN_ENTRY * u64::from(limit),
    };
    lent.tables()
        .into_iter()
        .zip(lent.limits())
        .all(|(length, limit)| u64::from(length) >= asked(limit))
}
