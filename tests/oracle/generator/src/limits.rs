//! What a caller lends: exactly what a tree needs, a little less somewhere, or more.

use wire::Lent;

use crate::random::Random;

/// Limits around those a tree needs: as they are, one of them too small, a table too short, or all roomier.
pub fn limits(seed: u64, needed: Lent) -> Lent {
    let mut random = Random::new(seed ^ 0xe703_7ed1_a0b4_28db);
    let mut lent = needed;
    match random.below(10) {
        0 | 1 => {}
        2..8 => lessen_one(&mut random, &mut lent),
        8 => shorten_a_table(&mut random, &mut lent),
        _ => widen(&mut random, &mut lent),
    }
    lent
}

/// Mostly by one, else to anything below; its table shrinks with a limit.
fn lessen_one(random: &mut Random, lent: &mut Lent) {
    let mut limits = lent.limits();
    let mut buffers = [lent.out, lent.diagnostics];
    let chosen = random.below(6);
    let lessened = if chosen < 4 {
        &mut limits[chosen]
    } else {
        &mut buffers[chosen - 4]
    };
    if *lessened > 0 {
        let below = random.below(*lessened as usize) as u32;
        *lessened = if random.percent(60) {
            *lessened - 1
        } else {
            below
        };
    }
    *lent = Lent::exact(limits, buffers[0], buffers[1]);
}

fn shorten_a_table(random: &mut Random, lent: &mut Lent) {
    let table = match random.below(4) {
        0 => &mut lent.locals,
        1 => &mut lent.frames,
        2 => &mut lent.captures,
        _ => &mut lent.references,
    };
    *table = table.saturating_sub(1 + random.below(16) as u32);
}

fn widen(random: &mut Random, lent: &mut Lent) {
    for table in [
        &mut lent.locals,
        &mut lent.frames,
        &mut lent.captures,
        &mut lent.references,
    ] {
        *table += random.below(40) as u32;
    }
    lent.out += random.below(100) as u32;
    lent.diagnostics += random.below(100) as u32;
}
