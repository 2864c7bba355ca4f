//! The stored calls through the wrapper: answers, and outputs read record by record.

mod common;

use common::{NOTHING, StoredCall, limits_of, stored};
use tsilmogar::sys::{self, Table};
use tsilmogar::{Analysis, Analyzer, Level, Refusal};
use wire::text::{dump_diagnostics, dump_output};
use wire::{Answer, Lent};

/// The answer in the form in which it is stored.
fn answer(found: &Result<Analysis, Refusal>) -> Answer {
    match found {
        Ok(analysis) => {
            let depths = analysis.depths();
            let depth = |depth: Option<u32>| depth.unwrap_or(u32::MAX);
            Answer {
                number: 0,
                place: 0,
                out: analysis.output().to_vec(),
                diagnostics: analysis.diagnostic_bytes().to_vec(),
                errored: analysis.errored(),
                rounds: analysis.rounds() as u32,
                depths: [
                    depth(depths.object),
                    depth(depths.local),
                    depths.greatest_local,
                ],
            }
        }
        Err(refusal) => Answer::refused(refusal.number() as u32, refusal.place),
    }
}

/// 2,139 of them are accepted; those that the first walk refuses don't depend on what is lent.
#[test]
fn with_the_usual_limits() {
    let settled = |call: &&StoredCall| {
        matches!(call.answer.number, 0..=5) || call.answer.place == 0 && call.answer.number == 11
    };
    let calls = stored();
    let mut analyzer = Analyzer::default();
    let (mut accepted, mut refused) = (0, 0);
    for call in calls.iter().filter(settled) {
        assert_eq!(answer(&analyzer.analyze(&call.tree)), call.answer);
        match call.answer.number {
            0 => accepted += 1,
            _ => refused += 1,
        }
    }
    assert_eq!((calls.len(), accepted, refused), (3630, 2139, 396));
}

/// Growing to just what a call was lent ends with that call's answer, a refusal's number and place too: what happens
/// before the first refusal doesn't depend on how much there is. 13 can't happen, because the tables always fit.
#[test]
fn growing_to_what_was_lent() {
    let mut replayed = 0;
    for call in stored().iter().filter(|call| call.answer.number != 13) {
        let found = Analyzer::new(NOTHING, limits_of(&call.lent)).analyze(&call.tree);
        assert_eq!(answer(&found), call.answer);
        replayed += 1;
    }
    assert_eq!(replayed, 3606);
}

/// One call with just what was lent; all that it leaves in the buffers is looked at.
fn lent_call(lent: &Lent, tree: &[u8]) -> Answer {
    let mut bytes = [lent.out, lent.diagnostics].map(|length| vec![7; length as usize]);
    let lengths = [lent.locals, lent.frames, lent.captures, lent.references];
    let mut tables = lengths.map(|length| vec![7; length as usize]);
    let mut report = [7; 9];
    let [output, diagnostics] = &mut bytes;
    let [locals, frames, captures, references] = &mut tables;
    let table = |numbers, limit| Table { numbers, limit };
    let all = sys::Lent {
        output,
        diagnostics,
        locals: table(locals, lent.max_locals),
        frames: table(frames, lent.max_frames),
        captures: table(captures, lent.max_captures),
        references: table(references, lent.max_references),
        report: &mut report,
    };
    sys::analyze(tree, all);
    assert!(tables.iter().flatten().all(|&number| number == 0));
    let [
        number,
        place,
        lengths @ ..,
        errored,
        rounds,
        object,
        local,
        most,
    ] = report;
    let mut written = [0, 1].map(|i| bytes[i].split_at(lengths[i] as usize));
    assert!(
        written
            .iter_mut()
            .all(|(_, after)| after.iter().all(|&byte| byte == 0))
    );
    Answer {
        number: number as u32,
        place,
        out: written[0].0.to_vec(),
        diagnostics: written[1].0.to_vec(),
        errored: errored == 1,
        rounds: rounds as u32,
        depths: [object, local, most].map(|depth| depth as u32),
    }
}

#[test]
fn with_just_what_was_lent() {
    for call in stored() {
        assert_eq!(lent_call(&call.lent, &call.tree), call.answer);
    }
}

/// Four analysers at once, each over all calls.
#[test]
fn in_several_threads() {
    let calls = stored();
    std::thread::scope(|scope| {
        for _ in 0..4 {
            scope.spawn(|| {
                let mut analyzer = Analyzer::default();
                for call in calls.iter().filter(|call| call.answer.number == 0) {
                    assert_eq!(answer(&analyzer.analyze(&call.tree)), call.answer);
                }
            });
        }
    });
}

/// Whole, in order, nothing between: the text of all records is the text of the bytes.
#[test]
fn outputs_are_read_whole() {
    for Answer { out, .. } in accepted() {
        let mut end = 0;
        let mut texts = vec![];
        for record in tsilmogar::Records::new(&out) {
            let record = record.expect("a whole record");
            assert_eq!(record.offset, end);
            end += 2 + 4 * (record.fields.len() + record.tail.len());
            texts.push(record.to_string());
        }
        assert_eq!((end, texts.join(", ")), (out.len(), dump_output(&out)));
        assert!(texts.last().is_some_and(|text| text.starts_with("SH")));
    }
}

#[test]
fn diagnostics_are_read_whole() {
    for Answer {
        diagnostics,
        errored,
        ..
    } in accepted()
    {
        let read = tsilmogar::Diagnostics::new(&diagnostics).map(|read| read.expect("a whole one"));
        let read: Vec<_> = read.collect();
        let texts = read.iter().map(|d| {
            format!(
                "DG {} {} {} {}",
                d.level as u32,
                d.code.number(),
                d.name.unwrap_or(0),
                d.span
            )
        });
        assert_eq!(
            texts.collect::<Vec<_>>().join(", "),
            dump_diagnostics(&diagnostics)
        );
        assert_eq!(read.iter().any(|d| d.level == Level::Error), errored);
    }
}

fn accepted() -> impl Iterator<Item = Answer> {
    let answers = stored().into_iter().map(|call| call.answer);
    answers.filter(|answer| answer.number == 0)
}
