//! What an accepted call answers.

use crate::diagnostics::Diagnostics;
use crate::records::Records;

/// What the root depends on.
#[derive(Clone, Copy, Debug, PartialEq, Eq)]
pub struct Depths {
    /// The least depth of an object that it depends on.
    pub object: Option<u32>,
    /// The least depth of a local that it depends on.
    pub local: Option<u32>,
    /// The greatest depth of a local that it depends on; 0 where there is none.
    pub greatest_local: u32,
}

/// The answer to an accepted tree.
#[derive(Clone, Debug, PartialEq, Eq)]
pub struct Analysis {
    output: Vec<u8>,
    diagnostics: Vec<u8>,
    errored: bool,
    rounds: u64,
    depths: Depths,
}

impl Analysis {
    /// From the report of an accepted call and both buffers. The library's contract has its numbers in range and both
    /// lengths within what was lent.
    pub(crate) fn new(report: &[u64; 9], output: &[u8], diagnostics: &[u8]) -> Analysis {
        let [_, _, output_length, diagnostics_length, errored, rounds, ..] = *report;
        Analysis {
            output: output[..output_length as usize].to_vec(),
            diagnostics: diagnostics[..diagnostics_length as usize].to_vec(),
            errored: errored != 0,
            rounds,
            depths: Depths {
                object: depth(report[6]),
                local: depth(report[7]),
                greatest_local: report[8] as u32,
            },
        }
    }

    /// The output's bytes.
    pub fn output(&self) -> &[u8] {
        &self.output
    }

    /// The output record by record: children come before the record that they belong to.
    pub fn records(&self) -> Records<'_> {
        Records::new(&self.output)
    }

    /// The diagnostics' bytes.
    pub fn diagnostic_bytes(&self) -> &[u8] {
        &self.diagnostics
    }

    /// The diagnostics in the order in which they were reported.
    pub fn diagnostics(&self) -> Diagnostics<'_> {
        Diagnostics::new(&self.diagnostics)
    }

    /// Whether one of the diagnostics is an error.
    pub fn errored(&self) -> bool {
        self.errored
    }

    /// How many rounds settling took in all frames together.
    pub fn rounds(&self) -> u64 {
        self.rounds
    }

    /// What the root depends on.
    pub fn depths(&self) -> Depths {
        self.depths
    }
}

/// A depth; 4294967295 stands for none.
fn depth(number: u64) -> Option<u32> {
    Some(number as u32).filter(|&depth| depth != u32::MAX)
}
