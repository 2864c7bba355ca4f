//! The analysis of a tree that passed the first walk, with every limit at its moment.

mod expressions;
mod frames;
mod functions;
mod objects;
mod settling;
mod specs;
mod uses;

use crate::fault::Fault;
use crate::room::{Refusal, Room, Rooms};
use crate::tree::{
    Bind, BindValue, Expression, Function, Head, Kind, Object, Parameter, Part, Tree,
};
use wire::Answer;

/// No depth at all: unused, or dependent on nothing.
const NEVER: u32 = u32::MAX;
const MOST_LOCALS_OF_FRAME: usize = 65_535;
const MOST_CAPTURES_OF_FRAME: usize = 65_536;

const UNDEFINED: u32 = 1;
const DEFINED_TWICE: u32 = 2;
const FIRST_IDENTITY_ERROR: u32 = 3;
const IMPORT_NOT_LITERAL: u32 = 6;
const UNUSED: u32 = 7;
const ONLY_USED_BY_UNUSED: u32 = 8;
const COULD_BE_HOISTED: u32 = 9;
const IDENTITY_FUNCTION: u32 = 10;

const BAD_NAME: u32 = 3;
const BAD_IMPORT: u32 = 4;

const SUPER: u32 = 1;
const DOLLAR: u32 = 2;

type Done<T = ()> = Result<T, Refusal>;

/// What a value depends on, as depths.
#[derive(Clone, Copy, PartialEq)]
struct Dependence {
    object: u32,
    local: u32,
    most: u32,
}

impl Dependence {
    const NONE: Dependence = Dependence {
        object: NEVER,
        local: NEVER,
        most: 0,
    };

    fn on_local(&mut self, depth: u32) {
        self.local = self.local.min(depth);
        self.most = self.most.max(depth);
    }

    fn on_object(&mut self, depth: u32) {
        self.object = self.object.min(depth);
    }

    fn taint_by(&mut self, other: Dependence) {
        self.object = self.object.min(other.object);
        self.local = self.local.min(other.local);
        self.most = self.most.max(other.most);
    }
}

struct Local {
    span: u32,
    depth: u32,
    used_at: u32,
    used_by_sibling: bool,
    analysed: bool,
    dependence: Dependence,
}

#[derive(Clone, Copy)]
enum Slot {
    Local(usize),
    Capture(usize),
}

/// A kept bind or parameter and the siblings it refers to.
struct Spec {
    id: usize,
    references: Vec<usize>,
}

struct Frame {
    defining: bool,
    first: usize,
    count: usize,
    captured: Vec<usize>,
    sources: Vec<Slot>,
    /// References of the spec being analysed, and what dropped ones passed on.
    pending: Vec<usize>,
    specs: Vec<Spec>,
}

struct OpenObject {
    this: usize,
    depth: u32,
    self_used: bool,
    super_used: bool,
}

struct OutermostObject {
    this: usize,
    depth: u32,
    used: bool,
}

/// A bind or parameter as its frame defines it.
struct Definition {
    at: usize,
    name: u32,
    span: u32,
}

impl Definition {
    fn of_binds(binds: &[Bind]) -> Vec<Definition> {
        let define = |bind: &Bind| Definition {
            at: bind.at,
            name: bind.name,
            span: bind.span,
        };
        binds.iter().map(define).collect()
    }

    fn of_parameters(parameters: &[Parameter]) -> Vec<Definition> {
        let define = |p: &Parameter| Definition {
            at: p.at,
            name: p.name,
            span: p.span,
        };
        parameters.iter().map(define).collect()
    }
}

/// What a spec's end needs to know of its beginning.
struct SpecEnd {
    at: usize,
    /// None for a dropped one.
    id: Option<usize>,
    /// A parameter's name and whether it has a default.
    parameter: Option<(u32, bool)>,
    before: Mark,
}

/// How far the call had come.
struct Mark {
    out: usize,
    diagnostics: usize,
    rounds: u32,
}

/// How a function is called in its output and where warning 10 points.
struct Title {
    name: Option<u32>,
    span: u32,
}

struct Analysis {
    fault: Option<Fault>,
    rooms: Rooms,
    locals: Vec<Local>,
    /// The locals' names, in their order; `this` has none.
    names: Vec<Option<u32>>,
    frames: Vec<Frame>,
    depth: u32,
    objects: Vec<OpenObject>,
    dollar: Option<OutermostObject>,
    /// How many dropped specs are open, which only faults ask for.
    dropping: u32,
    out: Vec<u8>,
    diagnostics: Vec<u8>,
    errored: bool,
    rounds: u32,
}

/// The answer of an accepted tree and the room it took.
pub fn run(fault: Option<Fault>, rooms: Rooms, tree: &Tree) -> Done<(Answer, Rooms)> {
    let mut analysis = Analysis {
        fault,
        rooms,
        locals: vec![],
        names: vec![],
        frames: vec![],
        depth: 0,
        objects: vec![],
        dollar: None,
        dropping: 0,
        out: vec![],
        diagnostics: vec![],
        errored: false,
        rounds: 0,
    };
    let depends = analysis.root(tree)?;
    let answer = Answer {
        number: 0,
        place: 0,
        out: analysis.out,
        diagnostics: analysis.diagnostics,
        errored: analysis.errored,
        rounds: analysis.rounds,
        depths: [depends.object, depends.local, depends.most],
    };
    Ok((answer, analysis.rooms))
}

impl Local {
    fn new(span: u32, depth: u32, analysed: bool) -> Local {
        Local {
            span,
            depth,
            used_at: NEVER,
            used_by_sibling: false,
            analysed,
            dependence: Dependence::NONE,
        }
    }
}

impl Analysis {
    fn faulty(&self, fault: Fault) -> bool {
        self.fault == Some(fault)
    }

    // ---- the buffers

    fn write(&mut self, at: usize, mark: &[u8; 2], numbers: &[u32]) -> Done {
        let bytes = 2 + 4 * numbers.len();
        if self.faulty(Fault::TakenBackNeedNotFit) && self.dropping > 0 {
            self.rooms.take_unjudged(Room::Out, bytes);
        } else if self.faulty(Fault::RecordPartlyFits) {
            self.rooms.take(Room::Out, 2, at)?;
            self.rooms.take_unjudged(Room::Out, bytes - 2);
        } else {
            self.rooms.take(Room::Out, bytes, at)?;
        }
        wire::put(&mut self.out, mark, numbers);
        Ok(())
    }

    fn take_back(&mut self, length: usize) {
        self.rooms.give_back(Room::Out, self.out.len() - length);
        self.out.truncate(length);
    }

    fn report(&mut self, at: usize, code: u32, name: u32, span: u32) -> Done {
        let warning = code >= UNUSED;
        self.errored |= !warning || self.faulty(Fault::WarningsAreErrors);
        self.rooms.take(Room::Diagnostics, 18, at)?;
        wire::put(
            &mut self.diagnostics,
            b"DG",
            &[u32::from(warning), code, name, span],
        );
        Ok(())
    }

    /// A place that means nothing: its error and `BL`.
    fn bad(&mut self, at: usize, bad: u32, code: u32, name: u32, span: u32) -> Done {
        if self.faulty(Fault::OutputBeforeDiagnostics) {
            self.write(at, b"BL", &[bad])?;
            return self.report(at, code, name, span);
        }
        self.report(at, code, name, span)?;
        self.write(at, b"BL", &[bad])
    }

    fn write_slot(&mut self, at: usize, slot: Slot) -> Done {
        match slot {
            Slot::Local(n) => self.write(at, b"LS", &[n as u32]),
            Slot::Capture(n) => self.write(at, b"CS", &[n as u32]),
        }
    }

    // ---- the root

    fn root(&mut self, tree: &Tree) -> Done<Dependence> {
        if self.faulty(Fault::RootBeforeExternals) {
            self.open(0, true)?;
            self.externals(&tree.externals)?;
        } else {
            self.externals(&tree.externals)?;
            self.open(0, true)?;
        }
        let root = self.top();
        root.first = 0;
        root.count = tree.externals.len();
        let mut depends = Dependence::NONE;
        self.expression(&tree.root, &mut depends)?;
        self.close(0)?;
        Ok(depends)
    }

    fn externals(&mut self, names: &[u32]) -> Done {
        for &name in names {
            if self.faulty(Fault::SharedExternalsReported) && self.find(name).is_some() {
                self.report(0, DEFINED_TWICE, name, 0)?;
            }
            let counted = !self.faulty(Fault::ExternalsUncounted);
            self.rooms.take(Room::Locals, usize::from(counted), 0)?;
            self.add_local(Some(name), Local::new(0, 0, true));
        }
        Ok(())
    }
}
