//! What one tree is like: its size, how few names it has, which forms it prefers. Drawn anew for each tree, so that
//! rare mixtures come up often somewhere.

use crate::random::Random;

#[derive(Clone, Copy, Debug, PartialEq, Eq)]
pub enum Mode {
    /// everything below, mostly small
    Mixed,
    /// up to some eight records
    Small,
    /// nested as deep as 200
    Deep,
    /// frames with many names
    Wide,
    /// as mixed, with few errors and nothing that Jsonnet's grammar can't say
    Printable,
}

impl Mode {
    pub const ALL: [Mode; 5] = [
        Mode::Mixed,
        Mode::Small,
        Mode::Deep,
        Mode::Wide,
        Mode::Printable,
    ];

    /// So that modes don't share their sequences.
    pub fn salt(self) -> u64 {
        (self as u64).wrapping_mul(0xd6e8_feb8_6659_fd93)
    }
}

/// The forms an expression with parts can take.
#[derive(Clone, Copy, Debug, PartialEq, Eq)]
pub enum Form {
    Array,
    Unary,
    Binary,
    Assert,
    Local,
    EmptyLocal,
    Chain,
    Error,
    Apply,
    Index,
    Function,
    If,
    Slice,
    Object,
    Extend,
    DollarAfter,
}

/// Each form with its ordinary weight.
const FORMS: [(Form, usize); 16] = [
    (Form::Array, 6),
    (Form::Unary, 2),
    (Form::Binary, 8),
    (Form::Assert, 2),
    (Form::Local, 16),
    (Form::EmptyLocal, 1),
    (Form::Chain, 2),
    (Form::Error, 1),
    (Form::Apply, 4),
    (Form::Index, 3),
    (Form::Function, 12),
    (Form::If, 2),
    (Form::Slice, 1),
    (Form::Object, 14),
    (Form::Extend, 3),
    (Form::DollarAfter, 1),
];

pub struct Taste {
    /// about how many expressions the tree has
    pub size: usize,
    /// the greatest nesting, at most 200
    pub nesting: usize,
    /// the names that are bound and used
    pub names: Vec<u32>,
    /// names for fields
    pub fields: Vec<u32>,
    pub weights: [usize; FORMS.len()],
    /// the most names of a frame, fields of an object, parts of a call and so on
    pub breadth: usize,
    // Chances in percent:
    /// an expression has no parts though it might
    pub leaf: usize,
    /// a frame gets a name that it has
    pub duplicate: usize,
    /// a use takes any name of the pool or one that is never bound; self and the like stand outside objects
    pub stray: usize,
    /// a use takes a name of the innermost frame
    pub near: usize,
    /// a function is the identity, or close to it
    pub identity: usize,
    /// a bind is a function, a field a method
    pub function_bind: usize,
    /// a parameter has a default
    pub default: usize,
    /// a field's name is computed
    pub computed: usize,
    /// one part of an expression gets nearly all that is left to grow
    pub favour: usize,
    /// numbers that mean nothing are any numbers
    pub wild: bool,
    pub printable: bool,
}

impl Taste {
    pub fn new(random: &mut Random, mode: Mode) -> Taste {
        let printable = mode == Mode::Printable;
        let mode = drawn(random, mode);
        let deep = mode == Mode::Deep;
        let wild = random.percent(10) && !printable;
        Taste {
            size: size(random, mode),
            nesting: nesting(random, deep),
            names: names(random, wild),
            fields: (40..40 + random.within(1, 6) as u32).collect(),
            weights: weights(random, deep),
            breadth: breadth(random, mode),
            leaf: if deep {
                0
            } else {
                random.pick(&[0, 5, 15, 30])
            },
            duplicate: random.pick(&[0, 0, 5, 20, 50]),
            stray: random.pick(if printable {
                &[0, 0, 0, 3, 10]
            } else {
                &[0, 0, 5, 20, 50]
            }),
            near: random.pick(&[10, 40, 70]),
            identity: if deep { 0 } else { random.pick(&[0, 10, 40]) },
            function_bind: random.pick(&[0, 20, 60]),
            default: random.pick(&[0, 30, 70]),
            computed: random.pick(&[0, 20, 60]),
            favour: if deep { 100 } else { random.pick(&[0, 30, 70]) },
            wild,
            printable,
        }
    }

    pub fn form(&self, random: &mut Random) -> Form {
        FORMS[random.weighted(&self.weights)].0
    }
}

/// Which kind of tree a mixed one is.
fn drawn(random: &mut Random, mode: Mode) -> Mode {
    match mode {
        Mode::Mixed | Mode::Printable => match random.below(100) {
            0..40 => Mode::Small,
            40..42 => Mode::Deep,
            42..44 => Mode::Wide,
            _ => Mode::Mixed,
        },
        other => other,
    }
}

fn size(random: &mut Random, mode: Mode) -> usize {
    match mode {
        Mode::Small => random.within(1, 8),
        Mode::Deep => random.within(100, 420),
        Mode::Wide => random.within(30, 120),
        Mode::Mixed | Mode::Printable => match random.below(100) {
            0..60 => random.within(5, 25),
            60..92 => random.within(20, 70),
            _ => random.within(70, 180),
        },
    }
}

fn breadth(random: &mut Random, mode: Mode) -> usize {
    match mode {
        Mode::Wide => random.within(10, 60),
        Mode::Deep => random.within(1, 2),
        _ => random.within(1, 5),
    }
}

fn nesting(random: &mut Random, deep: bool) -> usize {
    match random.below(4) {
        _ if deep => random.within(190, 200),
        0 => random.within(3, 9),
        _ => 200,
    }
}

/// Few names, so that they are bound again and again.
fn names(random: &mut Random, wild: bool) -> Vec<u32> {
    let count = random.pick(&[1, 2, 2, 3, 3, 4, 6, 9]);
    (1..=count)
        .map(|name| if wild { wild_number(random) } else { name })
        .collect()
}

fn wild_number(random: &mut Random) -> u32 {
    let any = random_number(random);
    random.pick(&[0, u32::MAX, 1 << 31, any])
}

pub fn random_number(random: &mut Random) -> u32 {
    random.draw() as u32
}

/// Each form is at its ordinary weight, much more frequent or absent.
fn weights(random: &mut Random, deep: bool) -> [usize; FORMS.len()] {
    let mut weights = FORMS.map(|(_, ordinary)| ordinary * random.pick(&[0, 1, 1, 1, 4]));
    if deep {
        // A chain's body is a name more often than not.
        weights[Form::Chain as usize] = 0;
    }
    if weights.iter().all(|weight| *weight == 0) {
        weights[Form::Local as usize] = 1;
    }
    weights
}
