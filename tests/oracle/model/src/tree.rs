//! The packed tree as the first walk reads it. Every record keeps its offset: refusals have it as their place.

pub struct Tree {
    pub externals: Vec<u32>,
    pub root: Expression,
}

pub struct Expression {
    pub at: usize,
    pub kind: Kind,
}

pub enum Kind {
    Identity {
        kind: u32,
        span: u32,
    },
    Constant(u32),
    Name {
        name: u32,
        span: u32,
    },
    ConstantArray(Vec<u32>),
    Array(Vec<Expression>),
    Import {
        kind: u32,
        span: u32,
        literal: bool,
        path: u32,
    },
    Local {
        binds: Vec<Bind>,
        body: Box<Expression>,
    },
    Function(Function),
    Object(Object),
    /// Any record that only passes its parts on: they precede it in the output, and it keeps its fields.
    Compound {
        mark: [u8; 2],
        fields: Vec<u32>,
        parts: Vec<Part>,
    },
}

pub struct Part {
    /// The `NA` or `PT` of this part, which stands after it in the output.
    pub label: Option<Label>,
    pub value: Expression,
}

pub struct Label {
    pub at: usize,
    pub mark: [u8; 2],
    pub field: u32,
}

pub struct Bind {
    pub at: usize,
    pub name: u32,
    pub span: u32,
    pub value: BindValue,
}

pub enum BindValue {
    Plain(Expression),
    Function { at: usize, function: Function },
}

pub struct Function {
    pub span: u32,
    pub parameters: Vec<Parameter>,
    pub body: Box<Expression>,
}

pub struct Parameter {
    pub at: usize,
    pub name: u32,
    pub span: u32,
    pub default: Option<Expression>,
}

pub struct Object {
    pub heads: Vec<Head>,
    pub binds: Vec<Bind>,
    pub assertions: Vec<Assertion>,
    pub values: Vec<Expression>,
}

pub struct Head {
    pub at: usize,
    pub name: u32,
    pub span: u32,
    pub plus: u32,
    pub visibility: u32,
    pub method: bool,
    pub computed: Option<Expression>,
}

pub struct Assertion {
    pub at: usize,
    pub condition: Expression,
    pub message: Option<Expression>,
}
