//! Stands in for the crate `jrsonnet_ir`: the syntax tree, types only.
//! Operators, import kinds, spans and constants are the opaque numbers of document 01.

use jrsonnet_interner::IStr;

#[derive(Clone, Debug)]
pub struct Span(pub u32);

#[derive(Clone, Debug)]
pub struct Spanned<T> {
    pub value: T,
    pub span: Span,
}

impl<T> Spanned<T> {
    pub fn new(value: T, span: Span) -> Spanned<T> {
        Spanned { value, span }
    }
}

#[derive(Clone, Copy, Debug)]
pub struct UnaryOpType(pub u32);

#[derive(Clone, Copy, Debug)]
pub struct BinaryOpType(pub u32);

#[derive(Clone, Copy, Debug)]
pub struct ImportKind(pub u32);

/// 0 to 2, as in a field head.
#[derive(Clone, Copy, Debug)]
pub struct Visibility(pub u32);

/// `Str` is the path of an import; every other constant is its number.
#[derive(Clone, Debug)]
pub enum TrivialVal {
    Str(IStr),
    Constant(u32),
}

#[derive(Clone, Copy, Debug)]
pub enum IdentityKind {
    This,
    Super,
    Dollar,
}

#[derive(Debug)]
pub enum Expr {
    Identity(Span, IdentityKind),
    Trivial(TrivialVal),
    Var(Spanned<IStr>),
    Arr(Vec<Expr>),
    ArrComp(Box<Expr>, Vec<CompSpec>),
    Obj(ObjBody),
    ObjExtend(Box<Expr>, ObjBody),
    UnaryOp(UnaryOpType, Box<Expr>),
    BinaryOp(Box<BinaryOp>),
    AssertExpr(Box<AssertExpr>),
    LocalExpr(Vec<BindSpec>, Box<Expr>),
    Import(Spanned<ImportKind>, Box<Expr>),
    ErrorStmt(Span, Box<Expr>),
    Apply(Box<Expr>, Spanned<ArgsDesc>, bool),
    Index {
        indexable: Box<Expr>,
        parts: Vec<IndexPart>,
    },
    Function(Span, ExprParams, Box<Expr>),
    IfElse(Box<IfElse>),
    Slice(Box<Slice>),
}

#[derive(Debug)]
pub struct BinaryOp {
    pub lhs: Expr,
    pub op: BinaryOpType,
    pub rhs: Expr,
}

#[derive(Debug)]
pub struct AssertExpr {
    pub assert: AssertStmt,
    pub rest: Expr,
}

#[derive(Debug)]
pub struct AssertStmt {
    pub assertion: Spanned<Expr>,
    pub message: Option<Expr>,
}

#[derive(Debug)]
pub struct ArgsDesc {
    pub unnamed: Vec<Expr>,
    pub names: Vec<IStr>,
    pub values: Vec<Expr>,
}

#[derive(Debug)]
pub struct IndexPart {
    pub span: Span,
    pub value: Expr,
}

#[derive(Debug)]
pub struct IfElse {
    pub cond: IfSpecData,
    pub cond_then: Expr,
    pub cond_else: Option<Expr>,
}

#[derive(Debug)]
pub struct Slice {
    pub value: Expr,
    pub slice: SliceDesc,
}

#[derive(Debug)]
pub struct SliceDesc {
    pub start: Option<Spanned<Expr>>,
    pub end: Option<Spanned<Expr>>,
    pub step: Option<Spanned<Expr>>,
}

#[derive(Debug)]
pub enum Destruct {
    Full(Spanned<IStr>),
}

#[derive(Debug)]
pub enum BindSpec {
    Field {
        into: Destruct,
        value: Expr,
    },
    Function {
        name: Spanned<IStr>,
        params: ExprParams,
        value: Expr,
    },
}

#[derive(Debug)]
pub struct ExprParams {
    pub exprs: Vec<ExprParam>,
    pub signature: function::FunctionSignature,
}

#[derive(Debug)]
pub struct ExprParam {
    pub destruct: Destruct,
    pub default: Option<Expr>,
}

pub mod function {
    /// Names and defaults for callers in the evaluator; the packed form has none of it.
    #[derive(Clone, Debug)]
    pub struct FunctionSignature;
}

#[derive(Debug)]
pub enum ObjBody {
    MemberList(ObjMembers),
    ObjComp(Box<ObjComp>),
}

#[derive(Debug)]
pub struct ObjMembers {
    pub locals: Vec<BindSpec>,
    pub asserts: Vec<AssertStmt>,
    pub fields: Vec<FieldMember>,
}

#[derive(Debug)]
pub struct FieldMember {
    pub name: Spanned<FieldName>,
    pub plus: bool,
    pub params: Option<ExprParams>,
    pub visibility: Visibility,
    pub value: Expr,
}

#[derive(Debug)]
pub enum FieldName {
    Fixed(IStr),
    Dyn(Expr),
}

/// Left out of document 01; here only because the file names it.
#[derive(Debug)]
pub struct ObjComp {
    pub locals: Vec<BindSpec>,
    pub field: FieldMember,
    pub compspecs: Vec<CompSpec>,
}

#[derive(Debug)]
pub enum CompSpec {
    IfSpec(IfSpecData),
    ForSpec(ForSpecData),
}

#[derive(Debug)]
pub struct IfSpecData {
    pub cond: Expr,
}

#[derive(Debug)]
pub struct ForSpecData {
    pub destruct: Destruct,
    pub over: Expr,
}
