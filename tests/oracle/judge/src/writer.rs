//! The Rust's lowered tree as document 01's packed output.
//!
//! The lowered tree is walked beside the source, because it alone doesn't say everything: whether a bind was a `BV`
//! or a `BF` (see `bind`), and which parts are there.

use std::collections::HashSet;

use jrsonnet_interner::IStr;
use jrsonnet_ir::{
    ArgsDesc, AssertStmt, BindSpec, Expr, ExprParam, ExprParams, FieldMember, FieldName, IndexPart,
    ObjBody, ObjMembers, Slice, TrivialVal, Visibility,
};
use wire::put;

use crate::analyze::{
    AnalysisReport, ClosureShape, LArgsDesc, LAssertStmt, LBind, LDestruct, LExpr, LFieldMember,
    LFieldName, LFunction, LIndexPart, LObjAsserts, LObjBody, LObjMembers, LObjStaticMembers,
    LParam, LSliceExpr, LSlot, LocalSlot,
};
use crate::number_of;
use crate::rounds::{bind_name, destruct_name};

pub fn write(source: &Expr, report: &AnalysisReport) -> Vec<u8> {
    let mut writer = Writer { out: vec![] };
    writer.expr(source, &report.lir);
    writer.shape(&report.root_shape);
    writer.out
}

struct Writer {
    out: Vec<u8>,
}

impl Writer {
    fn put(&mut self, mark: &[u8; 2], numbers: &[u32]) {
        put(&mut self.out, mark, numbers);
    }

    fn expr(&mut self, source: &Expr, lowered: &LExpr) {
        match (source, lowered) {
            // No binds, no frame, no record: such a local is its body.
            (Expr::LocalExpr(binds, body), _) if binds.is_empty() => self.expr(body, lowered),
            (_, LExpr::Slot(slot)) => self.slot(*slot),
            (_, LExpr::Trivial(constant)) => self.put(b"TV", &[constant_number(constant)]),
            (_, LExpr::ArrConst(items)) => {
                let mut numbers = vec![count(items)];
                numbers.extend(items.iter().map(constant_number));
                self.put(b"AC", &numbers);
            }
            (Expr::Arr(sources), LExpr::Arr { shape, items }) => {
                self.pairs(sources, items.iter());
                self.shape(shape);
                self.put(b"AR", &[count(items)]);
            }
            (Expr::Obj(source), LExpr::Obj(body)) => self.object(source, body),
            (Expr::ObjExtend(base_source, source), LExpr::ObjExtend(base, body)) => {
                self.expr(base_source, base);
                self.object(source, body);
                self.put(b"OX", &[]);
            }
            (Expr::UnaryOp(_, source), LExpr::UnaryOp(op, value)) => {
                self.expr(source, value);
                self.put(b"UN", &[op.0]);
            }
            (Expr::BinaryOp(source), LExpr::BinaryOp { lhs, op, rhs }) => {
                self.expr(&source.lhs, lhs);
                self.expr(&source.rhs, rhs);
                self.put(b"BI", &[op.0]);
            }
            (Expr::AssertExpr(source), LExpr::AssertExpr { assert, rest }) => {
                self.condition(&source.assert, assert);
                self.expr(&source.rest, rest);
                self.put(b"AS", &[u32::from(assert.message.is_some())]);
            }
            (Expr::LocalExpr(binds, source), LExpr::LocalExpr(local)) => {
                self.binds(binds, &local.binds);
                self.expr(source, &local.body);
                self.shape(&local.frame_shape);
                self.put(b"LO", &[count(&local.binds)]);
            }
            (Expr::ErrorStmt(_, source), LExpr::Error(span, value)) => {
                self.expr(source, value);
                self.put(b"ER", &[span.0]);
            }
            (
                _,
                LExpr::Import {
                    kind,
                    kind_span,
                    path,
                },
            ) => {
                self.put(b"IM", &[kind.value.0, kind_span.0, number_of(path)]);
            }
            (
                Expr::Apply(source, sources, _),
                LExpr::Apply {
                    applicable,
                    args,
                    tailstrict,
                },
            ) => {
                self.expr(source, applicable);
                self.arguments(&sources.value, &args.value);
                let LArgsDesc { unnamed, names, .. } = &args.value;
                let flag = u32::from(*tailstrict);
                self.put(b"AP", &[count(unnamed), count(names), flag, args.span.0]);
            }
            (
                Expr::Index {
                    indexable: source,
                    parts: sources,
                },
                LExpr::Index { indexable, parts },
            ) => {
                self.expr(source, indexable);
                self.parts(sources, parts);
                self.put(b"IX", &[count(parts)]);
            }
            // Any function that has a name of its own comes by `bind` or `field_value`.
            (Expr::Function(_, params, body), LExpr::Function(function)) => {
                assert!(function.name.is_none(), "a function without a name");
                self.function(params, body, function, None);
            }
            (_, LExpr::IdentityFunction) => self.put(b"IY", &[]),
            (
                Expr::IfElse(source),
                LExpr::IfElse {
                    cond,
                    cond_then,
                    cond_else,
                },
            ) => {
                self.expr(&source.cond.cond, cond);
                self.expr(&source.cond_then, cond_then);
                self.pairs(&source.cond_else, cond_else.as_deref());
                self.put(b"IF", &[u32::from(cond_else.is_some())]);
            }
            (Expr::Slice(source), LExpr::Slice(slice)) => self.slice(source, slice),
            (_, LExpr::Super) => self.put(b"SU", &[]),
            (_, LExpr::BadLocal(what)) => self.put(b"BL", &[bad_place(what)]),
            (source, lowered) => panic!("{lowered:?} doesn't come from {source:?}"),
        }
    }

    fn pairs<'a>(
        &mut self,
        sources: impl IntoIterator<Item = &'a Expr>,
        lowered: impl IntoIterator<Item = &'a LExpr>,
    ) {
        let mut lowered = lowered.into_iter();
        for source in sources {
            self.expr(source, lowered.next().expect("as many as in the source"));
        }
        assert!(lowered.next().is_none(), "no more than in the source");
    }

    fn slot(&mut self, slot: LSlot) {
        match slot {
            LSlot::Local(slot) => self.put(b"LS", &[u32::from(slot.0)]),
            LSlot::Capture(slot) => self.put(b"CS", &[u32::from(slot.0)]),
        }
    }

    fn shape(&mut self, shape: &ClosureShape) {
        let mut numbers = vec![u32::from(shape.n_locals), count(&shape.captures)];
        for source in &shape.captures {
            numbers.extend(match source {
                LSlot::Local(slot) => [0, u32::from(slot.0)],
                LSlot::Capture(slot) => [1, u32::from(slot.0)],
            });
        }
        self.put(b"SH", &numbers);
    }

    fn condition(&mut self, source: &AssertStmt, lowered: &LAssertStmt) {
        self.expr(&source.assertion.value, &lowered.cond.value);
        self.pairs(&source.message, &lowered.message);
    }

    fn arguments(&mut self, sources: &ArgsDesc, args: &LArgsDesc) {
        self.pairs(&sources.unnamed, args.unnamed.iter().map(|value| &**value));
        for ((source, value), name) in sources.values.iter().zip(&args.values).zip(&args.names) {
            self.expr(source, value);
            self.put(b"NA", &[number_of(name)]);
        }
    }

    fn parts(&mut self, sources: &[IndexPart], parts: &[LIndexPart]) {
        for (source, part) in sources.iter().zip(parts) {
            self.expr(&source.value, &part.value);
            self.put(b"PT", &[part.span.0]);
        }
    }

    fn slice(&mut self, source: &Slice, slice: &LSliceExpr) {
        self.expr(&source.value, &slice.value);
        let sources = [&source.slice.start, &source.slice.end, &source.slice.step];
        let bounds = [&slice.start, &slice.end, &slice.step];
        self.pairs(
            sources.into_iter().flatten().map(|bound| &bound.value),
            bounds.into_iter().flatten(),
        );
        let set = (0..3)
            .filter(|&bit| bounds[bit].is_some())
            .map(|bit| 1 << bit)
            .sum();
        self.put(b"SC", &[set]);
    }

    fn binds(&mut self, sources: &[BindSpec], binds: &[LBind]) {
        let kept = first_of_each_name(sources, |bind| &bind_name(bind).value);
        assert_eq!(kept.len(), binds.len(), "kept binds");
        for (source, bind) in kept.into_iter().zip(binds) {
            self.bind(source, &bind.value);
            self.shape(&bind.value_shape);
            self.put(b"BV", &[u32::from(slot_of(&bind.destruct).0)]);
        }
    }

    /// A difference between document 01 and the Rust: the Rust names the function that is the value of a `BV` after
    /// the bind, as it does for a `BF`; document 01 writes `FN 0 0 ..` for it. The name is checked and left out.
    fn bind(&mut self, source: &BindSpec, value: &LExpr) {
        let name = &bind_name(source).value;
        match (source, value) {
            (
                BindSpec::Field {
                    value: Expr::Function(_, params, body),
                    ..
                },
                LExpr::Function(f),
            ) => {
                assert_eq!(f.name.as_ref(), Some(name));
                self.function(params, body, f, None);
            }
            (BindSpec::Field { value: source, .. }, _) => self.expr(source, value),
            (
                BindSpec::Function {
                    params,
                    value: body,
                    ..
                },
                LExpr::Function(f),
            ) => {
                self.function(params, body, f, f.name.as_ref());
            }
            (BindSpec::Function { .. }, LExpr::IdentityFunction) => self.put(b"IY", &[]),
            (source, value) => panic!("{value:?} doesn't come from {source:?}"),
        }
    }

    fn function(&mut self, params: &ExprParams, body: &Expr, f: &LFunction, name: Option<&IStr>) {
        let kept = first_of_each_name(&params.exprs, |param| &destruct_name(&param.destruct).value);
        assert_eq!(kept.len(), f.params.len(), "kept parameters");
        for (source, param) in kept.into_iter().zip(&f.params) {
            self.parameter(source, param);
        }
        self.expr(body, &f.body);
        self.shape(&f.body_shape);
        let named = u32::from(name.is_some());
        self.put(b"FN", &[named, name.map_or(0, number_of), count(&f.params)]);
    }

    fn parameter(&mut self, source: &ExprParam, param: &LParam) {
        if let (Some(source), Some((shape, default))) = (&source.default, &param.default) {
            self.expr(source, default);
            self.shape(shape);
        }
        let name = param.name.as_ref().map_or(0, number_of);
        let slot = u32::from(slot_of(&param.destruct).0);
        self.put(b"PA", &[name, slot, u32::from(param.default.is_some())]);
    }

    /// The Rust has two forms of object, which differ in how they keep the heads.
    fn object(&mut self, source: &ObjBody, body: &LObjBody) {
        let ObjBody::MemberList(source) = source else {
            unreachable!("left out of document 01")
        };
        match body {
            LObjBody::StaticMembers(members) => {
                for field in &members.shape.fields {
                    let flags = field.flags;
                    self.head(None, number_of(&field.name), flags.plus, flags.visibility);
                }
                self.members(source, &Members::of_static(members));
            }
            LObjBody::MemberList(members) => {
                for (source, field) in source.fields.iter().zip(&members.fields) {
                    self.listed_head(&source.name.value, field);
                }
                self.members(source, &Members::of_list(members));
            }
            LObjBody::ObjComp(_) => unreachable!("left out of document 01"),
        }
    }

    fn listed_head(&mut self, source: &FieldName, field: &LFieldMember) {
        match (source, &field.name) {
            (FieldName::Dyn(source), LFieldName::Dyn(name)) => {
                self.head(Some((source, name)), 0, field.plus, field.visibility);
            }
            (FieldName::Fixed(_), LFieldName::Fixed(name)) => {
                self.head(None, number_of(name), field.plus, field.visibility);
            }
            (source, name) => panic!("{name:?} doesn't come from {source:?}"),
        }
    }

    fn head(
        &mut self,
        computed: Option<(&Expr, &LExpr)>,
        name: u32,
        plus: bool,
        visibility: Visibility,
    ) {
        if let Some((source, name)) = computed {
            self.expr(source, name);
        }
        let kind = u32::from(computed.is_some());
        self.put(b"FH", &[kind, name, u32::from(plus), visibility.0]);
    }

    fn members(&mut self, source: &ObjMembers, members: &Members) {
        self.binds(&source.locals, members.locals);
        if let Some(asserts) = members.asserts {
            self.assertions(&source.asserts, asserts);
        }
        for (source, (shape, value)) in source.fields.iter().zip(&members.values) {
            self.field_value(source, value);
            self.shape(shape);
            self.put(b"FV", &[]);
        }
        self.shape(members.frame_shape);
        let [this, dollar, parent] = members.used.map(u32::from);
        let assertions = members.asserts.map_or(0, |asserts| count(&asserts.asserts));
        let (locals, fields) = (count(members.locals), count(&members.values));
        let fixed = u32::from(members.fixed);
        self.put(
            b"OB",
            &[this, dollar, parent, locals, assertions, fields, fixed],
        );
    }

    fn assertions(&mut self, sources: &[AssertStmt], asserts: &LObjAsserts) {
        for (source, assertion) in sources.iter().zip(&asserts.asserts) {
            self.condition(source, assertion);
            self.put(b"AT", &[u32::from(assertion.message.is_some())]);
        }
        self.shape(&asserts.shape);
    }

    fn field_value(&mut self, source: &FieldMember, value: &LExpr) {
        match (&source.params, value) {
            (Some(params), LExpr::Function(f)) => {
                self.function(params, &source.value, f, f.name.as_ref());
            }
            (Some(_), LExpr::IdentityFunction) => self.put(b"IY", &[]),
            (Some(_), value) => panic!("{value:?} doesn't come from a method"),
            (None, value) => self.expr(&source.value, value),
        }
    }
}

/// What both forms of object have besides their heads.
struct Members<'a> {
    locals: &'a [LBind],
    asserts: Option<&'a LObjAsserts>,
    values: Vec<&'a (ClosureShape, LExpr)>,
    frame_shape: &'a ClosureShape,
    /// `this`, `$`, `super`
    used: [bool; 3],
    fixed: bool,
}

impl<'a> Members<'a> {
    fn of_static(members: &'a LObjStaticMembers) -> Members<'a> {
        Members {
            locals: &members.locals,
            asserts: members.asserts.as_deref(),
            values: members.bindings.iter().map(|value| &**value).collect(),
            frame_shape: &members.frame_shape,
            used: [
                members.this.is_some(),
                members.set_dollar,
                members.uses_super,
            ],
            fixed: true,
        }
    }

    fn of_list(members: &'a LObjMembers) -> Members<'a> {
        Members {
            locals: &members.locals,
            asserts: members.asserts.as_deref(),
            values: members.fields.iter().map(|field| &*field.value).collect(),
            frame_shape: &members.frame_shape,
            used: [
                members.this.is_some(),
                members.set_dollar,
                members.uses_super,
            ],
            fixed: false,
        }
    }
}

fn count<T>(list: &[T]) -> u32 {
    u32::try_from(list.len()).expect("lists are short")
}

fn constant_number(constant: &TrivialVal) -> u32 {
    match constant {
        TrivialVal::Constant(number) => *number,
        TrivialVal::Str(path) => panic!("{path} is the path of an import"),
    }
}

fn slot_of(destruct: &LDestruct) -> LocalSlot {
    let LDestruct::Full(slot) = destruct;
    *slot
}

fn bad_place(what: &str) -> u32 {
    match what {
        "self" => 0,
        "super" => 1,
        "$" => 2,
        "ref" => 3,
        "bad import" => 4,
        other => panic!("{other} is no bad place"),
    }
}

/// The Rust drops a bind or parameter whose name the frame already has.
fn first_of_each_name<T>(specs: &[T], name: impl Fn(&T) -> &IStr) -> Vec<&T> {
    let mut seen = HashSet::new();
    specs
        .iter()
        .filter(|spec| seen.insert(name(spec)))
        .collect()
}
