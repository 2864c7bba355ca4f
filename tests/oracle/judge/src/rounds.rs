//! The rounds of all settling loops, told from the calls of `arridx`.
//!
//! In each round each loop asks `arridx` once for each spec of its frame. Whatever opens a frame asks for the next
//! id first, and a frame that has specs has a local, which is drained after its second loop; so a run of these
//! calls is of one frame, and a walk over the tree in the Rust's order knows of which. A frame without specs asks
//! for none and goes once through each loop.

use std::collections::HashSet;
use std::collections::VecDeque;

use jrsonnet_interner::IStr;
use jrsonnet_ir::{
    AssertStmt, BindSpec, Destruct, Expr, ExprParams, FieldName, ObjBody, ObjMembers, Spanned,
};

use crate::arr::Call;

pub fn count(expr: &Expr, calls: Vec<(Call, usize)>) -> u32 {
    let mut counter = Counter {
        calls: calls.into(),
        rounds: 0,
    };
    counter.expr(expr);
    let left = counter.calls.iter().all(|(call, _)| *call == Call::NextId);
    assert!(left, "calls that belong to no frame");
    u32::try_from(counter.rounds).expect("rounds are few")
}

struct Counter {
    calls: VecDeque<(Call, usize)>,
    rounds: usize,
}

impl Counter {
    /// The length of the run of such calls that comes next, which is then past; 0 where another kind is next.
    fn run_of(&mut self, wanted: Call) -> usize {
        while self
            .calls
            .front()
            .is_some_and(|(call, _)| *call == Call::NextId)
        {
            self.calls.pop_front();
        }
        if self.calls.front().is_none_or(|(call, _)| *call != wanted) {
            return 0;
        }
        self.calls.pop_front().map_or(0, |(_, times)| times)
    }

    /// A frame whose specs were walked: its loops, and the body between them.
    fn settle(&mut self, names: Vec<&IStr>, body: impl FnOnce(&mut Self)) {
        let specs = names.len();
        if specs == 0 {
            body(self);
            self.rounds += 2;
            return;
        }
        let first = self.run_of(Call::Spec);
        body(self);
        // Where the body opens no frame, both loops may have been one run.
        let both = first + self.run_of(Call::Spec);
        assert_eq!(both % specs, 0, "whole rounds");
        let kept = names.into_iter().collect::<HashSet<&IStr>>().len();
        assert_eq!(
            self.run_of(Call::Drained),
            kept,
            "locals at the frame's end"
        );
        assert!(
            both / specs <= 2 * (kept + 1),
            "more rounds than document 01 allows"
        );
        self.rounds += both / specs;
    }

    fn expr(&mut self, expr: &Expr) {
        match expr {
            Expr::Identity(..) | Expr::Trivial(_) | Expr::Var(_) | Expr::Import(..) => {}
            Expr::Arr(items) => self.all(items),
            Expr::Obj(body) => self.object(body),
            Expr::ObjExtend(base, body) => {
                self.expr(base);
                self.object(body);
            }
            Expr::UnaryOp(_, value) | Expr::ErrorStmt(_, value) => self.expr(value),
            Expr::BinaryOp(op) => self.all([&op.lhs, &op.rhs]),
            Expr::AssertExpr(assert) => {
                self.assertion(&assert.assert);
                self.expr(&assert.rest);
            }
            Expr::LocalExpr(binds, body) if binds.is_empty() => self.expr(body),
            Expr::LocalExpr(binds, body) => self.binds(binds, |counter| counter.expr(body)),
            Expr::Apply(callee, args, _) => {
                self.expr(callee);
                self.all(&args.value.unnamed);
                self.all(&args.value.values);
            }
            Expr::Index { indexable, parts } => {
                self.expr(indexable);
                self.all(parts.iter().map(|part| &part.value));
            }
            Expr::Function(_, params, body) => self.function(params, body),
            Expr::IfElse(parts) => {
                self.all([&parts.cond.cond, &parts.cond_then]);
                self.all(&parts.cond_else);
            }
            Expr::Slice(slice) => {
                self.expr(&slice.value);
                let bounds = [&slice.slice.start, &slice.slice.end, &slice.slice.step];
                self.all(bounds.into_iter().flatten().map(|bound| &bound.value));
            }
            Expr::ArrComp(..) => unreachable!("left out of document 01"),
        }
    }

    fn all<'a>(&mut self, exprs: impl IntoIterator<Item = &'a Expr>) {
        exprs.into_iter().for_each(|e| self.expr(e));
    }

    fn assertion(&mut self, assertion: &AssertStmt) {
        self.expr(&assertion.assertion.value);
        self.all(&assertion.message);
    }

    fn binds(&mut self, binds: &[BindSpec], body: impl FnOnce(&mut Self)) {
        for bind in binds {
            match bind {
                BindSpec::Field { value, .. } => self.expr(value),
                BindSpec::Function { params, value, .. } => self.function(params, value),
            }
        }
        self.settle(
            binds.iter().map(|bind| &bind_name(bind).value).collect(),
            body,
        );
    }

    fn function(&mut self, params: &ExprParams, body: &Expr) {
        self.all(
            params
                .exprs
                .iter()
                .filter_map(|param| param.default.as_ref()),
        );
        let names = params
            .exprs
            .iter()
            .map(|param| &destruct_name(&param.destruct).value);
        self.settle(names.collect(), |counter| counter.expr(body));
    }

    fn object(&mut self, body: &ObjBody) {
        let ObjBody::MemberList(ObjMembers {
            locals,
            asserts,
            fields,
        }) = body
        else {
            unreachable!("left out of document 01")
        };
        for field in fields {
            if let FieldName::Dyn(name) = &field.name.value {
                self.expr(name);
            }
        }
        self.binds(locals, |counter| {
            asserts
                .iter()
                .for_each(|assertion| counter.assertion(assertion));
            for field in fields {
                match &field.params {
                    Some(params) => counter.function(params, &field.value),
                    None => counter.expr(&field.value),
                }
            }
        });
    }
}

pub fn bind_name(bind: &BindSpec) -> &Spanned<IStr> {
    match bind {
        BindSpec::Field { into, .. } => destruct_name(into),
        BindSpec::Function { name, .. } => name,
    }
}

pub fn destruct_name(destruct: &Destruct) -> &Spanned<IStr> {
    let Destruct::Full(name) = destruct;
    name
}
