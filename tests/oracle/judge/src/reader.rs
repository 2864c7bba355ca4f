//! The Rust's tree from packed bytes that the first walk accepts.

use jrsonnet_interner::IStr;
use jrsonnet_ir::{
    ArgsDesc, AssertExpr, AssertStmt, BinaryOp, BinaryOpType, BindSpec, Destruct, Expr, ExprParam,
    ExprParams, FieldMember, FieldName, IdentityKind, IfElse, IfSpecData, ImportKind, IndexPart,
    ObjBody, ObjMembers, Slice, SliceDesc, Span, Spanned, TrivialVal, UnaryOpType, Visibility,
    function::FunctionSignature,
};

/// The external names and the expression.
pub fn read(tree: &[u8]) -> (Vec<IStr>, Expr) {
    let mut reader = Reader { tree, at: 0 };
    reader.expect(b"JT");
    let externals = reader.number();
    let names = (0..externals).map(|_| reader.name()).collect();
    let expr = reader.expr();
    assert_eq!(reader.at, tree.len(), "bytes follow the expression");
    (names, expr)
}

struct Reader<'a> {
    tree: &'a [u8],
    at: usize,
}

impl<'a> Reader<'a> {
    fn mark(&mut self) -> &'a [u8] {
        self.at += 2;
        &self.tree[self.at - 2..self.at]
    }

    fn expect(&mut self, mark: &[u8; 2]) {
        assert_eq!(self.mark(), mark);
    }

    fn number(&mut self) -> u32 {
        self.at += 4;
        wire::number(self.tree, self.at - 4)
    }

    fn flag(&mut self) -> bool {
        self.number() == 1
    }

    fn span(&mut self) -> Span {
        Span(self.number())
    }

    fn name(&mut self) -> IStr {
        IStr::from(self.number().to_string())
    }

    /// A name and its span, as they stand in `VA`, `BV`, `BF` and `PA`.
    fn spanned_name(&mut self) -> Spanned<IStr> {
        let name = self.name();
        Spanned::new(name, self.span())
    }

    fn many<T>(&mut self, count: u32, one: impl Fn(&mut Self) -> T) -> Vec<T> {
        (0..count).map(|_| one(self)).collect()
    }

    fn boxed(&mut self) -> Box<Expr> {
        Box::new(self.expr())
    }

    fn expr_if(&mut self, there: bool) -> Option<Expr> {
        there.then(|| self.expr())
    }

    fn expr(&mut self) -> Expr {
        match self.mark() {
            b"ID" => self.identity(),
            b"TV" => Expr::Trivial(TrivialVal::Constant(self.number())),
            b"VA" => Expr::Var(self.spanned_name()),
            b"AR" => {
                let count = self.number();
                Expr::Arr(self.many(count, Self::expr))
            }
            b"OB" => Expr::Obj(self.object()),
            b"OX" => {
                let base = self.boxed();
                self.expect(b"OB");
                Expr::ObjExtend(base, self.object())
            }
            b"UN" => Expr::UnaryOp(UnaryOpType(self.number()), self.boxed()),
            b"BI" => {
                let op = BinaryOpType(self.number());
                let lhs = self.expr();
                Expr::BinaryOp(Box::new(BinaryOp {
                    lhs,
                    op,
                    rhs: self.expr(),
                }))
            }
            b"AS" => {
                let assert = self.assertion();
                Expr::AssertExpr(Box::new(AssertExpr {
                    assert,
                    rest: self.expr(),
                }))
            }
            b"LO" => {
                let count = self.number();
                let binds = self.many(count, Self::bind);
                Expr::LocalExpr(binds, self.boxed())
            }
            b"ER" => Expr::ErrorStmt(self.span(), self.boxed()),
            b"IM" => self.import(),
            b"AP" => self.apply(),
            b"IX" => {
                let count = self.number();
                let indexable = self.boxed();
                Expr::Index {
                    indexable,
                    parts: self.many(count, Self::part),
                }
            }
            b"FN" => {
                let (span, params, body) = self.function();
                Expr::Function(span, params, Box::new(body))
            }
            b"IF" => self.if_else(),
            b"SC" => self.slice(),
            other => panic!("{other:?} is no expression"),
        }
    }

    fn identity(&mut self) -> Expr {
        let kind = match self.number() {
            0 => IdentityKind::This,
            1 => IdentityKind::Super,
            2 => IdentityKind::Dollar,
            other => panic!("{other} is no kind of identity"),
        };
        Expr::Identity(self.span(), kind)
    }

    /// The Rust looks at nothing but whether the path is a literal, so a constant stands for any other path.
    fn import(&mut self) -> Expr {
        let kind = ImportKind(self.number());
        let kind = Spanned::new(kind, self.span());
        let literal = self.flag();
        let path = self.number();
        let path = if literal {
            TrivialVal::Str(IStr::from(path.to_string()))
        } else {
            TrivialVal::Constant(path)
        };
        Expr::Import(kind, Box::new(Expr::Trivial(path)))
    }

    fn apply(&mut self) -> Expr {
        let (unnamed, named) = (self.number(), self.number());
        let tailstrict = self.flag();
        let span = self.span();
        let callee = self.boxed();
        let unnamed = self.many(unnamed, Self::expr);
        let (names, values) = self.many(named, Self::named_argument).into_iter().unzip();
        Expr::Apply(
            callee,
            Spanned::new(
                ArgsDesc {
                    unnamed,
                    names,
                    values,
                },
                span,
            ),
            tailstrict,
        )
    }

    fn named_argument(&mut self) -> (IStr, Expr) {
        self.expect(b"NA");
        let name = self.name();
        (name, self.expr())
    }

    fn part(&mut self) -> IndexPart {
        self.expect(b"PT");
        IndexPart {
            span: self.span(),
            value: self.expr(),
        }
    }

    fn if_else(&mut self) -> Expr {
        let has_else = self.flag();
        let cond = IfSpecData { cond: self.expr() };
        let cond_then = self.expr();
        let cond_else = self.expr_if(has_else);
        Expr::IfElse(Box::new(IfElse {
            cond,
            cond_then,
            cond_else,
        }))
    }

    fn slice(&mut self) -> Expr {
        let set = self.number();
        let value = self.expr();
        let mut bound = |bit| {
            let there = self.expr_if(set & bit != 0);
            there.map(|e| Spanned::new(e, Span(0)))
        };
        let slice = SliceDesc {
            start: bound(1),
            end: bound(2),
            step: bound(4),
        };
        Expr::Slice(Box::new(Slice { value, slice }))
    }

    /// What `AS` and `AT` have in common: the flag, the condition and the message.
    fn assertion(&mut self) -> AssertStmt {
        let has_message = self.flag();
        let assertion = Spanned::new(self.expr(), Span(0));
        AssertStmt {
            assertion,
            message: self.expr_if(has_message),
        }
    }

    fn bind(&mut self) -> BindSpec {
        let mark = self.mark();
        let name = self.spanned_name();
        match mark {
            b"BV" => BindSpec::Field {
                into: Destruct::Full(name),
                value: self.expr(),
            },
            b"BF" => {
                let (params, value) = self.function_under_name();
                BindSpec::Function {
                    name,
                    params,
                    value,
                }
            }
            other => panic!("{other:?} is no bind"),
        }
    }

    /// The `FN` of a `BF` or a method; its own span has no place in the Rust's tree.
    fn function_under_name(&mut self) -> (ExprParams, Expr) {
        self.expect(b"FN");
        let (_, params, body) = self.function();
        (params, body)
    }

    fn function(&mut self) -> (Span, ExprParams, Expr) {
        let span = self.span();
        let count = self.number();
        let exprs = self.many(count, Self::parameter);
        (
            span,
            ExprParams {
                exprs,
                signature: FunctionSignature,
            },
            self.expr(),
        )
    }

    fn parameter(&mut self) -> ExprParam {
        self.expect(b"PA");
        let destruct = Destruct::Full(self.spanned_name());
        let has_default = self.flag();
        ExprParam {
            destruct,
            default: self.expr_if(has_default),
        }
    }

    fn object(&mut self) -> ObjBody {
        let (locals, asserts, fields) = (self.number(), self.number(), self.number());
        let heads = self.many(fields, Self::head);
        let locals = self.many(locals, Self::bind);
        let asserts = self.many(asserts, |r| {
            r.expect(b"AT");
            r.assertion()
        });
        let fields = heads.into_iter().map(|head| self.field(head)).collect();
        ObjBody::MemberList(ObjMembers {
            locals,
            asserts,
            fields,
        })
    }

    fn head(&mut self) -> Head {
        self.expect(b"FH");
        let computed = self.number() == 1;
        let name = self.name();
        let span = self.span();
        let plus = self.flag();
        let visibility = Visibility(self.number());
        let method = self.flag();
        let name = if computed {
            FieldName::Dyn(self.expr())
        } else {
            FieldName::Fixed(name)
        };
        Head {
            name: Spanned::new(name, span),
            plus,
            visibility,
            method,
        }
    }

    fn field(&mut self, head: Head) -> FieldMember {
        let Head {
            name,
            plus,
            visibility,
            method,
        } = head;
        let (params, value) = if method {
            let (params, body) = self.function_under_name();
            (Some(params), body)
        } else {
            (None, self.expr())
        };
        FieldMember {
            name,
            plus,
            params,
            visibility,
            value,
        }
    }
}

struct Head {
    name: Spanned<FieldName>,
    plus: bool,
    visibility: Visibility,
    method: bool,
}
