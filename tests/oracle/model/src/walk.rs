//! The first walk: the tree in byte order, with refusals 1 to 5 and the 11 of the externals' count.

use crate::fault::Fault;
use crate::room::Refusal;
use crate::tree::{
    Assertion, Bind, BindValue, Expression, Function, Head, Kind, Label, Object, Parameter, Part,
    Tree,
};

const DEEPEST: u32 = 200;
const MOST_EXTERNALS: u32 = 65_535;
const MOST_FIELDS: usize = 6;
const BYTES_OF_CONSTANT: u64 = 6;

/// Marks that are allowed at one place, each with the number of its fields.
type Allowed = [(&'static [u8; 2], usize)];

const EXPRESSIONS: &Allowed = &[
    (b"TV", 1),
    (b"VA", 2),
    (b"ID", 2),
    (b"AR", 1),
    (b"OX", 0),
    (b"UN", 1),
    (b"BI", 1),
    (b"AS", 1),
    (b"LO", 1),
    (b"ER", 1),
    (b"IM", 4),
    (b"AP", 4),
    (b"IX", 1),
    (b"FN", 2),
    (b"IF", 1),
    (b"SC", 1),
    (b"OB", 3),
];
const OBJECT: &Allowed = &[(b"OB", 3)];
const FUNCTION: &Allowed = &[(b"FN", 2)];
const BIND: &Allowed = &[(b"BV", 2), (b"BF", 2)];
const PARAMETER: &Allowed = &[(b"PA", 3)];
const HEAD: &Allowed = &[(b"FH", 6)];
const ASSERTION: &Allowed = &[(b"AT", 1)];
const NAMED_ARGUMENT: &Allowed = &[(b"NA", 1)];
const INDEX_PART: &Allowed = &[(b"PT", 1)];
const START: &Allowed = &[(b"JT", 1)];

struct Record {
    at: usize,
    mark: [u8; 2],
    fields: [u32; MOST_FIELDS],
}

struct Walk<'a> {
    fault: Option<Fault>,
    tree: &'a [u8],
    at: usize,
}

type Read<T> = Result<T, Refusal>;

fn refuse<T>(number: u32, place: usize) -> Read<T> {
    Err(Refusal { number, place })
}

pub fn whole(fault: Option<Fault>, tree: &[u8]) -> Read<Tree> {
    let mut walk = Walk { fault, tree, at: 0 };
    let externals = walk.externals()?;
    let root = walk.expression(1)?;
    if walk.at < tree.len() && !walk.faulty(Fault::ExtraBytesAllowed) {
        return refuse(5, walk.at);
    }
    Ok(Tree { externals, root })
}

impl Walk<'_> {
    fn faulty(&self, fault: Fault) -> bool {
        self.fault == Some(fault)
    }

    fn left(&self) -> usize {
        self.tree.len() - self.at
    }

    fn externals(&mut self) -> Read<Vec<u32>> {
        let start = self.record(START)?;
        let count = start.fields[0];
        let too_many = count > MOST_EXTERNALS;
        if too_many && !self.faulty(Fault::NamesBeforeCount) {
            return refuse(11, start.at);
        }
        let bytes = 4 * u64::from(count);
        if bytes > self.left() as u64 {
            return refuse(1, start.at);
        }
        if too_many {
            return refuse(11, start.at);
        }
        let names = (0..count as usize)
            .map(|i| wire::number(self.tree, self.at + 4 * i))
            .collect();
        self.at += bytes as usize;
        Ok(names)
    }

    /// Refusals of one record in their order, but for the nesting, which only expressions have.
    fn record(&mut self, allowed: &Allowed) -> Read<Record> {
        let at = self.at;
        if self.left() < 2 {
            return refuse(1, at);
        }
        let mark = [self.tree[at], self.tree[at + 1]];
        let Some(&(_, count)) = allowed.iter().find(|(allowed, _)| **allowed == mark) else {
            return refuse(2, at);
        };
        if self.left() < 2 + 4 * count {
            return refuse(1, at);
        }
        let mut record = Record {
            at,
            mark,
            fields: [0; MOST_FIELDS],
        };
        for (i, field) in record.fields[..count].iter_mut().enumerate() {
            *field = wire::number(self.tree, at + 2 + 4 * i);
        }
        if !self.in_range(&record) {
            return refuse(3, at);
        }
        self.at = at + 2 + 4 * count;
        Ok(record)
    }

    fn in_range(&self, record: &Record) -> bool {
        let f = &record.fields;
        match &record.mark {
            b"ID" => f[0] <= 2,
            b"AS" | b"IF" | b"AT" => f[0] <= 1,
            b"IM" => f[2] <= 1 && (f[0] <= 2 || !self.faulty(Fault::ImportKindJudged)),
            b"AP" | b"PA" => f[2] <= 1,
            b"SC" => f[0] <= 7,
            b"FH" => f[0] <= 1 && f[3] <= 1 && f[4] <= 2 && f[5] <= 1,
            _ => true,
        }
    }

    fn expression(&mut self, nesting: u32) -> Read<Expression> {
        self.expression_among(EXPRESSIONS, nesting)
    }

    fn expression_among(&mut self, allowed: &Allowed, nesting: u32) -> Read<Expression> {
        let record = self.expression_record(allowed, nesting)?;
        let kind = self.kind(&record, nesting + 1)?;
        Ok(Expression {
            at: record.at,
            kind,
        })
    }

    fn expression_record(&mut self, allowed: &Allowed, nesting: u32) -> Read<Record> {
        let at = self.at;
        let deepest = if self.faulty(Fault::NestingOneMore) {
            DEEPEST + 1
        } else {
            DEEPEST
        };
        let record = match self.record(allowed) {
            Err(Refusal { number: 3, .. })
                if nesting > deepest && self.faulty(Fault::NestingBeforeRange) =>
            {
                return refuse(4, at);
            }
            other => other?,
        };
        if nesting > deepest {
            return refuse(4, at);
        }
        Ok(record)
    }

    fn kind(&mut self, record: &Record, deeper: u32) -> Read<Kind> {
        let f = record.fields;
        Ok(match &record.mark {
            b"ID" => Kind::Identity {
                kind: f[0],
                span: f[1],
            },
            b"TV" => Kind::Constant(f[0]),
            b"VA" => Kind::Name {
                name: f[0],
                span: f[1],
            },
            b"AR" => self.array(f[0], deeper)?,
            b"IM" => Kind::Import {
                kind: f[0],
                span: f[1],
                literal: f[2] == 1,
                path: f[3],
            },
            b"LO" => {
                let binds = self.several(f[0], |walk| walk.bind(deeper))?;
                Kind::Local {
                    binds,
                    body: Box::new(self.expression(deeper)?),
                }
            }
            b"FN" => Kind::Function(self.function(record, deeper)?),
            b"OB" => Kind::Object(self.object(record, deeper)?),
            _ => self.compound(record, deeper)?,
        })
    }

    fn several<T>(
        &mut self,
        count: u32,
        mut one: impl FnMut(&mut Self) -> Read<T>,
    ) -> Read<Vec<T>> {
        // Collecting grows as items are found, so a count far beyond the bytes costs nothing.
        let mut items = Vec::new();
        for _ in 0..count {
            items.push(one(self)?);
        }
        Ok(items)
    }

    fn array(&mut self, count: u32, deeper: u32) -> Read<Kind> {
        if let Some(constants) = self.constants(count, deeper) {
            return Ok(Kind::ConstantArray(constants));
        }
        Ok(Kind::Array(
            self.several(count, |walk| walk.expression(deeper))?,
        ))
    }

    /// The items of a constant array, if the next records are all whole `TV`.
    fn constants(&mut self, count: u32, deeper: u32) -> Option<Vec<u32>> {
        let bytes = BYTES_OF_CONSTANT * u64::from(count);
        if bytes > self.left() as u64
            || (count == 0 && self.faulty(Fault::EmptyArrayNotConstant))
            || (deeper > DEEPEST && self.faulty(Fault::ConstantItemsNested))
        {
            return None;
        }
        let end = self.at + bytes as usize;
        let items = self.tree[self.at..end].chunks_exact(BYTES_OF_CONSTANT as usize);
        if items.clone().any(|item| &item[..2] != b"TV") {
            return None;
        }
        let constants = items.map(|item| wire::number(item, 2)).collect();
        self.at = end;
        Some(constants)
    }

    fn compound(&mut self, record: &Record, deeper: u32) -> Read<Kind> {
        let f = record.fields;
        let count = EXPRESSIONS
            .iter()
            .find(|(mark, _)| **mark == record.mark)
            .map_or(0, |&(_, n)| n);
        let mut parts = Vec::new();
        let plain = match &record.mark {
            b"OX" | b"UN" | b"ER" | b"IX" => 1,
            b"BI" => 2,
            b"AS" | b"IF" => 2 + f[0],
            b"AP" => f[0].saturating_add(1),
            _ => 1 + f[0].count_ones(),
        };
        for _ in 0..plain {
            parts.push(Part {
                label: None,
                value: self.expression(deeper)?,
            });
        }
        match &record.mark {
            b"OX" => parts.push(self.extending_object(deeper)?),
            b"AP" => self.labelled(NAMED_ARGUMENT, f[1], deeper, &mut parts)?,
            b"IX" => self.labelled(INDEX_PART, f[0], deeper, &mut parts)?,
            _ => {}
        }
        Ok(Kind::Compound {
            mark: record.mark,
            fields: f[..count].to_vec(),
            parts,
        })
    }

    fn extending_object(&mut self, deeper: u32) -> Read<Part> {
        let nesting = if self.faulty(Fault::ExtendingObjectNoLevel) {
            deeper - 1
        } else {
            deeper
        };
        Ok(Part {
            label: None,
            value: self.expression_among(OBJECT, nesting)?,
        })
    }

    fn labelled(
        &mut self,
        allowed: &Allowed,
        count: u32,
        deeper: u32,
        parts: &mut Vec<Part>,
    ) -> Read<()> {
        for _ in 0..count {
            let record = self.record(allowed)?;
            let label = Label {
                at: record.at,
                mark: record.mark,
                field: record.fields[0],
            };
            parts.push(Part {
                label: Some(label),
                value: self.expression(deeper)?,
            });
        }
        Ok(())
    }

    fn bind(&mut self, deeper: u32) -> Read<Bind> {
        let record = self.record(BIND)?;
        let value = if &record.mark == b"BV" {
            BindValue::Plain(self.expression(deeper)?)
        } else {
            let nesting = if self.faulty(Fault::BoundFunctionNoLevel) {
                deeper - 1
            } else {
                deeper
            };
            let head = self.expression_record(FUNCTION, nesting)?;
            BindValue::Function {
                at: head.at,
                function: self.function(&head, nesting + 1)?,
            }
        };
        Ok(Bind {
            at: record.at,
            name: record.fields[0],
            span: record.fields[1],
            value,
        })
    }

    fn function(&mut self, record: &Record, deeper: u32) -> Read<Function> {
        let parameters = self.several(record.fields[1], |walk| walk.parameter(deeper))?;
        let body = Box::new(self.expression(deeper)?);
        Ok(Function {
            span: record.fields[0],
            parameters,
            body,
        })
    }

    fn parameter(&mut self, deeper: u32) -> Read<Parameter> {
        let record = self.record(PARAMETER)?;
        let [name, span, has_default, ..] = record.fields;
        let default = self.optional(has_default, deeper)?;
        Ok(Parameter {
            at: record.at,
            name,
            span,
            default,
        })
    }

    fn optional(&mut self, flag: u32, deeper: u32) -> Read<Option<Expression>> {
        if flag == 0 {
            return Ok(None);
        }
        self.expression(deeper).map(Some)
    }

    fn object(&mut self, record: &Record, deeper: u32) -> Read<Object> {
        let [binds, assertions, fields, ..] = record.fields;
        let heads = self.several(fields, |walk| walk.head(deeper))?;
        let binds = self.several(binds, |walk| walk.bind(deeper))?;
        let assertions = self.several(assertions, |walk| walk.assertion(deeper))?;
        let mut values = Vec::new();
        for head in &heads {
            let allowed = if head.method { FUNCTION } else { EXPRESSIONS };
            values.push(self.expression_among(allowed, deeper)?);
        }
        Ok(Object {
            heads,
            binds,
            assertions,
            values,
        })
    }

    fn head(&mut self, deeper: u32) -> Read<Head> {
        let record = self.record(HEAD)?;
        let [kind, name, span, plus, visibility, method] = record.fields;
        let computed = self.optional(kind, deeper)?;
        Ok(Head {
            at: record.at,
            name,
            span,
            plus,
            visibility,
            method: method == 1,
            computed,
        })
    }

    fn assertion(&mut self, deeper: u32) -> Read<Assertion> {
        let record = self.record(ASSERTION)?;
        let condition = self.expression(deeper)?;
        let message = self.optional(record.fields[0], deeper)?;
        Ok(Assertion {
            at: record.at,
            condition,
            message,
        })
    }
}
