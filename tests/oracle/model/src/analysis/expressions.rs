//! Expressions, and `LO` with its binds.

use super::*;

impl Analysis {
    pub(super) fn expression(&mut self, expression: &Expression, taint: &mut Dependence) -> Done {
        let at = expression.at;
        match &expression.kind {
            Kind::Identity { kind, span } => self.identity(at, *kind, *span, taint),
            Kind::Constant(constant) => self.write(at, b"TV", &[*constant]),
            Kind::Name { name, span } => self.name(at, *name, *span, taint),
            Kind::ConstantArray(constants) => {
                let mut fields = vec![constants.len() as u32];
                fields.extend(constants);
                self.write(at, b"AC", &fields)
            }
            Kind::Array(items) => self.array(at, items, taint),
            Kind::Import {
                kind,
                span,
                literal: true,
                path,
            } => self.write(at, b"IM", &[*kind, *span, *path]),
            Kind::Import { span, .. } => self.bad(at, BAD_IMPORT, IMPORT_NOT_LITERAL, 0, *span),
            Kind::Local { binds, body } => self.local(at, binds, body, taint),
            Kind::Function(function) => {
                let title = Title {
                    name: None,
                    span: function.span,
                };
                self.function(at, function, title, taint)
            }
            Kind::Object(object) => self.object(at, object, taint),
            Kind::Compound {
                mark,
                fields,
                parts,
            } => {
                for part in parts {
                    self.part(part, taint)?;
                }
                self.write(at, mark, fields)
            }
        }
    }

    fn part(&mut self, part: &Part, taint: &mut Dependence) -> Done {
        let Some(label) = &part.label else {
            return self.expression(&part.value, taint);
        };
        if self.faulty(Fault::LabelsFirst) {
            self.write(label.at, &label.mark, &[label.field])?;
            return self.expression(&part.value, taint);
        }
        self.expression(&part.value, taint)?;
        self.write(label.at, &label.mark, &[label.field])
    }

    fn array(&mut self, at: usize, items: &[Expression], taint: &mut Dependence) -> Done {
        let framed = !self.faulty(Fault::ArrayWithoutFrame);
        if framed {
            self.open(at, false)?;
        }
        for item in items {
            self.expression(item, taint)?;
        }
        if framed {
            self.close(at)?;
        }
        self.write(at, b"AR", &[items.len() as u32])
    }

    pub(super) fn local(
        &mut self,
        at: usize,
        binds: &[Bind],
        body: &Expression,
        taint: &mut Dependence,
    ) -> Done {
        if binds.is_empty() && !self.faulty(Fault::LocalZeroWritten) {
            return self.expression(body, taint);
        }
        self.open(at, true)?;
        let ids = self.define_all(at, &Definition::of_binds(binds))?;
        self.bind_values(at, binds, &ids, taint)?;
        let deeper = u32::from(!self.faulty(Fault::BodyAtSameDepth));
        self.depth += deeper;
        self.expression(body, taint)?;
        self.depth -= deeper;
        self.close_names(at, binds.first().map(|bind| bind.at), None)?;
        let kept = self.kept_count(&ids);
        self.write(at, b"LO", &[kept])
    }

    pub(super) fn kept_count(&self, ids: &[Option<usize>]) -> u32 {
        if self.faulty(Fault::DroppedCounted) {
            return ids.len() as u32;
        }
        ids.iter().flatten().count() as u32
    }

    pub(super) fn bind_values(
        &mut self,
        owner: usize,
        binds: &[Bind],
        ids: &[Option<usize>],
        taint: &mut Dependence,
    ) -> Done {
        for (bind, id) in binds.iter().zip(ids) {
            self.bind(owner, bind, *id, taint)?;
        }
        self.settle_dependences();
        Ok(())
    }

    fn bind(
        &mut self,
        owner: usize,
        bind: &Bind,
        id: Option<usize>,
        taint: &mut Dependence,
    ) -> Done {
        let mut own = Dependence::NONE;
        let frame_at = if self.faulty(Fault::BindFrameAtOwner) {
            owner
        } else {
            bind.at
        };
        let spec = SpecEnd {
            at: bind.at,
            id,
            parameter: None,
            before: self.mark(),
        };
        self.dropping += u32::from(id.is_none());
        self.open(frame_at, false)?;
        let deeper = u32::from(self.faulty(Fault::BindValuesDeeper));
        self.depth += deeper;
        match &bind.value {
            BindValue::Plain(value) => self.bound_value(bind, value, &mut own)?,
            BindValue::Function { at, function } => {
                let name = Some(bind.name).filter(|_| !self.faulty(Fault::BoundFunctionUnnamed));
                self.function(
                    *at,
                    function,
                    Title {
                        name,
                        span: self.title_span(bind.span, function),
                    },
                    &mut own,
                )?;
            }
        }
        self.depth -= deeper;
        self.count_before_shape(bind.at, id)?;
        self.close(frame_at)?;
        self.dropping -= u32::from(id.is_none());
        self.end_spec(&spec, own, taint)
    }

    fn bound_value(&mut self, bind: &Bind, value: &Expression, own: &mut Dependence) -> Done {
        match &value.kind {
            Kind::Function(function) if self.faulty(Fault::BoundValueNamed) => {
                let title = Title {
                    name: Some(bind.name),
                    span: function.span,
                };
                self.function(value.at, function, title, own)
            }
            _ => self.expression(value, own),
        }
    }

    pub(super) fn title_span(&self, span: u32, function: &Function) -> u32 {
        if self.faulty(Fault::IdentitySpanOfFunction) {
            function.span
        } else {
            span
        }
    }

    /// The fault of counting a spec's references while its value's frame is still open.
    pub(super) fn count_before_shape(&mut self, at: usize, id: Option<usize>) -> Done {
        if id.is_none() || !self.faulty(Fault::ReferencesBeforeShape) {
            return Ok(());
        }
        let holder = self
            .frames
            .iter()
            .rfind(|frame| frame.defining)
            .expect("a spec has a frame");
        self.rooms.take(Room::References, holder.pending.len(), at)
    }
}
