//! Objects.

use super::*;

impl Analysis {
    pub(super) fn object(&mut self, at: usize, object: &Object, taint: &mut Dependence) -> Done {
        let heads_inside = self.faulty(Fault::HeadsInside);
        if !heads_inside {
            self.heads(&object.heads, taint)?;
        }
        let outermost = self.open_object(at)?;
        let ids = self.define_all(at, &Definition::of_binds(&object.binds))?;
        if heads_inside {
            self.heads(&object.heads, taint)?;
        }
        self.bind_values(at, &object.binds, &ids, taint)?;
        let deeper = u32::from(!self.faulty(Fault::FieldsAtSameDepth));
        self.depth += deeper;
        self.assertions(at, object, taint)?;
        for (head, value) in object.heads.iter().zip(&object.values) {
            self.field_value(head, value, taint)?;
        }
        self.depth -= deeper;
        if self.faulty(Fault::ThisNotInShape) {
            self.top().count -= 1;
        }
        self.close_names(at, object.binds.first().map(|bind| bind.at), None)?;
        let [this, dollar, uses_super] = self.close_object(outermost);
        let fields = [
            this,
            dollar,
            uses_super,
            self.kept_count(&ids),
            object.assertions.len() as u32,
            object.heads.len() as u32,
            u32::from(self.is_static(&object.heads)),
        ];
        self.write(at, b"OB", &fields)
    }

    fn heads(&mut self, heads: &[Head], taint: &mut Dependence) -> Done {
        for head in heads {
            let computed = u32::from(head.computed.is_some());
            let mut name = head.name;
            if let Some(expression) = &head.computed {
                self.expression(expression, taint)?;
                name = if self.faulty(Fault::ComputedNameKept) {
                    name
                } else {
                    0
                };
            }
            self.write(
                head.at,
                b"FH",
                &[computed, name, head.plus, head.visibility],
            )?;
        }
        Ok(())
    }

    /// Opens the object's frame and gives it its `this`; answers whether it is the outermost.
    fn open_object(&mut self, at: usize) -> Done<bool> {
        if self.faulty(Fault::ThisBeforeFrame) {
            self.rooms.take(Room::Locals, 1, at)?;
            self.rooms.give_back(Room::Locals, 1);
        }
        self.open(at, true)?;
        let counted = !self.faulty(Fault::ThisUncounted);
        self.rooms.take(Room::Locals, usize::from(counted), at)?;
        self.top().count += 1;
        let name = Some(0).filter(|_| self.faulty(Fault::ThisFoundByName));
        let this = self.add_local(name, Local::new(0, self.depth, true));
        let outermost = self.dollar.is_none();
        if outermost {
            self.dollar = Some(OutermostObject {
                this,
                depth: self.depth,
                used: false,
            });
        }
        self.objects.push(OpenObject {
            this,
            depth: self.depth,
            self_used: false,
            super_used: false,
        });
        Ok(outermost)
    }

    /// This-flag, dollar-flag and super-flag.
    fn close_object(&mut self, outermost: bool) -> [u32; 3] {
        let object = self.objects.pop().expect("an open object");
        let flagged = outermost || self.faulty(Fault::NestedDollarFlag);
        let dollar = flagged && self.dollar.as_ref().is_some_and(|dollar| dollar.used);
        if outermost && !self.faulty(Fault::DollarNotRestored) {
            self.dollar = None;
        }
        let this = object.self_used || object.super_used || dollar;
        [this, dollar, object.super_used].map(u32::from)
    }

    fn assertions(&mut self, owner: usize, object: &Object, taint: &mut Dependence) -> Done {
        let Some(first) = object.assertions.first() else {
            return Ok(());
        };
        let frame_at = if self.faulty(Fault::AssertionsFrameAtObject) {
            owner
        } else {
            first.at
        };
        self.open(frame_at, false)?;
        for (i, assertion) in object.assertions.iter().enumerate() {
            if i > 0 && self.faulty(Fault::FrameForEachAssertion) {
                self.close(frame_at)?;
                self.open(frame_at, false)?;
            }
            self.expression(&assertion.condition, taint)?;
            if let Some(message) = &assertion.message {
                self.expression(message, taint)?;
            }
            self.write(
                assertion.at,
                b"AT",
                &[u32::from(assertion.message.is_some())],
            )?;
        }
        self.close(frame_at)
    }

    fn field_value(&mut self, head: &Head, value: &Expression, taint: &mut Dependence) -> Done {
        let at = if self.faulty(Fault::FieldFrameAtHead) {
            head.at
        } else {
            value.at
        };
        self.open(at, false)?;
        match &value.kind {
            Kind::Function(function) if head.method => {
                let named = head.computed.is_none() || self.faulty(Fault::ComputedMethodNamed);
                let title = Title {
                    name: named.then_some(head.name),
                    span: self.title_span(head.span, function),
                };
                self.function(value.at, function, title, taint)?;
            }
            _ => self.expression(value, taint)?,
        }
        self.close(at)?;
        self.write(at, b"FV", &[])
    }

    fn is_static(&self, heads: &[Head]) -> bool {
        let fixed = |head: &&Head| head.computed.is_none();
        let all_fixed = heads.iter().all(|head| head.computed.is_none());
        let mut names: Vec<_> = heads.iter().filter(fixed).map(|head| head.name).collect();
        if !self.faulty(Fault::EqualNamesSideBySide) {
            names.sort_unstable();
        }
        let different = names.windows(2).all(|pair| pair[0] != pair[1]);
        (all_fixed || self.faulty(Fault::StaticIgnoresComputed))
            && (different || self.faulty(Fault::StaticIgnoresEqualNames))
    }
}
