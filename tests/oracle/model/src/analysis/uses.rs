//! Uses of names, of self, super and $.

use super::*;

impl Analysis {
    pub(super) fn name(&mut self, at: usize, name: u32, span: u32, taint: &mut Dependence) -> Done {
        let Some(id) = self.find(name) else {
            return self.bad(at, BAD_NAME, UNDEFINED, name, span);
        };
        self.mark_use(id);
        let local = &self.locals[id];
        taint.on_local(local.depth);
        if local.analysed && !self.faulty(Fault::AnalysedDependenceIgnored) {
            let used = local.dependence;
            self.taint(taint, used);
        }
        if !self.locals[id].analysed || self.faulty(Fault::AnalysedReferencesKept) {
            self.refer_to_sibling(id);
        }
        let slot = self.resolve(at, id)?;
        self.write_slot(at, slot)
    }

    pub(super) fn taint(&self, taint: &mut Dependence, by: Dependence) {
        let most = taint.most;
        taint.taint_by(by);
        if self.faulty(Fault::GreatestDepthKept) {
            taint.most = most;
        }
    }

    fn mark_use(&mut self, id: usize) {
        let every_use_by_sibling = self.faulty(Fault::EveryUseBySibling);
        let sibling_use_is_real = self.faulty(Fault::SiblingUseIsReal);
        let last_use_counts = self.faulty(Fault::LastUseCounts);
        let depth = self.depth;
        let local = &mut self.locals[id];
        let by_sibling = depth == local.depth && !sibling_use_is_real;
        if by_sibling || every_use_by_sibling {
            local.used_by_sibling = true;
        } else if last_use_counts {
            local.used_at = depth;
        } else {
            local.used_at = local.used_at.min(depth);
        }
    }

    /// Keeps a reference for the spec of the frame that defines the name, however many frames stand between.
    fn refer_to_sibling(&mut self, id: usize) {
        let forgotten = self.faulty(Fault::ReferencesForgotten)
            || self.faulty(Fault::NestedReferencesForgotten) && self.depth != self.locals[id].depth;
        let each_use = self.faulty(Fault::EachUseCounts);
        let holder = self
            .frames
            .iter_mut()
            .rfind(|f| f.defining && f.first <= id)
            .expect("a frame holds every local");
        if !forgotten && (each_use || !holder.pending.contains(&id)) {
            holder.pending.push(id);
        }
    }

    pub(super) fn identity(
        &mut self,
        at: usize,
        kind: u32,
        span: u32,
        taint: &mut Dependence,
    ) -> Done {
        let this = if kind == DOLLAR {
            self.outermost()
        } else {
            self.innermost(kind)
        };
        let Some((this, depth)) = this else {
            return self.bad(at, kind, FIRST_IDENTITY_ERROR + kind, 0, span);
        };
        taint.on_object(depth);
        if !self.faulty(Fault::SelfNoLocalDepth) {
            taint.on_local(depth);
        }
        if kind == SUPER {
            if self.faulty(Fault::SuperResolves) {
                self.resolve(at, this)?;
            }
            return self.write(at, b"SU", &[]);
        }
        let slot = match self.resolve(at, this)? {
            Slot::Local(n) if self.faulty(Fault::WrongThisSlot) => Slot::Local(n + 1),
            slot => slot,
        };
        self.write_slot(at, slot)
    }

    /// Marks the present object used and answers its `this` and depth.
    fn innermost(&mut self, kind: u32) -> Option<(usize, u32)> {
        let super_marks = !self.faulty(Fault::SuperNotMarking);
        let self_marks_outermost = self.faulty(Fault::SelfMarksOutermost);
        let marked = if self_marks_outermost {
            self.objects.first_mut()?
        } else {
            self.objects.last_mut()?
        };
        if kind == SUPER {
            marked.super_used |= super_marks;
        } else {
            marked.self_used = true;
        }
        self.objects
            .last()
            .map(|object| (object.this, object.depth))
    }

    /// Marks the outermost object used by `$` and answers its `this` and depth.
    fn outermost(&mut self) -> Option<(usize, u32)> {
        if self.faulty(Fault::DollarMarksInner)
            && let Some(inner) = self.objects.last_mut()
        {
            inner.self_used = true;
        }
        let outermost = self.dollar.as_mut()?;
        outermost.used = true;
        Some((outermost.this, outermost.depth))
    }
}
