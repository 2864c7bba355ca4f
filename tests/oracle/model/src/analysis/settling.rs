//! Settling, and the end of a frame with names.

use super::*;

impl Analysis {
    pub(super) fn settle_dependences(&mut self) {
        let specs = std::mem::take(&mut self.top().specs);
        self.settle(&specs, Self::dependences_round);
        self.top().specs = specs;
    }

    fn settle_uses(&mut self, specs: &[Spec]) {
        self.settle(specs, Self::uses_round);
    }

    /// Runs rounds until one changes nothing, and counts them.
    fn settle(
        &mut self,
        specs: &[Spec],
        round: fn(&mut Self, &mut dyn Iterator<Item = &Spec>) -> bool,
    ) {
        if specs.is_empty() && self.faulty(Fault::EmptyFrameUnsettled) {
            return;
        }
        let before = self.rounds;
        self.rounds += u32::from(self.faulty(Fault::RoundTooMany));
        let backwards = self.faulty(Fault::SettledBackwards);
        loop {
            let changed = if backwards {
                round(self, &mut specs.iter().rev())
            } else {
                round(self, &mut specs.iter())
            };
            self.rounds += u32::from(changed || !self.faulty(Fault::LastRoundUncounted));
            if !changed || self.faulty(Fault::OneRound) {
                break;
            }
        }
        // Document 01's bound, which no fault has to keep.
        let most = specs.len() as u32 + 1;
        assert!(self.fault.is_some() || self.rounds - before <= most);
    }

    fn dependences_round(&mut self, specs: &mut dyn Iterator<Item = &Spec>) -> bool {
        if self.faulty(Fault::DependencesUnsettled) {
            return false;
        }
        let mut changed = false;
        for spec in specs {
            for &used in &spec.references {
                let mut tainted = self.locals[spec.id].dependence;
                self.taint(&mut tainted, self.locals[used].dependence);
                tainted.on_local(self.locals[used].depth);
                changed |= tainted != self.locals[spec.id].dependence;
                self.locals[spec.id].dependence = tainted;
            }
        }
        changed
    }

    fn uses_round(&mut self, specs: &mut dyn Iterator<Item = &Spec>) -> bool {
        if self.faulty(Fault::UsesUnsettled) {
            return false;
        }
        let before = self.faulty(Fault::UsesSettledAtOnce).then(|| self.uses());
        let mut changed = false;
        for spec in specs {
            let used_at = before
                .as_ref()
                .map_or(self.locals[spec.id].used_at, |before| before[spec.id]);
            for &used in &spec.references {
                let used = &mut self.locals[used];
                changed |= used_at < used.used_at;
                used.used_at = used.used_at.min(used_at);
            }
        }
        changed
    }

    fn uses(&self) -> Vec<u32> {
        self.locals.iter().map(|local| local.used_at).collect()
    }

    /// The end of a frame with names: uses settle, locals are judged, shape and names go. An identity function says
    /// so last, with the span given.
    pub(super) fn close_names(
        &mut self,
        at: usize,
        first_spec: Option<usize>,
        identity: Option<u32>,
    ) -> Done {
        let specs = std::mem::take(&mut self.top().specs);
        self.settle_uses(&specs);
        if !self.faulty(Fault::ClosedReferencesStay) {
            let kept = specs.iter().map(|spec| spec.references.len()).sum();
            self.rooms.give_back(Room::References, kept);
        }
        let warnings = self.judged(&specs);
        self.drop_locals();
        let judged_at = first_spec
            .filter(|_| self.faulty(Fault::WarningsAtBind))
            .unwrap_or(at);
        if self.faulty(Fault::ShapeBeforeWarnings) {
            self.close(at)?;
            self.warn(judged_at, &warnings)?;
            return self.warn_identity(at, identity);
        }
        self.warn(judged_at, &warnings)?;
        if self.faulty(Fault::IdentityBeforeShape) {
            self.warn_identity(at, identity)?;
            return self.close(at);
        }
        self.close(at)?;
        self.warn_identity(at, identity)
    }

    fn warn_identity(&mut self, at: usize, span: Option<u32>) -> Done {
        match span {
            Some(span) => self.report(at, IDENTITY_FUNCTION, 0, span),
            None => Ok(()),
        }
    }

    /// The warnings of a frame as (code, name, span), last local first.
    fn judged(&self, specs: &[Spec]) -> Vec<(u32, u32, u32)> {
        let mut warnings = Vec::new();
        for spec in specs.iter().rev() {
            let local = &self.locals[spec.id];
            let name = self.names[spec.id].expect("a spec has a name");
            warnings.extend(self.judge(local).map(|code| (code, name, local.span)));
        }
        if self.faulty(Fault::WarningsFirstToLast) {
            warnings.reverse();
        }
        warnings
    }

    fn judge(&self, local: &Local) -> Option<u32> {
        if local.used_at == NEVER {
            let by_sibling = local.used_by_sibling && !self.faulty(Fault::UnusedForSibling);
            return Some(if by_sibling {
                ONLY_USED_BY_UNUSED
            } else {
                UNUSED
            });
        }
        let lowest = if self.faulty(Fault::HoistAtDefinitionDepth) {
            local.depth
        } else {
            local.depth + 1
        };
        let above_object = local.dependence.object >= lowest;
        let above_local = local.dependence.local >= lowest;
        let inside = local.depth != 0 || self.faulty(Fault::HoistAtDepthZero);
        (above_object && above_local && inside).then_some(COULD_BE_HOISTED)
    }

    fn warn(&mut self, at: usize, warnings: &[(u32, u32, u32)]) -> Done {
        for &(code, name, span) in warnings {
            self.report(at, code, name, span)?;
        }
        Ok(())
    }
}
