//! The names of a frame and the ends of their specs.

use super::*;

impl Analysis {
    /// Defines a frame's names, in order; one that is there already gives error 2 and no local.
    pub(super) fn define_all(
        &mut self,
        owner: usize,
        names: &[Definition],
    ) -> Done<Vec<Option<usize>>> {
        let first_name = self.locals.len();
        let mut ids = Vec::new();
        for name in names {
            let at = if self.faulty(Fault::DuplicateAtOwner) {
                owner
            } else {
                name.at
            };
            ids.push(self.define(at, first_name, name)?);
        }
        if self.faulty(Fault::LaterDuplicateFound) {
            keep_later_duplicates(names, &mut ids);
        }
        Ok(ids)
    }

    fn define(
        &mut self,
        at: usize,
        first_name: usize,
        definition: &Definition,
    ) -> Done<Option<usize>> {
        let name = Some(definition.name);
        if self.names[first_name..].contains(&name) {
            if self.faulty(Fault::DuplicateTakesLocal) {
                self.rooms.take(Room::Locals, 1, at)?;
                self.rooms.give_back(Room::Locals, 1);
            }
            self.report(at, DEFINED_TWICE, definition.name, definition.span)?;
            return Ok(None);
        }
        if self.top().count == MOST_LOCALS_OF_FRAME {
            return Err(Refusal {
                number: 11,
                place: at,
            });
        }
        self.rooms.take(Room::Locals, 1, at)?;
        self.top().count += 1;
        Ok(Some(self.add_local(
            name,
            Local::new(definition.span, self.depth, false),
        )))
    }

    /// A spec's value is analysed: it takes the references that are pending in its frame.
    fn keep(&mut self, id: usize, dependence: Dependence) {
        let frame = self.top();
        let references = std::mem::take(&mut frame.pending);
        frame.specs.push(Spec { id, references });
        let local = &mut self.locals[id];
        local.dependence = dependence;
        local.analysed = true;
    }

    fn count_references(&mut self, at: usize) -> Done {
        let pending = self.top().pending.len();
        self.rooms.take(Room::References, pending, at)
    }

    /// Ends a spec whose value is written: a kept one has its record, a dropped one's output is taken back.
    pub(super) fn end_spec(
        &mut self,
        spec: &SpecEnd,
        own: Dependence,
        taint: &mut Dependence,
    ) -> Done {
        if spec.id.is_some() || !self.faulty(Fault::DroppedDependenceForgotten) {
            self.taint(taint, own);
        }
        let Some(id) = spec.id else {
            return self.drop_spec(spec);
        };
        let early = self.faulty(Fault::ReferencesBeforeShape);
        let late = self.faulty(Fault::ReferencesAfterRecord);
        if !early && !late {
            self.count_references(spec.at)?;
        }
        let slot = (id - self.top().first) as u32;
        match spec.parameter {
            Some((name, default)) => {
                self.write(spec.at, b"PA", &[name, slot, u32::from(default)])?
            }
            None => self.write(spec.at, b"BV", &[slot])?,
        }
        if late {
            self.count_references(spec.at)?;
        }
        self.keep(id, own);
        Ok(())
    }

    fn drop_spec(&mut self, spec: &SpecEnd) -> Done {
        if !self.faulty(Fault::DroppedOutputKept) {
            self.take_back(spec.before.out);
        }
        if self.faulty(Fault::DroppedDiagnosticsTakenBack) {
            let taken = self.diagnostics.len() - spec.before.diagnostics;
            self.rooms.give_back(Room::Diagnostics, taken);
            self.diagnostics.truncate(spec.before.diagnostics);
        }
        if self.faulty(Fault::RoundsOfDroppedForgotten) {
            self.rounds = spec.before.rounds;
        }
        let forgotten = match spec.parameter {
            Some(_) => self.faulty(Fault::DroppedDefaultsForgotten),
            None => self.faulty(Fault::DroppedReferencesForgotten),
        };
        if forgotten {
            self.top().pending.clear();
        }
        if self.faulty(Fault::DroppedPassedBack) {
            self.pass_back();
        }
        if self.faulty(Fault::DroppedReferencesCount) {
            self.count_references(spec.at)?;
            let pending = self.top().pending.len();
            self.rooms.give_back(Room::References, pending);
        }
        Ok(())
    }

    /// The fault of passing a dropped spec's references to the kept one before it.
    fn pass_back(&mut self) {
        let frame = self.top();
        let passed = std::mem::take(&mut frame.pending);
        let mut taken = 0;
        if let Some(before) = frame.specs.last_mut() {
            taken = passed.len();
            before.references.extend(passed);
        }
        self.rooms.take_unjudged(Room::References, taken);
    }

    pub(super) fn mark(&self) -> Mark {
        Mark {
            out: self.out.len(),
            diagnostics: self.diagnostics.len(),
            rounds: self.rounds,
        }
    }
}

/// The fault of giving a local to the last of its equal names.
fn keep_later_duplicates(names: &[Definition], ids: &mut [Option<usize>]) {
    for later in 0..ids.len() {
        if ids[later].is_none() {
            let earlier =
                (0..later).find(|&i| names[i].name == names[later].name && ids[i].is_some());
            if let Some(earlier) = earlier {
                ids.swap(earlier, later);
            }
        }
    }
}
