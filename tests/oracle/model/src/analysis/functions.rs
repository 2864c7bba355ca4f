//! Functions.

use super::*;

impl Analysis {
    pub(super) fn function(
        &mut self,
        at: usize,
        function: &Function,
        title: Title,
        taint: &mut Dependence,
    ) -> Done {
        let before = self.out.len();
        self.open(at, true)?;
        let parameters = &function.parameters;
        let ids = self.define_all(at, &Definition::of_parameters(parameters))?;
        for (parameter, id) in parameters.iter().zip(&ids) {
            self.parameter(at, parameter, *id, taint)?;
        }
        self.settle_dependences();
        let body = self.function_body(function, taint)?;
        let identity = self.is_identity(parameters, &ids, body);
        let kept = self.kept_count(&ids);
        self.close_names(
            at,
            parameters.first().map(|p| p.at),
            identity.then_some(title.span),
        )?;
        if !identity {
            let named = u32::from(title.name.is_some());
            return self.write(at, b"FN", &[named, title.name.unwrap_or(0), kept]);
        }
        if !self.faulty(Fault::IdentityNotTakenBack) {
            self.take_back(before);
        }
        self.write(at, b"IY", &[])
    }

    /// Where the body's output begins.
    fn function_body(&mut self, function: &Function, taint: &mut Dependence) -> Done<usize> {
        let begins = self.out.len();
        let deeper = u32::from(!self.faulty(Fault::BodyAtSameDepth));
        self.depth += deeper;
        self.expression(&function.body, taint)?;
        self.depth -= deeper;
        Ok(begins)
    }

    fn parameter(
        &mut self,
        owner: usize,
        parameter: &Parameter,
        id: Option<usize>,
        taint: &mut Dependence,
    ) -> Done {
        let mut own = Dependence::NONE;
        let has_default = parameter.default.is_some();
        let spec = SpecEnd {
            at: parameter.at,
            id,
            parameter: Some((parameter.name, has_default)),
            before: self.mark(),
        };
        let frame_at = if self.faulty(Fault::DefaultFrameAtFunction) {
            owner
        } else {
            parameter.at
        };
        self.dropping += u32::from(id.is_none());
        if let Some(default) = &parameter.default {
            self.open(frame_at, false)?;
            let deeper = u32::from(self.faulty(Fault::DefaultsDeeper));
            self.depth += deeper;
            self.expression(default, &mut own)?;
            self.depth -= deeper;
        }
        self.count_before_shape(parameter.at, id)?;
        if has_default {
            self.close(frame_at)?;
        }
        self.dropping -= u32::from(id.is_none());
        self.end_spec(&spec, own, taint)
    }

    /// One kept parameter without default, and a body that is its slot.
    fn is_identity(
        &mut self,
        parameters: &[Parameter],
        ids: &[Option<usize>],
        body: usize,
    ) -> bool {
        if self.faulty(Fault::IdentityUnfound) {
            return false;
        }
        let kept: Vec<_> = parameters
            .iter()
            .zip(ids)
            .filter_map(|(p, id)| id.map(|id| (p, id)))
            .collect();
        let any_number = self.faulty(Fault::IdentityOfAnyParameter);
        let any_default = self.faulty(Fault::IdentityWithDefault);
        let first = self.top().first;
        let is_body = |id: usize| {
            let mut slot = Vec::new();
            wire::put(&mut slot, b"LS", &[(id - first) as u32]);
            self.out[body..] == slot
        };
        (kept.len() == 1 || any_number)
            && kept
                .iter()
                .any(|&(parameter, id)| (parameter.default.is_none() || any_default) && is_body(id))
    }
}
