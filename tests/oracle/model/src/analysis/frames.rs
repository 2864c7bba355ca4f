//! Frames, and resolving in them.

use super::*;

impl Analysis {
    pub(super) fn open(&mut self, at: usize, defining: bool) -> Done {
        let uncounted = self.faulty(Fault::UsingFramesUncounted) && !defining
            || self.faulty(Fault::RootUncounted) && self.frames.is_empty();
        self.rooms.take(Room::Frames, usize::from(!uncounted), at)?;
        self.frames.push(Frame {
            defining,
            first: self.locals.len(),
            count: 0,
            captured: vec![],
            sources: vec![],
            pending: vec![],
            specs: vec![],
        });
        Ok(())
    }

    pub(super) fn close(&mut self, at: usize) -> Done {
        let frame = self.frames.pop().expect("an open frame");
        let uncounted = self.faulty(Fault::UsingFramesUncounted) && !frame.defining
            || self.faulty(Fault::RootUncounted) && self.frames.is_empty()
            || self.faulty(Fault::ClosedFramesStay);
        self.rooms.give_back(Room::Frames, usize::from(!uncounted));
        if !self.faulty(Fault::ClosedCapturesStay) {
            self.rooms.give_back(Room::Captures, frame.sources.len());
        }
        let mut shape = vec![frame.count as u32, frame.sources.len() as u32];
        for source in &frame.sources {
            match source {
                Slot::Local(n) => shape.extend([0, *n as u32]),
                Slot::Capture(n) => shape.extend([1, *n as u32]),
            }
        }
        self.write(at, b"SH", &shape)
    }

    pub(super) fn top(&mut self) -> &mut Frame {
        self.frames.last_mut().expect("an open frame")
    }

    pub(super) fn add_local(&mut self, name: Option<u32>, local: Local) -> usize {
        self.locals.push(local);
        self.names.push(name);
        self.locals.len() - 1
    }

    /// Ends the life of the top frame's locals.
    pub(super) fn drop_locals(&mut self) {
        let first = self.top().first;
        let uncounted = self.faulty(Fault::ThisUncounted) && self.names.get(first) == Some(&None);
        let dropped = self.locals.len() - first - usize::from(uncounted);
        self.locals.truncate(first);
        self.names.truncate(first);
        if !self.faulty(Fault::ClosedLocalsStay) {
            self.rooms.give_back(Room::Locals, dropped);
        }
    }

    pub(super) fn find(&self, name: u32) -> Option<usize> {
        if self.faulty(Fault::OldestBinding) {
            return self.names.iter().position(|&known| known == Some(name));
        }
        self.names.iter().rposition(|&known| known == Some(name))
    }

    pub(super) fn resolve(&mut self, at: usize, id: usize) -> Done<Slot> {
        self.resolve_in(at, self.frames.len() - 1, id)
    }

    fn resolve_in(&mut self, at: usize, frame: usize, id: usize) -> Done<Slot> {
        if let Some(slot) = self.held(frame, id) {
            return Ok(Slot::Local(slot));
        }
        if let Some(capture) = self.recorded(frame, id) {
            return Ok(Slot::Capture(capture));
        }
        if self.faulty(Fault::InnermostFilledFirst) {
            self.room_for_capture(at, frame)?;
        }
        let source = self.resolve_in(at, frame - 1, id)?;
        if !self.faulty(Fault::InnermostFilledFirst) {
            self.room_for_capture(at, frame)?;
        }
        let frame = &mut self.frames[frame];
        frame.captured.push(id);
        frame.sources.push(source);
        Ok(Slot::Capture(frame.sources.len() - 1))
    }

    /// The slot of a local that is read as local here: of the frame itself, or for a using frame of the
    /// nearest defining one beneath. The root holds whatever no other frame holds.
    fn held(&self, frame: usize, id: usize) -> Option<usize> {
        let looks_beneath = !self.faulty(Fault::SiblingCaptured);
        let nearest = self.frames[..=frame]
            .iter()
            .rposition(|f| f.defining || !looks_beneath)?;
        let holder = &self.frames[nearest];
        let holds = holder.defining && (holder.first..holder.first + holder.count).contains(&id);
        (holds || frame == 0).then(|| id - holder.first)
    }

    fn recorded(&self, frame: usize, id: usize) -> Option<usize> {
        if self.faulty(Fault::CapturedTwice) {
            return None;
        }
        let searched = if self.faulty(Fault::SearchedBeneath) {
            frame - 1
        } else {
            frame
        };
        self.frames[searched]
            .captured
            .iter()
            .position(|&captured| captured == id)
    }

    fn room_for_capture(&mut self, at: usize, frame: usize) -> Done {
        if self.faulty(Fault::EightBeforeTwelve) {
            self.rooms.take(Room::Captures, 1, at)?;
            return self.captures_of_frame(at, frame);
        }
        self.captures_of_frame(at, frame)?;
        self.rooms.take(Room::Captures, 1, at)
    }

    fn captures_of_frame(&self, at: usize, frame: usize) -> Done {
        if self.frames[frame].sources.len() == MOST_CAPTURES_OF_FRAME {
            return Err(Refusal {
                number: 12,
                place: at,
            });
        }
        Ok(())
    }
}
