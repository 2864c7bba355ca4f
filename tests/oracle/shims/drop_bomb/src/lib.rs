//! Stands in for the crate `drop_bomb`: a value that panics when it is dropped before it was defused.

#[derive(Debug)]
pub struct DropBomb {
    message: &'static str,
    defused: bool,
}

impl DropBomb {
    pub fn new(message: &'static str) -> DropBomb {
        DropBomb {
            message,
            defused: false,
        }
    }

    pub fn defuse(&mut self) {
        self.defused = true;
    }
}

impl Drop for DropBomb {
    fn drop(&mut self) {
        // A second panic would abort the run and hide the first.
        if !self.defused && !std::thread::panicking() {
            panic!("{}", self.message);
        }
    }
}
