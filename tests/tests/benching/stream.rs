use hwmp_tests::reference::bench::{Bench, Command, Done};

/// How many octets, points and frames there are at a place between two commands.
#[derive(Clone, Copy)]
pub struct Mark {
    pub offset: usize,
    pub points: usize,
    pub frames: usize,
}

/// Commands one after another. The reference's bench follows them, so that further commands can
/// name points and frames that are there.
#[derive(Default)]
pub struct Stream {
    pub octets: Vec<u8>,
    /// A mark before each command, except one that ends the run.
    pub marks: Vec<Mark>,
    bench: Bench,
    /// The place of the command that ends the run.
    end: Option<usize>,
}

impl Stream {
    pub fn points(&self) -> usize {
        self.bench.points()
    }

    pub fn frames(&self) -> usize {
        self.bench.frames()
    }

    pub fn sender(&self, frame: usize) -> usize {
        self.bench.sender(frame)
    }

    pub fn has_ended(&self) -> bool {
        self.end.is_some()
    }

    /// Returns the place after the last command.
    pub fn here(&self) -> Mark {
        Mark {
            offset: self.octets.len(),
            points: self.points(),
            frames: self.frames(),
        }
    }

    /// Appends a command and returns its result, or None if it ends the run.
    pub fn push(&mut self, command: &[u8]) -> Option<Done> {
        assert!(!self.has_ended(), "the run has ended");
        let here = self.here();
        self.octets.extend(command);
        let read = Command::read(&mut &command[..]);
        let done = read.and_then(|command| self.bench.obey(command)).ok();
        match done {
            Some(_) => self.marks.push(here),
            None => self.end = Some(here.offset),
        }
        done
    }

    /// Returns all octets except those of the command that ends the run.
    pub fn without_end(&self) -> &[u8] {
        &self.octets[..self.end.unwrap_or(self.octets.len())]
    }
}
