//! What came in at a station and is not understood yet: rules 3 and 7 of docs/DRIVERS.md.
use koyandefa::{telegrams, End};

#[derive(Default)]
pub struct Receiver {
    /// Never more than 260 bytes and one portion: 261 bytes are never incomplete.
    bytes: Vec<u8>,
    /// When the last byte came in.
    last: usize,
}

impl Receiver {
    pub fn came_in(&mut self, at: usize, bytes: &[u8]) {
        self.bytes.extend_from_slice(bytes);
        self.last = at;
    }

    /// The stamp of what came in.
    pub fn last(&self) -> usize {
        self.last
    }

    /// Whatever came in before we wrote is thrown away.
    pub fn clear(&mut self) {
        self.bytes.clear();
    }

    /// Of the telegrams that wait, the last. Noise is passed over byte by byte; what is incomplete stays, unless the line is idle and
    /// nothing more can come.
    pub fn telegram(&mut self, idle: bool) -> Option<Vec<u8>> {
        let mut all = telegrams(&self.bytes);
        let mut last = None;
        loop {
            last = (&mut all).last().or(last);
            match all.end() {
                End::Refused { .. } => {}
                End::Incomplete { .. } if idle => {}
                End::Incomplete { .. } | End::Done { .. } => break,
            }
            all.pass_over();
        }
        let telegram = last.map(|found| found.bytes.to_vec());
        let understood = all.at();
        self.bytes.drain(..understood);
        telegram
    }
}
