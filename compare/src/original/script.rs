//! Lines for `plot` with the replies that the Rust board owes to them.

use super::plot::Session;
use super::walks;
use crate::inputs::frames::{Frame, MEAN, PICK, TOTAL};

pub struct Script {
    pub lines: Vec<u8>,
    pub replies: Vec<u8>,
    /// Where each line and its reply end.
    ends: Vec<[usize; 2]>,
    session: Session,
    /// Picks among targets whose meeting times are equal.
    pub ties: u64,
}

impl Script {
    pub fn new() -> Self {
        Script {
            lines: Vec::new(),
            replies: Vec::new(),
            ends: Vec::new(),
            session: Session::new(walks::solve),
            ties: 0,
        }
    }

    pub fn count(&self) -> usize {
        self.ends.len()
    }

    /// Adds a line without its end; gives its reply without its end.
    pub fn add(&mut self, line: &[u8]) -> &[u8] {
        let start = self.replies.len();
        self.lines.extend(line);
        self.lines.push(b'\n');
        self.session.answer(line, &mut self.replies);
        self.ends.push([self.lines.len(), self.replies.len()]);
        self.ties += (line == b"07" && self.session.is_tied()) as u64;
        &self.replies[start..self.replies.len() - 1]
    }

    pub fn add_frame(&mut self, frame: &Frame) -> &[u8] {
        let mut line = Vec::new();
        frame.write(&mut line);
        self.add(&line)
    }

    pub fn add_frames(&mut self, frames: &[Frame]) {
        for frame in frames {
            self.add_frame(frame);
        }
    }

    /// Asks all that can be asked.
    pub fn ask(&mut self) {
        self.add_frames(&[MEAN, PICK, TOTAL].map(Frame::asking));
    }

    /// Takes the last line's end away, unless nothing would be left of the line.
    pub fn leave_open(&mut self) {
        if let Some([end, _]) = self.ends.last_mut()
            && !matches!(self.lines[..], [b'\n'] | [.., b'\n', b'\n'])
        {
            self.lines.pop();
            // The end of the input ends it, not a byte.
            *end = usize::MAX;
        }
    }

    /// A line with its end if it has one, and its reply.
    pub fn line(&self, place: usize) -> (&[u8], &[u8]) {
        let [start, begin] = place.checked_sub(1).map_or([0; 2], |before| self.ends[before]);
        let [end, until] = self.ends[place];
        (&self.lines[start..end.min(self.lines.len())], &self.replies[begin..until])
    }

    /// How many bytes of replies so many bytes of lines owe.
    pub fn owed(&self, sent: usize) -> usize {
        let whole = self.ends.partition_point(|[end, _]| *end <= sent);
        whole.checked_sub(1).map_or(0, |last| self.ends[last][1])
    }
}
