//! `plot` in Rust: the baseline of its speed, and the replies that it is held to.

use super::board::{Board, Solver};
use super::frame::{self, Frame, LONGEST};
use super::walks;
use std::io::{self, ErrorKind, Read, Write};

/// Bytes that are read at once, and about as many that are written at once.
const PIECE: usize = 1 << 16;
/// The reply to a line that is no frame, or that comes before a board is begun.
const NO_FRAME: &[u8] = b"ff01";

/// The board of an input, once one has been begun.
pub struct Session {
    board: Option<Board>,
    solver: Solver,
}

impl Session {
    pub fn new(solver: Solver) -> Self {
        Session { board: None, solver }
    }

    /// Whether a pick would choose among equals.
    pub fn is_tied(&self) -> bool {
        self.board.as_ref().is_some_and(Board::is_tied)
    }

    /// Appends the reply to a line, with its end.
    pub fn answer(&mut self, line: &[u8], replies: &mut Vec<u8>) {
        match (frame::read(line), &mut self.board) {
            (Some(Frame::Fresh(radius)), board) => {
                let fresh = Board::fresh(radius, self.solver);
                let done = fresh.map(|fresh| *board = Some(fresh));
                reply(replies, 0, done, |_, ()| ());
            }
            (Some(frame), Some(board)) => call(board, &frame, replies),
            _ => replies.extend(NO_FRAME),
        }
        replies.push(b'\n');
    }
}

fn call(board: &mut Board, frame: &Frame, replies: &mut Vec<u8>) {
    let nothing = |_: &mut Vec<u8>, ()| ();
    match *frame {
        Frame::Fresh(_) => unreachable!("it needs no board"),
        Frame::Report(identity, state) => {
            reply(replies, 1, board.report(identity, state), nothing);
        }
        Frame::Withdraw(identity) => reply(replies, 2, board.withdraw(identity), nothing),
        Frame::OwnShip(state) => reply(replies, 3, board.own_ship(state), nothing),
        Frame::Track(ends) => reply(replies, 4, board.track(ends), nothing),
        Frame::Solve(identity) => reply(replies, 5, board.solve(identity), frame::put_line),
        Frame::Mean => reply(replies, 6, board.mean(), frame::put_position),
        Frame::Pick => reply(replies, 7, board.pick(), |text, identity| {
            frame::put(text, identity.to_be_bytes());
        }),
        Frame::Total => reply(replies, 8, Ok(board.total()), |text, total| {
            frame::put(text, total.to_be_bytes());
        }),
    }
}

/// Kind and number, then the answer if there is one.
fn reply<A>(
    replies: &mut Vec<u8>,
    kind: u8,
    answer: Result<A, u8>,
    put: impl FnOnce(&mut Vec<u8>, A),
) {
    match answer {
        Ok(answer) => {
            frame::put(replies, [kind, 0]);
            put(replies, answer);
        }
        Err(number) => frame::put(replies, [kind, number]),
    }
}

/// Answers standard input. What has been read is answered and written before the next reading.
pub fn run() -> io::Result<()> {
    let (mut stdin, mut stdout) = (io::stdin().lock(), io::stdout().lock());
    let mut session = Session::new(walks::watched_solve);
    let (mut input, mut replies) = (vec![0; PIECE], Vec::with_capacity(2 * PIECE));
    let mut kept = 0;
    loop {
        let read = match stdin.read(&mut input[kept..]) {
            Ok(0) => break,
            Ok(read) => read,
            Err(error) if error.kind() == ErrorKind::Interrupted => continue,
            Err(error) => return Err(error),
        };
        let mut left = &input[..kept + read];
        while let Some(length) = line_end(left) {
            session.answer(&left[..length], &mut replies);
            left = &left[length + 1..];
            if replies.len() >= PIECE {
                write(&mut stdout, &mut replies)?;
            }
        }
        write(&mut stdout, &mut replies)?;
        // Of a line longer than any frame that much is enough to know it by.
        let rest = kept + read - left.len();
        kept = left.len().min(LONGEST + 1);
        input.copy_within(rest..rest + kept, 0);
    }
    if kept > 0 {
        session.answer(&input[..kept], &mut replies);
    }
    write(&mut stdout, &mut replies)?;
    stdout.flush()
}

fn write(stdout: &mut impl Write, replies: &mut Vec<u8>) -> io::Result<()> {
    stdout.write_all(replies)?;
    replies.clear();
    Ok(())
}

/// The place of the first line's end; blocks are looked over at once.
fn line_end(text: &[u8]) -> Option<usize> {
    let none = |block: &&[u8; 16]| !block.iter().fold(false, |met, byte| met | (*byte == b'\n'));
    let passed = 16 * text.as_chunks().0.iter().take_while(none).count();
    text[passed..].iter().position(|byte| *byte == b'\n').map(|place| passed + place)
}
