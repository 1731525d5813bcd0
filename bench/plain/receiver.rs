//! A session that receives a block (RFC 5326, section 8.2).

use crate::segment::{Piece, PieceKind, RECEIVER_CANCEL, REPORT};
use crate::session::{BY_SYSTEM, Effects, Green, MISCOLOURED, NUMBERS, Note, Policy, Session};
use crate::spans::Spans;

const MOST_CLAIMS: usize = 1024;

pub struct Receiver {
    pub session: Session,
    /// When a piece or an acknowledgement touched it last, in a count of the engine's.
    pub touched: u64,
    octets: Vec<u8>,
    came: Spans,
    length: Option<u64>,
    lowest_green: Option<u64>,
    is_handed_up: bool,
    serial: u64,
    pending: Option<Pending>,
}

/// A report that isn't acknowledged yet.
struct Pending {
    serial: u64,
    is_whole: bool,
}

impl Receiver {
    pub fn new(originator: u64, number: u64, policy: Policy) -> Receiver {
        let session = Session::new(originator, number, RECEIVER_CANCEL, policy);
        Receiver {
            serial: session.first_serial(),
            session,
            touched: 0,
            octets: Vec::new(),
            came: Spans::default(),
            length: None,
            lowest_green: None,
            is_handed_up: false,
            pending: None,
        }
    }

    /// Takes a piece; false where it can't be one of its red part.
    pub fn piece(&mut self, piece: &Piece, now: u64, effects: &mut Effects) -> bool {
        let session = self.session.number;
        if piece.kind.is_red() && self.is_out_of_bounds(piece) {
            effects.notes.push(Note::BadBounds { session });
            return false;
        }
        if self.is_miscoloured(piece) {
            self.pending = None;
            self.session.fail(MISCOLOURED, now, effects);
        } else if piece.kind.is_red() {
            self.red(piece, now, effects);
        } else {
            let lowest = self.lowest_green.unwrap_or(piece.offset);
            self.lowest_green = Some(lowest.min(piece.offset));
            effects.greens.push(green(session, piece));
        }
        true
    }

    fn is_out_of_bounds(&self, piece: &Piece) -> bool {
        let end = piece.end();
        self.length.is_some_and(|length| end > length)
            || piece.kind.ends_red()
                && (end < self.came.end() || self.length.is_some_and(|length| end != length))
    }

    fn is_miscoloured(&self, piece: &Piece) -> bool {
        if piece.kind.is_red() {
            return self.lowest_green.is_some_and(|lowest| piece.end() > lowest);
        }
        piece.offset < self.came.end() || self.length.is_some_and(|length| piece.offset < length)
    }

    fn red(&mut self, piece: &Piece, now: u64, effects: &mut Effects) {
        let end = piece.end();
        if !self.is_handed_up && self.octets.len() < end as usize {
            self.octets.resize(end as usize, 0);
        }
        self.came.cover(piece.offset, end, |from, to| {
            let (first, last) = (from - piece.offset, to - piece.offset);
            self.octets[from as usize..to as usize]
                .copy_from_slice(&piece.body[first as usize..last as usize]);
        });
        if piece.kind.ends_red() {
            self.length = Some(end);
        }
        if piece.kind.is_checkpoint() {
            self.report(piece.checkpoint, end, now, effects);
        }
        if !self.is_handed_up && self.length.is_some_and(|length| self.came.is_whole(length)) {
            self.is_handed_up = true;
            effects
                .ups
                .push((self.session.number, std::mem::take(&mut self.octets)));
        }
    }

    /// Reports on what came, at a checkpoint that ends at `end`.
    fn report(&mut self, checkpoint: u64, end: u64, now: u64, effects: &mut Effects) {
        if self.serial == NUMBERS {
            self.pending = None;
            self.session.fail(BY_SYSTEM, now, effects);
            return;
        }
        let mut upper = self.length.unwrap_or(end);
        let mut numbers = vec![self.serial, checkpoint, 0, 0, 0];
        let mut claims = 0;
        let below = self.came.ranges().take_while(|(from, _)| *from < upper);
        for (from, to) in below.map(|(from, to)| (from, to.min(upper))) {
            if claims == MOST_CLAIMS {
                upper = numbers[numbers.len() - 2] + numbers[numbers.len() - 1];
                break;
            }
            numbers.extend([from, to - from]);
            claims += 1;
        }
        numbers[2] = upper;
        numbers[4] = claims as u64;
        let is_whole = self
            .length
            .is_some_and(|length| numbers[5..] == [0, length]);
        self.pending = Some(Pending {
            serial: self.serial,
            is_whole,
        });
        self.serial += 1;
        self.session
            .send(self.session.segment(REPORT, &numbers, &[]), now, effects);
    }

    /// A report of this serial has come.
    pub fn acknowledged(&mut self, serial: u64) {
        if let Some(pending) = self.pending.take_if(|pending| pending.serial == serial) {
            self.session.wait_no_more();
            if pending.is_whole {
                self.session.finish();
            }
        }
    }

    pub fn tick(&mut self, now: u64, effects: &mut Effects) {
        self.session.tick(now, self.is_handed_up, effects);
        if self.session.is_cancelling() {
            self.pending = None;
        }
    }
}

/// What is handed up of a green piece.
pub fn green(session: u64, piece: &Piece) -> Green {
    let is_last = piece.kind == PieceKind::GreenEndBlock;
    Green {
        session,
        offset: piece.offset,
        is_last,
        body: piece.body.to_vec(),
    }
}
