//! A session that sends a block, all of it red (RFC 5326, section 8.1).

use crate::segment::{PieceKind, RECEIVER_CANCEL_ACK, REPORT_ACK, Report, SENDER_CANCEL};
use crate::session::{BY_SYSTEM, Effects, NUMBERS, Note, Policy, Session};
use crate::spans::Spans;

pub struct Sender {
    pub session: Session,
    block: Vec<u8>,
    size: usize,
    claimed: Spans,
    checkpoint: u64,
}

impl Sender {
    /// Sends all segments of a block; the last one is the first checkpoint.
    pub fn begin(
        own: u64,
        number: u64,
        block: &[u8],
        now: u64,
        policy: Policy,
        effects: &mut Effects,
    ) -> Sender {
        let session = Session::new(own, number, SENDER_CANCEL, policy);
        let checkpoint = session.first_serial();
        let (block, claimed) = (block.to_vec(), Spans::default());
        let mut sender = Sender {
            session,
            block,
            size: policy.segment,
            claimed,
            checkpoint,
        };
        let last = (sender.block.len() - 1) / sender.size;
        for index in 0..last {
            effects.out.push(sender.piece(index, PieceKind::Red, &[]));
        }
        let datagram = sender.piece(last, PieceKind::RedEndBlock, &[checkpoint, 0]);
        sender.session.send(datagram, now, effects);
        sender
    }

    /// Where the segment with an index begins and ends.
    fn bounds(&self, index: usize) -> (usize, usize) {
        let start = index * self.size;
        (start, self.block.len().min(start + self.size))
    }

    fn piece(&self, index: usize, kind: PieceKind, serials: &[u64]) -> Vec<u8> {
        let (start, end) = self.bounds(index);
        let body = &self.block[start..end];
        let mut numbers = [1, start as u64, body.len() as u64, 0, 0];
        numbers[3..3 + serials.len()].copy_from_slice(serials);
        self.session
            .segment(kind as u8, &numbers[..3 + serials.len()], body)
    }

    pub fn report(&mut self, report: &Report, now: u64, effects: &mut Effects) {
        let length = self.block.len() as u64;
        if report.upper > length {
            effects.notes.push(Note::BadBounds {
                session: self.session.number,
            });
            return;
        }
        effects
            .out
            .push(self.session.segment(REPORT_ACK, &[report.serial], &[]));
        if self.session.is_cancelling() {
            return;
        }
        for (from, to) in &report.claims {
            self.claimed.cover(*from, *to, |_, _| {});
        }
        if self.claimed.is_whole(length) {
            self.session.finish();
            effects.notes.push(Note::Sent {
                session: self.session.number,
            });
        } else if report.checkpoint == self.checkpoint {
            self.send_unclaimed(report.serial, now, effects);
        }
    }

    /// Sends each segment that isn't claimed whole, the last of them as the new checkpoint.
    fn send_unclaimed(&mut self, report: u64, now: u64, effects: &mut Effects) {
        if self.checkpoint + 1 == NUMBERS {
            self.session.fail(BY_SYSTEM, now, effects);
            return;
        }
        let last = (self.block.len() - 1) / self.size;
        let is_claimed = |index: &usize| {
            let (start, end) = self.bounds(*index);
            self.claimed.covers(start as u64, end as u64)
        };
        let mut unclaimed = (0..=last).filter(|index| !is_claimed(index)).peekable();
        let mut checkpoint = last;
        while let Some(index) = unclaimed.next() {
            if unclaimed.peek().is_some() {
                effects.out.push(self.piece(index, PieceKind::Red, &[]));
            } else {
                checkpoint = index;
            }
        }
        let is_end = checkpoint == last;
        let kind = if is_end {
            PieceKind::RedEndBlock
        } else {
            PieceKind::RedCheckpoint
        };
        self.checkpoint += 1;
        let datagram = self.piece(checkpoint, kind, &[self.checkpoint, report]);
        self.session.send(datagram, now, effects);
    }

    /// The receiver gives the session up.
    pub fn cancelled(&mut self, reason: u8, effects: &mut Effects) {
        effects
            .out
            .push(self.session.segment(RECEIVER_CANCEL_ACK, &[], &[]));
        self.session.finish();
        effects.notes.push(Note::Cancelled {
            session: self.session.number,
            reason,
        });
    }
}
