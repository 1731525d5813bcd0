//! One end of an LTP link: all sessions that it sends and receives.

use crate::receiver::{self, Receiver};
use crate::segment::{
    self, BLOCK_MAX, Content, Piece, RECEIVER_CANCEL, RECEIVER_CANCEL_ACK, REPORT_ACK,
    SENDER_CANCEL_ACK,
};
use crate::sender::Sender;
use crate::session::{Effects, NUMBERS, Note, Policy, UNREACHABLE};
use std::collections::BTreeMap;

pub const MOST_SESSIONS: usize = 64;
const MOST_RUNS: usize = 65_536;

/// Why a block isn't sent.
#[derive(Debug)]
pub enum SubmitRefused {
    Empty,
    TooLarge,
    NumbersSpent,
    Busy,
}

/// Session numbers that are over, as runs: the last number of each by its first.
#[derive(Default)]
struct Closed(BTreeMap<u64, u64>);

impl Closed {
    fn contains(&self, number: u64) -> bool {
        self.0
            .range(..=number)
            .next_back()
            .is_some_and(|(_, last)| *last >= number)
    }

    fn insert(&mut self, number: u64) {
        let before = self.0.range(..number).next_back();
        let before = before.filter(|(_, last)| **last == number.wrapping_sub(1));
        let first = before.map_or(number, |(first, _)| *first);
        let after = number.checked_add(1).and_then(|next| self.0.remove(&next));
        self.0.insert(first, after.unwrap_or(number));
    }
}

pub struct Engine {
    own: u64,
    peer: u64,
    policy: Policy,
    next: u64,
    senders: BTreeMap<u64, Sender>,
    receivers: BTreeMap<u64, Receiver>,
    closed: Closed,
    /// The sessions that are received by when they were touched, in a count of touches.
    order: BTreeMap<u64, u64>,
    touches: u64,
}

impl Engine {
    pub fn new(own: u64, peer: u64, policy: Policy) -> Engine {
        Engine {
            own,
            peer,
            policy,
            next: 1,
            senders: BTreeMap::new(),
            receivers: BTreeMap::new(),
            closed: Closed::default(),
            order: BTreeMap::new(),
            touches: 0,
        }
    }

    /// Sends a block, all of it red.
    pub fn submit(
        &mut self,
        block: &[u8],
        now: u64,
        effects: &mut Effects,
    ) -> Result<(), SubmitRefused> {
        if block.is_empty() {
            return Err(SubmitRefused::Empty);
        }
        if block.len() as u64 > BLOCK_MAX {
            return Err(SubmitRefused::TooLarge);
        }
        if self.next >= NUMBERS {
            return Err(SubmitRefused::NumbersSpent);
        }
        if self.senders.len() >= MOST_SESSIONS {
            return Err(SubmitRefused::Busy);
        }
        let sender = Sender::begin(self.own, self.next, block, now, self.policy, effects);
        self.senders.insert(self.next, sender);
        self.next += 1;
        Ok(())
    }

    /// A datagram came.
    pub fn arrive(&mut self, datagram: &[u8], now: u64, effects: &mut Effects) {
        let segment = match segment::decode(datagram) {
            Ok(segment) => segment,
            Err(fault) => {
                let (at, cause) = (fault.at, fault.cause);
                effects.notes.push(Note::BadSegment { at, cause });
                return;
            }
        };
        let number = segment.session;
        let is_mine = segment.originator == self.own && (1..self.next).contains(&number);
        let is_theirs = segment.originator == self.peer;
        match segment.content {
            Content::Report(_) | Content::SenderCancelAck | Content::ReceiverCancel { .. }
                if is_mine =>
            {
                self.to_sender(number, segment.content, now, effects);
            }
            Content::Piece(piece) if is_theirs => self.piece(number, &piece, now, effects),
            Content::ReportAck { serial } if is_theirs => self.acknowledged(number, serial),
            Content::SenderCancel { reason } if is_theirs => {
                effects.out.push(segment::write(
                    SENDER_CANCEL_ACK,
                    self.peer,
                    number,
                    &[],
                    &[],
                ));
                if self.receivers.contains_key(&number) {
                    self.close(number);
                    effects.notes.push(Note::Cancelled {
                        session: number,
                        reason,
                    });
                }
            }
            Content::ReceiverCancelAck if is_theirs => {
                if let Some(receiver) = self.receivers.get_mut(&number) {
                    receiver.session.cancel_acknowledged();
                    self.close_if_over(number);
                }
            }
            _ => effects.notes.push(Note::Stranger),
        }
    }

    fn to_sender(&mut self, number: u64, content: Content, now: u64, effects: &mut Effects) {
        let ack = |kind, numbers: &[u64]| segment::write(kind, self.own, number, numbers, &[]);
        let Some(sender) = self.senders.get_mut(&number) else {
            match content {
                Content::Report(report) => effects.out.push(ack(REPORT_ACK, &[report.serial])),
                Content::ReceiverCancel { .. } => effects.out.push(ack(RECEIVER_CANCEL_ACK, &[])),
                _ => {}
            }
            return;
        };
        match content {
            Content::Report(report) => sender.report(&report, now, effects),
            Content::ReceiverCancel { reason } => sender.cancelled(reason, effects),
            _ => sender.session.cancel_acknowledged(),
        }
        if sender.session.is_over() {
            self.senders.remove(&number);
        }
    }

    fn piece(&mut self, number: u64, piece: &Piece, now: u64, effects: &mut Effects) {
        let session = number;
        let kept = self.receivers.get(&number);
        if piece.service != 1 {
            let cancel = segment::write(RECEIVER_CANCEL, self.peer, number, &[], &[UNREACHABLE]);
            effects.out.push(cancel);
            effects.notes.push(Note::Refused {
                session,
                service: piece.service,
            });
        } else if piece.body.is_empty() || piece.end() > BLOCK_MAX {
            effects.notes.push(Note::BadBounds { session });
        } else if !piece.kind.is_red() && kept.is_none() {
            effects.greens.push(receiver::green(session, piece));
        } else if kept.map_or_else(
            || self.closed.contains(number),
            |receiver| receiver.session.is_cancelling(),
        ) {
            effects.notes.push(Note::Closed { session });
        } else if kept.is_none() && self.receivers.len() + self.closed.0.len() >= MOST_RUNS {
            effects.notes.push(Note::HistoryFull { session });
        } else {
            if kept.is_none() && self.receivers.len() >= MOST_SESSIONS {
                self.evict(effects);
            }
            let open = || Receiver::new(self.peer, number, self.policy);
            let receiver = self.receivers.entry(number).or_insert_with(open);
            if receiver.piece(piece, now, effects) {
                self.touch(number);
            }
            self.close_if_over(number);
        }
    }

    /// Closes the session that was touched longest ago.
    fn evict(&mut self, effects: &mut Effects) {
        if let Some((_, &session)) = self.order.first_key_value() {
            self.close(session);
            effects.notes.push(Note::Evicted { session });
        }
    }

    fn touch(&mut self, number: u64) {
        if let Some(receiver) = self.receivers.get_mut(&number) {
            self.order.remove(&receiver.touched);
            self.touches += 1;
            receiver.touched = self.touches;
            self.order.insert(self.touches, number);
        }
    }

    fn acknowledged(&mut self, number: u64, serial: u64) {
        if let Some(receiver) = self.receivers.get_mut(&number) {
            receiver.acknowledged(serial);
            self.touch(number);
            self.close_if_over(number);
        }
    }

    fn close_if_over(&mut self, number: u64) {
        if self
            .receivers
            .get(&number)
            .is_some_and(|receiver| receiver.session.is_over())
        {
            self.close(number);
        }
    }

    fn close(&mut self, number: u64) {
        if let Some(receiver) = self.receivers.remove(&number) {
            self.order.remove(&receiver.touched);
        }
        self.closed.insert(number);
    }

    pub fn sending(&self) -> usize {
        self.senders.len()
    }

    pub fn next_session(&self) -> u64 {
        self.next
    }

    /// The least moment at which a timer is due.
    pub fn next_deadline(&self) -> Option<u64> {
        let senders = self.senders.values().map(|sender| &sender.session);
        let receivers = self.receivers.values().map(|receiver| &receiver.session);
        senders
            .chain(receivers)
            .filter_map(|session| session.deadline())
            .min()
    }

    /// Timers that are due fire.
    pub fn tick(&mut self, now: u64, effects: &mut Effects) {
        self.senders.retain(|_, sender| {
            sender.session.tick(now, false, effects);
            !sender.session.is_over()
        });
        let (closed, order) = (&mut self.closed, &mut self.order);
        self.receivers.retain(|number, receiver| {
            receiver.tick(now, effects);
            if receiver.session.is_over() {
                closed.insert(*number);
                order.remove(&receiver.touched);
            }
            !receiver.session.is_over()
        });
    }
}
