//! What both ends of an LTP session have: a policy, a timer, and how a session is given up.

use crate::fields::Cause;
use crate::segment;
use std::fmt;

/// The octets of a segment's data, waits in milliseconds, and how often something is sent at most.
#[derive(Clone, Copy)]
pub struct Policy {
    pub segment: usize,
    pub timeout: u64,
    pub limit: u32,
    pub cap: u64,
}

impl Policy {
    pub const DEFAULT: Policy = Policy {
        segment: 1024,
        timeout: 10_000,
        limit: 10,
        cap: 160_000,
    };

    /// How long to wait after so many sendings.
    fn wait(&self, sent: u32) -> u64 {
        let doubled = u128::from(self.timeout) << (sent - 1).min(64);
        doubled.min(u128::from(self.cap)) as u64
    }
}

pub enum Note {
    Sent { session: u64 },
    Failed { session: u64, reason: u8 },
    Refused { session: u64, service: u64 },
    Cancelled { session: u64, reason: u8 },
    Evicted { session: u64 },
    Stranger,
    BadSegment { at: usize, cause: Cause },
    BadBounds { session: u64 },
    Closed { session: u64 },
    HistoryFull { session: u64 },
}

impl fmt::Display for Note {
    fn fmt(&self, f: &mut fmt::Formatter) -> fmt::Result {
        match self {
            Note::Sent { session } => write!(f, "Sent {session}"),
            Note::Failed { session, reason } => write!(f, "Failed {session} {reason}"),
            Note::Refused { session, service } => write!(f, "Refused {session} {service}"),
            Note::Cancelled { session, reason } => write!(f, "Cancelled {session} {reason}"),
            Note::Evicted { session } => write!(f, "Evicted {session}"),
            Note::Stranger => f.write_str("Stranger"),
            Note::BadSegment { at, cause } => write!(f, "BadSegment {at} {cause:?}"),
            Note::BadBounds { session } => write!(f, "BadBounds {session}"),
            Note::Closed { session } => write!(f, "Closed {session}"),
            Note::HistoryFull { session } => write!(f, "HistoryFull {session}"),
        }
    }
}

/// Green octets that are handed up.
pub struct Green {
    pub session: u64,
    pub offset: u64,
    pub is_last: bool,
    pub body: Vec<u8>,
}

/// What a step brings about: datagrams, red parts with their sessions, green octets and notes.
#[derive(Default)]
pub struct Effects {
    pub out: Vec<Vec<u8>>,
    pub ups: Vec<(u64, Vec<u8>)>,
    pub greens: Vec<Green>,
    pub notes: Vec<Note>,
}

/// Why a session is cancelled.
pub const UNREACHABLE: u8 = 1;
const RETRIED_TOO_OFTEN: u8 = 2;
pub const MISCOLOURED: u8 = 3;
pub const BY_SYSTEM: u8 = 4;
/// Serials and session numbers are below this.
pub const NUMBERS: u64 = 1 << 32;

#[derive(Clone, Copy, PartialEq)]
enum State {
    Open,
    Cancelling,
    Over,
}

/// A datagram that waits for an answer.
struct Waiting {
    datagram: Vec<u8>,
    sent: u32,
    deadline: u64,
}

/// A session of an originator, with the type of the cancel that this end sends.
pub struct Session {
    pub originator: u64,
    pub number: u64,
    cancel: u8,
    policy: Policy,
    state: State,
    waiting: Option<Waiting>,
}

impl Session {
    pub fn new(originator: u64, number: u64, cancel: u8, policy: Policy) -> Session {
        Session {
            originator,
            number,
            cancel,
            policy,
            state: State::Open,
            waiting: None,
        }
    }

    /// The first serial of a session.
    pub fn first_serial(&self) -> u64 {
        1 + self.number % 16_383
    }

    pub fn is_cancelling(&self) -> bool {
        self.state == State::Cancelling
    }

    pub fn is_over(&self) -> bool {
        self.state == State::Over
    }

    pub fn deadline(&self) -> Option<u64> {
        self.waiting.as_ref().map(|waiting| waiting.deadline)
    }

    /// A segment of this session.
    pub fn segment(&self, kind: u8, numbers: &[u64], body: &[u8]) -> Vec<u8> {
        segment::write(kind, self.originator, self.number, numbers, body)
    }

    /// Sends what waits for an answer from now on.
    pub fn send(&mut self, datagram: Vec<u8>, now: u64, effects: &mut Effects) {
        effects.out.push(datagram.clone());
        self.waiting = Some(Waiting {
            datagram,
            sent: 1,
            deadline: now + self.policy.wait(1),
        });
    }

    pub fn wait_no_more(&mut self) {
        self.waiting = None;
    }

    /// Begins to cancel the session.
    pub fn fail(&mut self, reason: u8, now: u64, effects: &mut Effects) {
        self.state = State::Cancelling;
        self.send(self.segment(self.cancel, &[], &[reason]), now, effects);
        effects.notes.push(Note::Failed {
            session: self.number,
            reason,
        });
    }

    pub fn finish(&mut self) {
        self.state = State::Over;
        self.waiting = None;
    }

    pub fn cancel_acknowledged(&mut self) {
        if self.is_cancelling() {
            self.finish();
        }
    }

    /// Sends again what is due; what was sent too often ends the session, or begins to cancel it.
    pub fn tick(&mut self, now: u64, is_done: bool, effects: &mut Effects) {
        let Some(waiting) = self
            .waiting
            .as_mut()
            .filter(|waiting| waiting.deadline <= now)
        else {
            return;
        };
        if waiting.sent < self.policy.limit {
            waiting.sent += 1;
            waiting.deadline = now + self.policy.wait(waiting.sent);
            effects.out.push(waiting.datagram.clone());
        } else if is_done || self.is_cancelling() {
            self.finish();
        } else {
            self.fail(RETRIED_TOO_OFTEN, now, effects);
        }
    }
}
