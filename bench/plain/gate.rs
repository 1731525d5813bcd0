//! The gateway between a node of version 6 and one of version 7.

use crate::bundle6::{self, Block6, Bundle6, Fragment, Primary6};
use crate::bundle7::{self, Block7, Bundle7, HOP_COUNT, PREVIOUS_NODE, Primary7};
use crate::bundles::Bundle;
use crate::endpoint::Endpoint;
use crate::engine::{Engine, MOST_SESSIONS};
use crate::fields::{ARRAY, Cause, Fields, Refusal, UNSIGNED, must, write_head};
use crate::fragments;
use crate::record::{ADMINISTRATIVE, Ext, Refused};
use crate::report::{self, Report, Stamp};
use crate::segment::BLOCK_MAX;
use crate::session::{Effects, NUMBERS, Note, Policy};
use std::fmt;

const TIME_WANTED: u64 = 64;
const RECEPTION: u64 = 1 << 14;
const FORWARDING: u64 = 1 << 16;
const DELETION: u64 = 1 << 18;
// Reasons of a status report.
const EXPIRED: u8 = 1;
const DEPLETED_STORAGE: u8 = 4;
const HOP_LIMIT_EXCEEDED: u8 = 9;
/// Before this moment a report has no name in version 7.
const FIRST_SECOND: u64 = 1000;

/// Where something happens: the ends, and the gateway's faces to them.
#[derive(Clone, Copy, PartialEq)]
pub enum Place {
    OldNode,
    OldFace,
    NewFace,
    NewNode,
}

impl Place {
    pub fn word(self) -> &'static str {
        match self {
            Place::OldNode => "o",
            Place::OldFace => "g.o",
            Place::NewFace => "g.n",
            Place::NewNode => "n",
        }
    }

    /// The other end of its link.
    pub fn peer(self) -> Place {
        match self {
            Place::OldNode => Place::OldFace,
            Place::OldFace => Place::OldNode,
            Place::NewFace => Place::NewNode,
            Place::NewNode => Place::NewFace,
        }
    }

    /// The version of its bundles.
    pub fn version(self) -> u8 {
        if matches!(self, Place::OldNode | Place::OldFace) {
            6
        } else {
            7
        }
    }
}

/// What a gateway notes: what became of a block of a session, or a note of an engine.
pub enum GateNote {
    Engine(Note),
    BadBundle {
        session: u64,
        at: usize,
        cause: Cause,
    },
    Untranslated {
        session: u64,
        cause: Refused,
    },
    Expired {
        session: u64,
    },
    HopLimit {
        session: u64,
    },
    Storage {
        session: u64,
    },
    Passed {
        session: u64,
        pieces: usize,
    },
    Reported {
        session: u64,
    },
    Unreported {
        session: u64,
    },
}

impl fmt::Display for GateNote {
    fn fmt(&self, f: &mut fmt::Formatter) -> fmt::Result {
        match self {
            GateNote::Engine(note) => note.fmt(f),
            GateNote::BadBundle { session, at, cause } => {
                write!(f, "BadBundle {session} {at} {cause:?}")
            }
            GateNote::Untranslated { session, cause } => {
                write!(f, "Untranslated {session} {cause:?}")
            }
            GateNote::Expired { session } => write!(f, "Expired {session}"),
            GateNote::HopLimit { session } => write!(f, "HopLimit {session}"),
            GateNote::Storage { session } => write!(f, "Storage {session}"),
            GateNote::Passed { session, pieces } => write!(f, "Passed {session} {pieces}"),
            GateNote::Reported { session } => write!(f, "Reported {session}"),
            GateNote::Unreported { session } => write!(f, "Unreported {session}"),
        }
    }
}

/// What a step brings about, each thing with its place; datagrams go to the place's peer.
#[derive(Default)]
pub struct Step {
    pub sent: Vec<(Place, Vec<u8>)>,
    pub ups: Vec<(Place, u64, Vec<u8>)>,
    pub notes: Vec<(Place, GateNote)>,
}

impl Step {
    /// Takes what an engine's step at a place brings about.
    pub fn take(&mut self, place: Place, effects: Effects) {
        self.sent
            .extend(effects.out.into_iter().map(|datagram| (place, datagram)));
        self.ups.extend(
            effects
                .ups
                .into_iter()
                .map(|(session, body)| (place, session, body)),
        );
        self.notes.extend(
            effects
                .notes
                .into_iter()
                .map(|note| (place, GateNote::Engine(note))),
        );
    }
}

/// What a status report says of a bundle; its creation is that of its own version.
struct Subject<'a> {
    flags: u64,
    report_to: Endpoint<'a>,
    source: Endpoint<'a>,
    creation: (u64, u64),
    part: Option<(u64, u64)>,
}

impl<'a> Subject<'a> {
    fn of(bundle: &Bundle<'a>) -> Subject<'a> {
        let part = |fragment: Option<Fragment>, payload: &[u8]| {
            fragment.map(|fragment| (fragment.offset, payload.len() as u64))
        };
        match bundle {
            Bundle::Six(Bundle6 { primary, blocks }) => {
                let payload = blocks.iter().find(|block| block.kind == 1);
                let payload = payload.map_or(&[][..], |block| block.body);
                Subject {
                    flags: primary.flags,
                    report_to: primary.report_to,
                    source: primary.source,
                    creation: (primary.seconds, primary.sequence),
                    part: part(primary.fragment, payload),
                }
            }
            Bundle::Seven(bundle) => Subject {
                flags: bundle.primary.flags,
                report_to: bundle.primary.report_to,
                source: bundle.primary.source,
                creation: (bundle.primary.millis, bundle.primary.sequence),
                part: part(bundle.primary.fragment, bundle.payload().body),
            },
        }
    }

    /// Whether it asks for a report on reception, forwarding, delivery and deletion.
    fn asks(&self, is_passed: bool) -> [bool; 4] {
        if self.flags & ADMINISTRATIVE != 0 || self.report_to == Endpoint::Null {
            return [false; 4];
        }
        let has = |flag| self.flags & flag != 0;
        [
            has(RECEPTION),
            is_passed && has(FORWARDING),
            false,
            !is_passed && has(DELETION),
        ]
    }
}

/// What becomes of a block: pieces that are passed on, or the note and the reason of a deletion.
enum Case {
    Passed(Vec<Vec<u8>>),
    Deleted(GateNote, u8),
}

/// The bundle of a version that octets are exactly.
pub fn bundle_of(octets: &[u8], version: u8) -> Result<Bundle<'_>, Refusal> {
    let mut fields = Fields::new(octets);
    let bundle = match version {
        6 => Bundle::Six(bundle6::read(&mut fields)?),
        _ => Bundle::Seven(bundle7::read(&mut fields)?),
    };
    must(fields.left().is_empty(), fields.at, Cause::Trailing)?;
    Ok(bundle)
}

/// A moment; a session at the face; how many more sessions the other face takes; the longest piece.
struct Passing {
    now: u64,
    session: u64,
    room: u64,
    cut: usize,
}

impl Passing {
    /// The first of the cases that holds for a valid bundle of a version.
    fn case_of(&self, bundle: Bundle, version: u8) -> Case {
        let session = self.session;
        let untranslated = |cause| Case::Deleted(GateNote::Untranslated { session, cause }, 0);
        let mut raised = Vec::new();
        let mut record = match bundle.record() {
            Ok(record) => record,
            Err(cause) => return untranslated(cause),
        };
        if record.expiry < u128::from(self.now) {
            return Case::Deleted(GateNote::Expired { session }, EXPIRED);
        }
        let hop_count = record.exts.iter_mut().find_map(|ext| match ext {
            Ext::Seven(block) if block.kind == HOP_COUNT => Some(block),
            _ => None,
        });
        if let Some(block) = hop_count {
            let (limit, count) = bundle7::read_hops(block.body).unwrap_or_default();
            if count >= limit {
                return Case::Deleted(GateNote::HopLimit { session }, HOP_LIMIT_EXCEEDED);
            }
            write_head(ARRAY, 2, &mut raised);
            write_head(UNSIGNED, limit, &mut raised);
            write_head(UNSIGNED, count + 1, &mut raised);
            block.body = &raised;
        }
        let is_kept = |ext: &Ext| !matches!(ext, Ext::Seven(block) if block.kind == PREVIOUS_NODE);
        fragments::keep_exts(&mut record, is_kept);
        let mut pieces = Vec::new();
        let mut give = |piece: &crate::record::Record| {
            let mut octets = Vec::new();
            piece.write(13 - version, &mut octets)?;
            pieces.push(octets);
            Ok(())
        };
        let cut = match fragments::cut(&mut record, self.cut, &mut give) {
            Ok(Some(_)) => give(&record),
            Ok(None) => Ok(()),
            Err(cause) => Err(cause),
        };
        if let Err(cause) = cut {
            return untranslated(cause);
        }
        let is_long = pieces.iter().any(|piece| piece.len() as u64 > BLOCK_MAX);
        if pieces.len() as u64 > self.room || is_long {
            return Case::Deleted(GateNote::Storage { session }, DEPLETED_STORAGE);
        }
        Case::Passed(pieces)
    }
}

/// Both faces of a gateway, its endpoint's text, the longest piece, and how many reports it sent.
pub struct Gate {
    name: Vec<u8>,
    cut: usize,
    old: Engine,
    new: Engine,
    reports: u64,
}

impl Gate {
    pub fn new(name: Vec<u8>, cut: usize, policy: Policy) -> Gate {
        let (old, new) = (Engine::new(2, 1, policy), Engine::new(3, 4, policy));
        Gate {
            name,
            cut,
            old,
            new,
            reports: 0,
        }
    }

    fn face(&mut self, place: Place) -> &mut Engine {
        if place == Place::OldFace {
            &mut self.old
        } else {
            &mut self.new
        }
    }

    /// A datagram came to a face.
    pub fn arrive(&mut self, face: Place, datagram: &[u8], now: u64, step: &mut Step) {
        let mut effects = Effects::default();
        self.face(face).arrive(datagram, now, &mut effects);
        let first = step.ups.len();
        step.take(face, effects);
        for index in first..step.ups.len() {
            let (_, session, ref body) = step.ups[index];
            let body = body.clone();
            self.hand_over(face, session, &body, now, step);
        }
    }

    pub fn tick(&mut self, now: u64, step: &mut Step) {
        for place in [Place::OldFace, Place::NewFace] {
            let mut effects = Effects::default();
            self.face(place).tick(now, &mut effects);
            step.take(place, effects);
        }
    }

    pub fn next_deadline(&self) -> Option<u64> {
        [self.old.next_deadline(), self.new.next_deadline()]
            .into_iter()
            .flatten()
            .min()
    }

    /// Sends a block from a face.
    fn submit(&mut self, face: Place, block: &[u8], now: u64, step: &mut Step) {
        let mut effects = Effects::default();
        // There is room for it: whoever calls has looked.
        let _ = self.face(face).submit(block, now, &mut effects);
        step.take(face, effects);
    }

    /// A block goes through the cases, and what its bundle asks for is reported.
    fn hand_over(&mut self, face: Place, session: u64, body: &[u8], now: u64, step: &mut Step) {
        let version = face.version();
        let bundle = match bundle_of(body, version) {
            Ok(bundle) => bundle,
            Err(Refusal { at, cause, .. }) => {
                step.notes
                    .push((face, GateNote::BadBundle { session, at, cause }));
                return;
            }
        };
        let other = if face == Place::OldFace {
            Place::NewFace
        } else {
            Place::OldFace
        };
        let subject = Subject::of(&bundle);
        let room = self.face(other).room();
        let passing = Passing {
            now,
            session,
            room,
            cut: self.cut,
        };
        let (reason, is_passed) = match passing.case_of(bundle, version) {
            Case::Deleted(note, reason) => {
                step.notes.push((face, note));
                (reason, false)
            }
            Case::Passed(pieces) => {
                step.notes.push((
                    face,
                    GateNote::Passed {
                        session,
                        pieces: pieces.len(),
                    },
                ));
                pieces
                    .iter()
                    .for_each(|piece| self.submit(other, piece, now, step));
                (0, true)
            }
        };
        let asked = subject.asks(is_passed);
        if asked.contains(&true) {
            let note =
                if self.face(face).room() == 0 || now < FIRST_SECOND || self.reports == NUMBERS {
                    GateNote::Unreported { session }
                } else {
                    let octets = self.status_bundle(&subject, version, reason, asked, now);
                    self.reports += 1;
                    self.submit(face, &octets, now, step);
                    GateNote::Reported { session }
                };
            step.notes.push((face, note));
        }
    }

    /// The octets of the report on a bundle, in its own version.
    fn status_bundle(
        &self,
        subject: &Subject,
        version: u8,
        reason: u8,
        asked: [bool; 4],
        now: u64,
    ) -> Vec<u8> {
        let is_timed = version == 6 || subject.flags & TIME_WANTED != 0;
        let stamp = if is_timed { Stamp::At(now) } else { Stamp::Yes };
        let report = Report {
            stamps: asked.map(|is_asked| if is_asked { stamp } else { Stamp::No }),
            rests: [0; 4],
            reason,
            source: subject.source,
            millis: subject.creation.0,
            sequence: subject.creation.1,
            part: subject.part,
        };
        let destination = subject.report_to;
        let source = Endpoint::of_text(&self.name).unwrap_or(Endpoint::Null);
        let mut octets = Vec::new();
        if version == 6 {
            let primary = Primary6 {
                flags: if destination.is_singleton() {
                    0x92
                } else {
                    0x82
                },
                destination,
                source,
                report_to: Endpoint::Null,
                custodian: Endpoint::Null,
                seconds: now / 1000,
                sequence: 1000 * self.reports + now % 1000,
                lifetime: 86_400,
                fragment: None,
            };
            let body = report::write6(&report, subject.creation);
            let blocks = vec![Block6 {
                kind: 1,
                flags: 0,
                refs: Vec::new(),
                body: &body,
            }];
            bundle6::write(&Bundle6 { primary, blocks }, &mut octets);
        } else {
            let primary = Primary7 {
                flags: ADMINISTRATIVE,
                crc: 1,
                destination,
                source,
                report_to: Endpoint::Null,
                millis: now,
                sequence: self.reports,
                lifetime: 86_400_000,
                fragment: None,
            };
            let body = report::write7(&report);
            let blocks = vec![Block7 {
                kind: 1,
                number: 1,
                flags: 0,
                crc: 0,
                body: &body,
            }];
            bundle7::write(&Bundle7 { primary, blocks }, &mut octets);
        }
        octets
    }
}

impl Engine {
    /// How many more sessions it can send now.
    fn room(&self) -> u64 {
        ((MOST_SESSIONS - self.sending()) as u64).min(NUMBERS - self.next_session())
    }
}
