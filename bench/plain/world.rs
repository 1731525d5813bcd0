//! `world`: an old node, the gateway and a new node, told what happens by a script.

use crate::bundle6::Fragment;
use crate::decimal;
use crate::endpoint::Endpoint;
use crate::ends::{End, Input, Output};
use crate::engine::{Engine, SubmitRefused};
use crate::fragments::{Joined, Joiner};
use crate::gate::{Gate, Place, Step, bundle_of};
use crate::hex;
use crate::node::{LineFault, MOMENTS, octets_of};
use crate::session::{Effects, Policy};
use std::io::Write;

/// The most octets of datagrams that a world keeps.
const MOST_DATAGRAMS: usize = 268_435_456;

/// The clock, or the datagrams, would pass their limit.
pub struct PastLimit;

/// Old node, gate and new node, all datagrams ever sent, and a clock.
pub struct World {
    gate: Gate,
    old: Engine,
    new: Engine,
    old_joiner: Joiner,
    new_joiner: Joiner,
    pub sent: Vec<(Place, Vec<u8>)>,
    octets: usize,
    pub now: u64,
    /// How many blocks the nodes had.
    pub ups: u64,
}

/// The lines of a step: what is said of it after its datagrams, which are a range of those sent.
struct Said {
    sent: std::ops::Range<usize>,
    text: Vec<u8>,
}

impl World {
    pub fn new(gate: Gate, policy: Policy, now: u64) -> World {
        World {
            gate,
            old: Engine::new(1, 2, policy),
            new: Engine::new(4, 3, policy),
            old_joiner: Joiner::default(),
            new_joiner: Joiner::default(),
            sent: Vec::new(),
            octets: 0,
            now,
            ups: 0,
        }
    }

    /// Sends a block from an end, and appends the lines.
    pub fn send(&mut self, end: Place, block: &[u8], text: &mut Vec<u8>) -> Result<(), PastLimit> {
        let mut effects = Effects::default();
        let node = if end == Place::OldNode {
            &mut self.old
        } else {
            &mut self.new
        };
        let refused: Option<SubmitRefused> = node.submit(block, self.now, &mut effects).err();
        if let Some(cause) = refused {
            let _ = writeln!(text, "refused {} {cause:?}", end.word());
        }
        let mut step = Step::default();
        step.take(end, effects);
        let said = self.keep(step, Vec::new());
        self.say(&[said], text)
    }

    /// Delivers a datagram, and appends the lines.
    pub fn deliver(&mut self, k: u64, text: &mut Vec<u8>) -> Result<(), PastLimit> {
        match usize::try_from(k) {
            Ok(k) if k < self.sent.len() => {
                let said = self.delivered(k);
                self.say(&[said], text)
            }
            _ => {
                text.extend(b"refused deliver\n");
                Ok(())
            }
        }
    }

    fn delivered(&mut self, k: usize) -> Said {
        let (from, datagram) = &self.sent[k];
        let place = from.peer();
        let mut step = Step::default();
        let mut joins = Vec::new();
        let (node, joiner) = match place {
            Place::OldNode => (&mut self.old, &mut self.old_joiner),
            Place::NewNode => (&mut self.new, &mut self.new_joiner),
            face => {
                self.gate.arrive(face, datagram, self.now, &mut step);
                return self.keep(step, joins);
            }
        };
        let mut effects = Effects::default();
        node.arrive(datagram, self.now, &mut effects);
        for (_, body) in &effects.ups {
            self.ups += 1;
            join(joiner, place, body, &mut joins);
        }
        step.take(place, effects);
        self.keep(step, joins)
    }

    /// Sets the clock, and appends the lines.
    pub fn clock(&mut self, moment: u64, text: &mut Vec<u8>) -> Result<(), PastLimit> {
        if moment >= MOMENTS {
            return Err(PastLimit);
        }
        let said = self.ticked(moment);
        self.say(&[said], text)
    }

    fn ticked(&mut self, moment: u64) -> Said {
        self.now = self.now.max(moment);
        let (mut step, mut old, mut new) =
            (Step::default(), Effects::default(), Effects::default());
        self.old.tick(self.now, &mut old);
        step.take(Place::OldNode, old);
        self.gate.tick(self.now, &mut step);
        self.new.tick(self.now, &mut new);
        step.take(Place::NewNode, new);
        self.keep(step, Vec::new())
    }

    /// Delivers all that is sent from now on, and sets the clock where nothing is under way.
    pub fn drain(&mut self, text: &mut Vec<u8>) -> Result<usize, PastLimit> {
        let mut next = self.sent.len();
        let mut steps = Vec::new();
        loop {
            if next < self.sent.len() {
                steps.push(self.delivered(next));
                next += 1;
            } else {
                let nodes = [self.old.next_deadline(), self.new.next_deadline()];
                let gate = self.gate.next_deadline();
                let Some(moment) = nodes.into_iter().chain([gate]).flatten().min() else {
                    break;
                };
                if moment >= MOMENTS {
                    return Err(PastLimit);
                }
                steps.push(self.ticked(moment));
            }
            if self.octets > MOST_DATAGRAMS {
                return Err(PastLimit);
            }
        }
        self.say(&steps, text)?;
        let _ = writeln!(text, "end {}", steps.len());
        Ok(steps.len())
    }

    /// Keeps the datagrams of a step, and what is said of the rest.
    fn keep(&mut self, step: Step, joins: Vec<u8>) -> Said {
        let first = self.sent.len();
        self.octets += step
            .sent
            .iter()
            .map(|(_, datagram)| datagram.len())
            .sum::<usize>();
        self.sent.extend(step.sent);
        let mut text = Vec::new();
        for (place, session, body) in &step.ups {
            let _ = write!(text, "up {} {session} ", place.word());
            hex::write(body, &mut text);
            text.push(b'\n');
        }
        text.extend(joins);
        for (place, note) in &step.notes {
            let _ = writeln!(text, "note {} {note}", place.word());
        }
        Said {
            sent: first..self.sent.len(),
            text,
        }
    }

    /// Appends the lines of steps.
    fn say(&self, steps: &[Said], text: &mut Vec<u8>) -> Result<(), PastLimit> {
        if self.octets > MOST_DATAGRAMS {
            return Err(PastLimit);
        }
        for step in steps {
            for k in step.sent.clone() {
                let (from, datagram) = &self.sent[k];
                let (first, second) = (&from.word()[..1], &from.peer().word()[..1]);
                let _ = write!(text, "sent {k} {first}>{second} ");
                hex::write(datagram, text);
                text.push(b'\n');
            }
            text.extend(&step.text);
        }
        Ok(())
    }
}

/// A fragment that an end can translate goes to its joiner; the line is appended.
fn join(joiner: &mut Joiner, end: Place, body: &[u8], text: &mut Vec<u8>) {
    let version = end.version();
    let Ok(bundle) = bundle_of(body, version) else {
        return;
    };
    let Ok(record) = bundle.record() else { return };
    let Some(Fragment { .. }) = record.fragment else {
        return;
    };
    let is_late = version == 7 && record.is_late();
    if is_late || record.write(13 - version, &mut Vec::new()).is_err() {
        return;
    }
    let joined = joiner.add(&record, body);
    let _ = write!(text, "join {} {}", end.word(), joined.word());
    if let Joined::Whole(whole) = joined {
        let mut octets = Vec::new();
        // It has no more blocks than its fragment, and so is never refused.
        let _ = whole.write(version, &mut octets);
        text.push(b' ');
        hex::write(&octets, text);
    }
    text.push(b'\n');
}

/// The number below 2^64 that a word is, in a range.
fn number(word: &[u8], least: u64, most: u64) -> Result<u64, LineFault> {
    let number = decimal::read(word).filter(|number| (least..=most).contains(number));
    number.ok_or(LineFault::Number)
}

/// Why a line's event isn't.
enum Fault {
    Line(LineFault),
    Limit,
}

impl From<LineFault> for Fault {
    fn from(fault: LineFault) -> Fault {
        Fault::Line(fault)
    }
}

impl From<PastLimit> for Fault {
    fn from(_: PastLimit) -> Fault {
        Fault::Limit
    }
}

/// The world of a script's first line.
pub fn read_path(words: &[&[u8]]) -> Result<(World, bool), LineFault> {
    let &[
        b"path",
        gate,
        segment,
        timeout,
        limit,
        cut,
        start,
        ref cap @ ..,
    ] = words
    else {
        return Err(LineFault::Word);
    };
    if cap.len() > 1 {
        return Err(LineFault::Word);
    }
    let name = Endpoint::of_text(gate).filter(|name| *name != Endpoint::Null);
    name.ok_or(LineFault::Name)?;
    let segment = number(segment, 512, 8192)? as usize;
    let timeout = number(timeout, 1, 3_600_000)?;
    let limit = number(limit, 1, 100)? as u32;
    let cut = number(cut, 1, 4_000_000)? as usize;
    let start = number(start, 0, u64::MAX)?;
    let cap = match cap.first() {
        Some(cap) => number(cap, timeout, 3_600_000)?,
        None => timeout,
    };
    let policy = Policy {
        segment,
        timeout,
        limit,
        cap,
    };
    let gate = Gate::new(gate.to_vec(), cut, policy);
    Ok((World::new(gate, policy, start), start >= MOMENTS))
}

/// A script, as far as it was read.
#[derive(Default)]
struct Script {
    world: Option<World>,
    is_drained: bool,
    octets: Vec<u8>,
}

impl Script {
    /// Does what a line says, and appends the lines.
    fn event(&mut self, line: &[u8], text: &mut Vec<u8>) -> Result<(), Fault> {
        if self.is_drained {
            return Err(LineFault::AfterDrain.into());
        }
        let words: Vec<&[u8]> = line.split(|octet| *octet == b' ').collect();
        let Some(world) = &mut self.world else {
            let (world, is_late) = read_path(&words)?;
            self.world = Some(world);
            return if is_late { Err(Fault::Limit) } else { Ok(()) };
        };
        match words[..] {
            [b"send", end @ (b"old" | b"new"), ref block @ ..] if block.len() <= 1 => {
                let word = block.first().copied().unwrap_or_default();
                let place = if end == b"old" {
                    Place::OldNode
                } else {
                    Place::NewNode
                };
                world.send(place, octets_of(word, &mut self.octets)?, text)?;
            }
            [b"deliver", k] => world.deliver(number(k, 0, u64::MAX)?, text)?,
            [b"clock", moment] => world.clock(number(moment, 0, u64::MAX)?, text)?,
            [b"drain"] => {
                world.drain(text)?;
                self.is_drained = true;
            }
            _ => return Err(LineFault::Word.into()),
        }
        Ok(())
    }
}

pub fn run(input: &mut Input, output: &mut Output) -> Result<(), End> {
    let mut script = Script::default();
    let mut is_empty = true;
    while let Some((line, number)) = input.line(output)? {
        is_empty = false;
        match script.event(line, &mut output.text) {
            Ok(()) => output.flush_if_large()?,
            Err(Fault::Line(fault)) => return refuse(number, fault, output),
            Err(Fault::Limit) => {
                let (clock, most) = (MOMENTS - 1, MOST_DATAGRAMS);
                return Err(End::Limit(format!(
                    "line {number} sets the clock past {clock}, or leaves more than {most} octets \
                     of datagrams"
                )));
            }
        }
    }
    if is_empty {
        refuse(1, LineFault::Word, output)
    } else {
        Ok(())
    }
}

fn refuse(number: u64, fault: LineFault, output: &mut Output) -> Result<(), End> {
    let _ = write!(output.text, "refused line {number} {fault:?}");
    output.end_line()?;
    Err(End::Refused)
}
