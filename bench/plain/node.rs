//! `node`: one end of an LTP link, told what happens by lines.

use crate::decimal;
use crate::ends::{End, Input, Output};
use crate::engine::Engine;
use crate::hex;
use crate::session::{Effects, Policy};
use std::io::Write;

/// Moments are below this.
pub const MOMENTS: u64 = 1 << 62;

/// Why a line is refused.
#[derive(Debug)]
pub enum LineFault {
    Word,
    Name,
    Number,
    Hex,
    AfterDrain,
}

/// What a line says.
enum Event<'a> {
    In(&'a [u8]),
    Send(&'a [u8]),
    Clock(u64),
}

/// The octets that a word spells in hex.
pub fn octets_of<'a>(word: &[u8], octets: &'a mut Vec<u8>) -> Result<&'a [u8], LineFault> {
    if hex::read(word, octets) {
        Ok(octets)
    } else {
        Err(LineFault::Hex)
    }
}

fn read<'a>(line: &[u8], octets: &'a mut Vec<u8>) -> Result<Event<'a>, LineFault> {
    let mut words = line.splitn(3, |octet| *octet == b' ');
    match (words.next(), words.next(), words.next()) {
        (Some(b"in"), Some(word), None) => Ok(Event::In(octets_of(word, octets)?)),
        (Some(b"send"), word, None) => Ok(Event::Send(octets_of(word.unwrap_or(b""), octets)?)),
        (Some(b"clock"), Some(word), None) => {
            Ok(Event::Clock(decimal::read(word).ok_or(LineFault::Number)?))
        }
        _ => Err(LineFault::Word),
    }
}

pub fn run(input: &mut Input, output: &mut Output, own: u64, peer: u64) -> Result<(), End> {
    let mut engine = Engine::new(own, peer, Policy::DEFAULT);
    let (mut now, mut octets) = (0, Vec::new());
    while let Some((line, number)) = input.line(output)? {
        let mut effects = Effects::default();
        let mut refused = None;
        match read(line, &mut octets) {
            Ok(Event::In(datagram)) => engine.arrive(datagram, now, &mut effects),
            Ok(Event::Send(block)) => refused = engine.submit(block, now, &mut effects).err(),
            Ok(Event::Clock(moment)) => {
                if moment >= MOMENTS {
                    let last = MOMENTS - 1;
                    let limit = format!("line {number} sets the clock past {last}");
                    return Err(End::Limit(limit));
                }
                now = now.max(moment);
                engine.tick(now, &mut effects);
            }
            Err(fault) => {
                let _ = write!(output.text, "refused line {number} {fault:?}");
                output.end_line()?;
                return Err(End::Refused);
            }
        }
        say(&effects, output)?;
        if let Some(cause) = refused {
            let _ = write!(output.text, "refused {cause:?}");
            output.end_line()?;
        }
    }
    Ok(())
}

/// Writes the lines of a step.
fn say(effects: &Effects, output: &mut Output) -> Result<(), End> {
    for datagram in &effects.out {
        output.text.extend(b"out ");
        hex::write(datagram, &mut output.text);
        output.end_line()?;
    }
    for (session, body) in &effects.ups {
        let _ = write!(output.text, "up {session} ");
        hex::write(body, &mut output.text);
        output.end_line()?;
    }
    for green in &effects.greens {
        let is_last = u8::from(green.is_last);
        let _ = write!(
            output.text,
            "green {} {} {is_last} ",
            green.session, green.offset
        );
        hex::write(&green.body, &mut output.text);
        output.end_line()?;
    }
    for note in &effects.notes {
        let _ = write!(output.text, "note {note}");
        output.end_line()?;
    }
    Ok(())
}
