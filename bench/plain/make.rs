//! `make`: a script out of a seed, replayed, and its transcript in numbers.

use crate::bundle6::{self, Block6, Bundle6, Primary6};
use crate::bundle7::{self, Block7, Bundle7, Primary7};
use crate::endpoint::Endpoint;
use crate::ends::{End, Output};
use crate::gate::Place;
use crate::world::{PastLimit, World, read_path};
use std::io::Write;

const PATH: &str = "path ipn:9.0 512 10000 100 4096 1000000";
const EVENTS: u32 = 8;

/// The numbers that are drawn from a seed.
struct Draws(u64);

impl Draws {
    fn draw(&mut self) -> u64 {
        self.0 = self
            .0
            .wrapping_mul(6364136223846793005)
            .wrapping_add(1442695040888963407);
        self.0 >> 33
    }
}

/// The end that sends a bundle, and its octets.
fn bundle(number: u64, size: u64) -> (Place, Vec<u8>) {
    let payload = vec![number as u8; size as usize];
    let mut octets = Vec::new();
    let (first, second) = (Endpoint::Ipn(1, 1), Endpoint::Ipn(2, 1));
    if number.is_multiple_of(2) {
        let primary = Primary6 {
            flags: 0x90,
            destination: second,
            source: first,
            report_to: Endpoint::Null,
            custodian: Endpoint::Null,
            seconds: 1000,
            sequence: number,
            lifetime: 1_000_000,
            fragment: None,
        };
        let blocks = vec![Block6 {
            kind: 1,
            flags: 0,
            refs: Vec::new(),
            body: &payload,
        }];
        bundle6::write(&Bundle6 { primary, blocks }, &mut octets);
        return (Place::OldNode, octets);
    }
    let primary = Primary7 {
        flags: 0,
        crc: 1,
        destination: first,
        source: second,
        report_to: Endpoint::Null,
        millis: 1_000_000 + number,
        sequence: 0,
        lifetime: 1_000_000_000,
        fragment: None,
    };
    let blocks = vec![Block7 {
        kind: 1,
        number: 1,
        flags: 0,
        crc: 0,
        body: &payload,
    }];
    bundle7::write(&Bundle7 { primary, blocks }, &mut octets);
    (Place::NewNode, octets)
}

/// A transcript of which its sum alone is kept.
#[derive(Default)]
struct Transcript {
    text: Vec<u8>,
    sum: u32,
}

impl Transcript {
    fn add_up(&mut self) {
        let step = |sum: u32, octet: &u8| sum.wrapping_mul(31).wrapping_add(u32::from(*octet));
        self.sum = self.text.iter().fold(self.sum, step);
        self.text.clear();
    }
}

/// Makes and replays a script: its world, the events of its drain, and the transcript's sum.
fn replay(seed: u64, count: u64) -> Result<(World, usize, u32), PastLimit> {
    let words: Vec<&[u8]> = PATH.as_bytes().split(|octet| *octet == b' ').collect();
    let (mut world, _) = read_path(&words).map_err(|_| PastLimit)?;
    let mut draws = Draws(seed);
    let mut transcript = Transcript::default();
    for number in 0..count {
        let (end, octets) = bundle(number, 1 + draws.draw() % 6000);
        world.send(end, &octets, &mut transcript.text)?;
        for _ in 0..EVENTS {
            let (first, second) = (draws.draw(), draws.draw());
            if first % 4 == 3 {
                world.clock(world.now + second % 20_000, &mut transcript.text)?;
            } else {
                let sent = world.sent.len() as u64;
                world.deliver(sent - 1 - second % sent.min(32), &mut transcript.text)?;
            }
            transcript.add_up();
        }
    }
    let events = world.drain(&mut transcript.text)?;
    transcript.add_up();
    Ok((world, events, transcript.sum))
}

pub fn run(output: &mut Output, seed: u64, count: u64) -> Result<(), End> {
    let Ok((world, events, sum)) = replay(seed, count) else {
        return Err(End::Limit("the world passes a limit".to_owned()));
    };
    let (sent, ups) = (world.sent.len(), world.ups);
    let _ = write!(
        output.text,
        "made {count} sent {sent} up {ups} events {events} sum {sum}"
    );
    output.end_line()
}
