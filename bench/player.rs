//! Plays an old node and a new node of LTP against a gateway over loopback, for bench/gate.py, which builds it by `rustc`.
//!
//! usage: player OLD NEW GATE_OLD GATE_NEW BLOCKS CAME WINDOW PIECES SECONDS
//!
//! OLD, NEW, GATE_OLD and GATE_NEW are ports of 127.0.0.1. From the file BLOCKS it reads blocks, each after its length in
//! eight octets, and sends each in one session of engine 1, in segments of 1,024 octets of which the last is a
//! checkpoint; the reports on it are acknowledged. At the new node each block that is whole is reported on, and the gateway's
//! session is over when it acknowledges that. Nothing is sent again: no more goes out than the gateway's socket has room
//! for, as /proc/net/udp tells, at most WINDOW sessions of the old node are open, and at most WINDOW of the gateway's, of
//! which each block makes PIECES. What came is written
//! to the file CAME in the same form. Printed are the seconds from the first datagram to the last one that was due, and
//! the datagrams that went and came; status 1 where not all came in so many SECONDS.
use std::collections::HashMap;
use std::fs;
use std::io::ErrorKind;
use std::net::UdpSocket;
use std::os::fd::AsRawFd;
use std::sync::atomic::{AtomicBool, AtomicUsize, Ordering};
use std::time::{Duration, Instant};

const SEGMENT: usize = 1024;
const MOST_WAITING: isize = 120_000;

/// What both nodes know of each other.
struct Shared {
    /// Blocks that came whole to the new node, of which the gateway has acknowledged the report.
    answered: AtomicUsize,
    over: AtomicBool,
}

fn put(octets: &mut Vec<u8>, number: u64) {
    let mut shift = 63;
    while shift > 0 && number >> shift == 0 {
        shift -= 7;
    }
    while shift > 0 {
        octets.push((number >> shift) as u8 & 127 | 128);
        shift -= 7;
    }
    octets.push(number as u8 & 127);
}

fn take(octets: &[u8], at: &mut usize) -> u64 {
    let mut number = 0;
    loop {
        let octet = octets[*at];
        *at += 1;
        number = number << 7 | u64::from(octet & 127);
        if octet < 128 {
            return number;
        }
    }
}

/// A segment's type and its session's name, and behind them its content.
fn begun(octets: &mut Vec<u8>, kind: u8, name: (u64, u64), numbers: &[u64]) {
    octets.clear();
    octets.push(kind);
    put(octets, name.0);
    put(octets, name.1);
    octets.push(0);
    for number in numbers {
        put(octets, *number);
    }
}

fn name_of(octets: &[u8], at: &mut usize) -> (u64, u64) {
    *at = 1;
    let name = (take(octets, at), take(octets, at));
    *at += 1;
    name
}

/// Octets that wait in the gateway's socket at a port.
fn waiting(port: u16) -> isize {
    let table = fs::read_to_string("/proc/net/udp").unwrap_or_default();
    let wanted = format!(":{port:04X}");
    table
        .lines()
        .map(|line| line.split_whitespace().collect::<Vec<_>>())
        .find(|words| words.len() > 4 && words[1].ends_with(&wanted))
        .and_then(|words| isize::from_str_radix(words[4].rsplit(':').next()?, 16).ok())
        .unwrap_or(0)
}

extern "C" {
    fn setsockopt(socket: i32, level: i32, name: i32, value: *const i32, length: u32) -> i32;
}

/// A socket that holds eight million octets, where it may.
fn socket(port: u16, peer: u16) -> UdpSocket {
    let (level, held, forced, room) = (1, 8, 33, 8_000_000);
    let socket = UdpSocket::bind(("127.0.0.1", port)).expect("a port of its own");
    for name in [held, forced] {
        // SAFETY: the value is a C int, and lives for the call.
        unsafe { setsockopt(socket.as_raw_fd(), level, name, &room, 4) };
    }
    socket.connect(("127.0.0.1", peer)).expect("a peer");
    socket.set_nonblocking(true).expect("no waiting");
    socket
}

fn received(socket: &UdpSocket, buffer: &mut [u8]) -> Option<usize> {
    match socket.recv(buffer) {
        Ok(length) => Some(length),
        Err(error) if error.kind() == ErrorKind::WouldBlock => None,
        Err(error) if error.kind() == ErrorKind::ConnectionRefused => None,
        Err(error) => panic!("{error}"),
    }
}

struct Old<'a> {
    socket: UdpSocket,
    gate: u16,
    shared: &'a Shared,
    blocks: &'a [Vec<u8>],
    room: isize,
    reported: usize,
    begun: usize,
    offset: usize,
    sent: usize,
    octets: Vec<u8>,
}

impl Old<'_> {
    fn send(&mut self) {
        self.room -= 2 * self.octets.len() as isize + 1024;
        self.sent += 1;
        self.socket.send(&self.octets).expect("a datagram that goes");
    }

    /// Acknowledges the reports that came; answers whether one did.
    fn hear(&mut self, buffer: &mut [u8]) -> bool {
        let mut came = false;
        while let Some(length) = received(&self.socket, buffer) {
            came = true;
            let (mut at, octets) = (0, &buffer[..length]);
            let name = name_of(octets, &mut at);
            if octets[0] == 8 {
                let serial = take(octets, &mut at);
                begun(&mut self.octets, 9, name, &[serial]);
                self.send();
                self.reported += 1;
            }
        }
        came
    }

    /// Whether there is a segment to send, and a session for it.
    fn may(&self, window: usize, pieces: usize) -> bool {
        let answered = self.shared.answered.load(Ordering::Relaxed);
        self.offset > 0
            || self.begun < self.blocks.len()
                && self.begun - self.reported < window
                && (self.begun + 1) * pieces <= answered + window
    }

    fn send_segment(&mut self) {
        let block = &self.blocks[self.begun];
        let from = self.offset;
        let to = block.len().min(from + SEGMENT);
        let is_last = to == block.len();
        let name = (1, self.begun as u64 + 1);
        let (first, length) = (from as u64, (to - from) as u64);
        if is_last {
            begun(&mut self.octets, 3, name, &[1, first, length, 1, 0]);
        } else {
            begun(&mut self.octets, 0, name, &[1, first, length]);
        }
        self.octets.extend_from_slice(&block[from..to]);
        self.offset = if is_last { 0 } else { to };
        self.begun += usize::from(is_last);
        self.send();
    }

    fn run(&mut self, window: usize, pieces: usize, until: Instant) -> bool {
        let mut buffer = vec![0; 65_536];
        let total = self.blocks.len();
        while self.reported < total || self.shared.answered.load(Ordering::Relaxed) < total * pieces {
            let came = self.hear(&mut buffer);
            if self.room <= 0 {
                self.room = MOST_WAITING - waiting(self.gate);
            }
            let mut burst = 64;
            while burst > 0 && self.room > 0 && self.may(window, pieces) {
                self.send_segment();
                burst -= 1;
            }
            if !came && burst == 64 {
                if Instant::now() > until {
                    return false;
                }
                std::thread::yield_now();
            }
        }
        true
    }
}

/// The new node: reports on each block that is whole; answers the blocks, and how many datagrams came.
fn hear_new(socket: &UdpSocket, shared: &Shared) -> (HashMap<u64, Vec<u8>>, usize) {
    let (mut blocks, mut came): (HashMap<u64, Vec<u8>>, usize) = (HashMap::new(), 0);
    let (mut buffer, mut answer) = (vec![0; 65_536], Vec::new());
    while !shared.over.load(Ordering::Relaxed) {
        let Some(length) = received(socket, &mut buffer) else {
            std::thread::yield_now();
            continue;
        };
        came += 1;
        let (mut at, octets) = (0, &buffer[..length]);
        let name = name_of(octets, &mut at);
        if octets[0] > 3 {
            shared.answered.fetch_add(usize::from(octets[0] == 9), Ordering::Relaxed);
            continue;
        }
        let (_, offset, size) = (take(octets, &mut at), take(octets, &mut at), take(octets, &mut at));
        let checkpoint = if octets[0] == 0 { 0 } else { take(octets, &mut at) };
        if octets[0] != 0 {
            take(octets, &mut at);
        }
        let block = blocks.entry(name.1).or_default();
        if offset as usize == block.len() {
            block.extend_from_slice(&octets[at..]);
        }
        let end = offset + size;
        if octets[0] == 3 && block.len() as u64 == end {
            begun(&mut answer, 8, name, &[1, checkpoint, end, 0, 1, 0, end]);
            socket.send(&answer).expect("a report that goes");
        }
    }
    (blocks, came)
}

fn read_blocks(path: &str) -> Vec<Vec<u8>> {
    let octets = fs::read(path).expect("the blocks");
    let (mut blocks, mut at) = (Vec::new(), 0);
    while at < octets.len() {
        let length = u64::from_be_bytes(octets[at..at + 8].try_into().expect("eight octets")) as usize;
        blocks.push(octets[at + 8..at + 8 + length].to_vec());
        at += 8 + length;
    }
    blocks
}

fn main() {
    let words: Vec<String> = std::env::args().skip(1).collect();
    let number = |at: usize| words[at].parse::<usize>().expect("a number");
    let port = |at: usize| number(at) as u16;
    let (blocks, seconds) = (read_blocks(&words[4]), number(8) as u64);
    let shared = Shared { answered: AtomicUsize::new(0), over: AtomicBool::new(false) };
    let new = socket(port(1), port(3));
    let mut old = Old {
        socket: socket(port(0), port(2)),
        gate: port(2),
        shared: &shared,
        blocks: &blocks,
        room: 0,
        reported: 0,
        begun: 0,
        offset: 0,
        sent: 0,
        octets: Vec::new(),
    };
    let began = Instant::now();
    let (whole, took, came, heard) = std::thread::scope(|scope| {
        let hearing = scope.spawn(|| hear_new(&new, &shared));
        let whole = old.run(number(6), number(7), began + Duration::from_secs(seconds));
        let took = began.elapsed();
        std::thread::sleep(Duration::from_millis(50));
        shared.over.store(true, Ordering::Relaxed);
        let (came, heard) = hearing.join().expect("the new node");
        (whole, took, came, heard)
    });
    let mut text = Vec::new();
    for block in came.values() {
        text.extend_from_slice(&(block.len() as u64).to_be_bytes());
        text.extend_from_slice(block);
    }
    fs::write(&words[5], text).expect("what came");
    println!("{} {} {} {} {}", took.as_secs_f64(), old.sent, heard, old.reported, came.len());
    std::process::exit(i32::from(!whole));
}
