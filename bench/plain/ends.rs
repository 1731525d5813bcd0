//! Standard input and output, the limits on an input, and how a run ends early.

use std::io::{self, BufRead, BufReader, Read, StdinLock, StdoutLock, Write};

pub const MOST_OCTETS: usize = 67_108_864;
const MOST_LINES: u64 = 1_000_000;
const LONGEST_LINE: usize = 9_000_000;
const BUFFER: usize = 65_536;

/// Why a run ends before all of the input was answered.
pub enum End {
    Refused,
    Read,
    Write,
    Limit(String),
}

impl End {
    pub fn status(&self) -> u8 {
        match self {
            End::Refused => 1,
            End::Read => 3,
            End::Write => 4,
            End::Limit(_) => 6,
        }
    }

    /// What standard error says of it.
    pub fn message(&self) -> Option<&str> {
        match self {
            End::Refused => None,
            End::Read => Some("a read of standard input failed"),
            End::Write => Some("a write to standard output failed"),
            End::Limit(limit) => Some(limit),
        }
    }

    /// The input has more octets than are read.
    pub fn too_large() -> End {
        End::Limit(format!("the input has more than {MOST_OCTETS} octets"))
    }
}

/// Lines that are gathered, and written once there are enough, or before the next read.
pub struct Output {
    stdout: StdoutLock<'static>,
    pub text: Vec<u8>,
}

impl Output {
    pub fn new() -> Output {
        Output {
            stdout: io::stdout().lock(),
            text: Vec::new(),
        }
    }

    /// Ends a line.
    pub fn end_line(&mut self) -> Result<(), End> {
        self.text.push(b'\n');
        self.flush_if_large()
    }

    pub fn flush_if_large(&mut self) -> Result<(), End> {
        if self.text.len() >= BUFFER {
            self.flush()
        } else {
            Ok(())
        }
    }

    pub fn flush(&mut self) -> Result<(), End> {
        if self.text.is_empty() {
            return Ok(());
        }
        let written = self
            .stdout
            .write_all(&self.text)
            .and_then(|()| self.stdout.flush());
        self.text.clear();
        written.map_err(|_| End::Write)
    }
}

/// Standard input, as lines or as octets. What was answered is written before each read.
pub struct Input {
    reader: BufReader<StdinLock<'static>>,
    read: usize,
    line: Vec<u8>,
    lines: u64,
    octets: Vec<u8>,
    at: usize,
    is_too_large: bool,
}

impl Input {
    pub fn new() -> Input {
        Input {
            reader: BufReader::with_capacity(BUFFER, io::stdin().lock()),
            read: 0,
            line: Vec::new(),
            lines: 0,
            octets: Vec::new(),
            at: 0,
            is_too_large: false,
        }
    }

    /// The next line without its line feed, and its number.
    pub fn line(&mut self, output: &mut Output) -> Result<Option<(&[u8], u64)>, End> {
        if !self.reader.buffer().contains(&b'\n') {
            output.flush()?;
        }
        let most = (MOST_OCTETS - self.read).min(LONGEST_LINE) + 1;
        self.line.clear();
        let mut front = self.reader.by_ref().take(most as u64);
        self.read += front
            .read_until(b'\n', &mut self.line)
            .map_err(|_| End::Read)?;
        if self.read > MOST_OCTETS {
            return Err(End::too_large());
        }
        if self.line.is_empty() {
            return Ok(None);
        }
        self.lines += 1;
        if self.lines > MOST_LINES {
            return Err(End::Limit(format!(
                "the input has more than {MOST_LINES} lines"
            )));
        }
        self.line.pop_if(|last| *last == b'\n');
        if self.line.len() > LONGEST_LINE {
            let line = self.lines;
            return Err(End::Limit(format!(
                "line {line} has more than {LONGEST_LINE} octets"
            )));
        }
        Ok(Some((&self.line, self.lines)))
    }

    /// The octets that were read and not passed.
    pub fn rest(&self) -> &[u8] {
        &self.octets[self.at..]
    }

    /// The place of `rest` in the input.
    pub fn place(&self) -> usize {
        self.read - self.rest().len()
    }

    pub fn pass(&mut self, count: usize) {
        self.at += count;
    }

    /// Whether octets stand past those that are read.
    pub fn is_too_large(&self) -> bool {
        self.is_too_large
    }

    /// Reads until `rest` has so many octets. False where the input ends before.
    pub fn read_until(&mut self, wanted: usize, output: &mut Output) -> Result<bool, End> {
        while self.rest().len() < wanted {
            output.flush()?;
            let chunk = loop {
                match self.reader.fill_buf() {
                    Err(fault) if fault.kind() == io::ErrorKind::Interrupted => {}
                    Err(_) => return Err(End::Read),
                    Ok(_) => break self.reader.buffer(),
                }
            };
            let count = chunk.len().min(MOST_OCTETS - self.read);
            self.is_too_large = count < chunk.len();
            if count == 0 {
                return Ok(false);
            }
            self.octets.drain(..self.at);
            self.at = 0;
            self.octets.extend_from_slice(&chunk[..count]);
            self.reader.consume(count);
            self.read += count;
        }
        Ok(true)
    }
}
