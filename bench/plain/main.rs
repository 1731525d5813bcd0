//! The same commands as the proved program's, written plainly: `bench/all.py` holds that one
//! against this one.
//!
//! Nothing is proved here and no crate is used but std. It is written from the pages of docs/ as
//! one would write it straight away, and neither tuned nor made slow. It answers the commands of
//! `Command` with the same lines and the same status. It has no hints; and a standard stream that
//! was closed before it began is /dev/null to it, since std opens one that is closed.

mod bundle6;
mod bundle7;
mod bundles;
mod crc;
mod decimal;
mod endpoint;
mod ends;
mod engine;
mod fields;
mod fragments;
mod gate;
mod hex;
mod make;
mod node;
mod private;
mod receive;
mod receiver;
mod record;
mod report;
mod segment;
mod sender;
mod session;
mod show;
mod spans;
mod world;

use ends::{End, Input, Output};
use std::process::ExitCode;

/// What the words ask for.
enum Command {
    Receive { keep_going: bool },
    Check,
    Show,
    Convert { keep_going: bool },
    Cut { size: usize, keep_going: bool },
    Join { keep_going: bool },
    Node { own: u64, peer: u64 },
    World,
    Make { seed: u64, count: u64 },
}

const ENGINES: std::ops::RangeInclusive<u64> = 1..=4_294_967_295;

/// A number of a range, in decimal without zeros before it.
fn number(word: &str, range: std::ops::RangeInclusive<u64>) -> Option<u64> {
    decimal::read(word.as_bytes()).filter(|number| range.contains(number))
}

/// The command that the words name, if they name one.
fn command_of(words: &[&str]) -> Option<Command> {
    let (words, keep_going) = match words {
        [words @ .., "--keep-going"] => (words, true),
        words => (words, false),
    };
    Some(match words {
        ["receive"] => Command::Receive { keep_going },
        ["show"] => Command::Show,
        ["convert"] => Command::Convert { keep_going },
        ["cut", size] => {
            let size = number(size, 1..=segment::BLOCK_MAX)? as usize;
            Command::Cut { size, keep_going }
        }
        ["join"] => Command::Join { keep_going },
        ["node", own, peer] if !keep_going => {
            let (own, peer) = (number(own, ENGINES)?, number(peer, ENGINES)?);
            if own == peer {
                return None;
            }
            Command::Node { own, peer }
        }
        ["world"] if !keep_going => Command::World,
        ["make", seed, count] if !keep_going => {
            let (seed, count) = (number(seed, 0..=u64::MAX)?, number(count, 1..=1000)?);
            Command::Make { seed, count }
        }
        ["check"] if !keep_going => Command::Check,
        _ => return None,
    })
}

fn run(command: Command, output: &mut Output) -> Result<(), End> {
    let mut input = Input::new();
    match command {
        Command::Receive { keep_going } => receive::run(&mut input, output, keep_going),
        Command::Check => bundles::check(&mut input, output),
        Command::Show => bundles::show(&mut input, output),
        Command::Convert { keep_going } => bundles::convert(&mut input, output, keep_going),
        Command::Cut { size, keep_going } => bundles::cut(&mut input, output, keep_going, size),
        Command::Join { keep_going } => bundles::join(&mut input, output, keep_going),
        Command::Node { own, peer } => node::run(&mut input, output, own, peer),
        Command::World => world::run(&mut input, output),
        Command::Make { seed, count } => make::run(output, seed, count),
    }
}

fn main() -> ExitCode {
    let words: Vec<String> = std::env::args().skip(1).collect();
    let words: Vec<&str> = words.iter().map(String::as_str).collect();
    let Some(command) = command_of(&words) else {
        eprintln!("fimdahol: these words name no command");
        return ExitCode::from(2);
    };
    let mut output = Output::new();
    let ended = run(command, &mut output);
    let ended = output.flush().and(ended);
    match ended {
        Ok(()) => ExitCode::SUCCESS,
        Err(end) => {
            if let Some(message) = end.message() {
                eprintln!("fimdahol: {message}");
            }
            ExitCode::from(end.status())
        }
    }
}
