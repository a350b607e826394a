//! Event lines from standard input, answers to standard output.
//!
//!   oracle [--big] [--extra] [--states] [--listings] [--about]
//!
//! --big     every L and Q that opening takes, and lines of any length
//! --extra   the words dump, load, grab and ship (README.md)
//! --states  after each answer a line with the whole state, `-` before the first `ok`
//! --listings  as --states, with the listing of docs/LISTING.md, `;` for a line feed
//! --about   which source was derived, and how; nothing is read

use std::io::{self, BufRead as _, BufWriter, Write as _};
use std::process::ExitCode;

use oracle::program::Program;
use oracle::state::State;
use oracle::{listing, sound, tracker, write};

fn about() {
    println!("source: {} lines, FNV-1a 64 {:016x}", tracker::SOURCE_LINES, tracker::SOURCE_FNV64);
    for step in tracker::DERIVATION {
        println!("- {step}");
    }
}

fn run(mut program: Program, shown: Option<fn(&State) -> String>) -> io::Result<()> {
    let mut input = io::stdin().lock();
    let mut output = BufWriter::new(io::stdout().lock());
    let mut line = Vec::new();
    while input.read_until(b'\n', &mut line)? > 0 {
        if line.last() == Some(&b'\n') {
            line.pop();
        }
        writeln!(output, "{}", program.answer(&line))?;
        let state = program.machine().map(|machine| {
            sound::assert_sound(machine);
            machine.state()
        });
        if let Some(text) = shown {
            writeln!(output, "{}", state.map_or("-".to_owned(), |state| text(&state)))?;
        }
        line.clear();
    }
    output.flush()
}

fn main() -> ExitCode {
    let (mut big, mut extra) = (false, false);
    let mut shown: Option<fn(&State) -> String> = None;
    for argument in std::env::args().skip(1) {
        match argument.as_str() {
            "--big" => big = true,
            "--extra" => extra = true,
            "--states" => shown = Some(write::dump),
            "--listings" => shown = Some(|state| listing::write(state).replace('\n', ";")),
            "--about" => {
                about();
                return ExitCode::SUCCESS;
            }
            other => {
                eprintln!("unknown argument {other}");
                return ExitCode::from(2);
            }
        }
    }
    match run(Program::new(big, extra), shown) {
        Ok(()) => ExitCode::SUCCESS,
        Err(error) => {
            eprintln!("{error}");
            ExitCode::FAILURE
        }
    }
}
