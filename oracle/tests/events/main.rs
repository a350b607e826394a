//! Scripts of `call => answer` lines, run on the oracle.

mod edges;
mod lines;
mod source;

use oracle::program::Program;
use oracle::sound;

pub struct Script {
    program: Program,
}

impl Script {
    /// The event program.
    pub fn events() -> Self {
        Self { program: Program::new(false, true) }
    }

    /// With L and Q as large as opening takes them.
    pub fn big() -> Self {
        Self { program: Program::new(true, true) }
    }

    pub fn run(&mut self, line: &str) -> String {
        self.program.answer(line.as_bytes())
    }

    /// Runs `call => answer` lines; the state that they leave is sound.
    pub fn check(&mut self, text: &str) {
        for line in text.lines().map(str::trim).filter(|line| !line.is_empty()) {
            let (call, answer) = line.split_once(" => ").expect("call => answer");
            assert_eq!(self.run(call), answer, "at {call} of\n{text}");
        }
        if let Some(machine) = self.program.machine() {
            sound::assert_sound(machine);
        }
    }
}

pub fn check(text: &str) {
    Script::events().check(text);
}
