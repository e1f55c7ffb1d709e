//! The buffer: its state, its commands, and how far a run has come in them.
use crate::commands::{loops_right, Command};
use crate::motion::Activity;

#[derive(Clone, Copy)]
pub enum State {
    Empty,
    Stored,
    Running(Activity),
    Stopped,
    Done,
}

/// A loop that was entered: where its body begins, and the passes that are done.
#[derive(Clone, Copy)]
struct Entered {
    begin: usize,
    passes: u32,
}

#[derive(Clone)]
pub struct Buffer {
    pub state: State,
    commands: Vec<Command>,
    length: usize,
    next: usize,
    loops: Vec<Entered>,
}

const MOST: usize = 256;

impl Buffer {
    pub fn new() -> Buffer {
        Buffer { state: State::Empty, commands: Vec::new(), length: 0, next: 0, loops: Vec::new() }
    }

    pub fn ready(&self) -> bool {
        !matches!(self.state, State::Running(_))
    }

    fn delaying(&self) -> bool {
        matches!(self.state, State::Running(Activity::Delaying { .. }))
    }

    /// "text waiting, running or stopped"
    pub fn waiting(&self) -> bool {
        !matches!(self.state, State::Empty | State::Done)
    }

    pub fn erase(&mut self) {
        *self = Buffer::new();
    }

    fn begin(&mut self) {
        self.next = 0;
        self.loops.clear();
        self.state = State::Running(Activity::Between);
    }

    /// A string: the number it is refused with, or Ok.
    pub fn load(&mut self, commands: Vec<Command>, length: usize, runs: bool) -> Result<(), u8> {
        let free = self.ready() || (runs && self.delaying());
        if !free {
            return Err(15);
        }
        let joins = matches!(self.state, State::Stored);
        let before = if joins { self.commands.clone() } else { Vec::new() };
        let length = length + if joins { self.length } else { 0 };
        if length > MOST {
            return Err(15);
        }
        let joined = [before, commands].concat();
        if runs && !loops_right(joined.iter()) {
            return Err(3);
        }
        self.commands = joined;
        self.length = length;
        self.next = 0;
        self.loops.clear();
        self.state = State::Stored;
        if runs {
            self.begin();
        }
        Ok(())
    }

    /// R by itself.
    pub fn run(&mut self) -> Result<(), u8> {
        match self.state {
            State::Empty | State::Done => return Err(14),
            State::Stored if !loops_right(self.commands.iter()) => return Err(3),
            State::Stored => self.begin(),
            State::Stopped => self.state = State::Running(Activity::Between),
            State::Running(Activity::Delaying { .. }) => self.end_command(),
            State::Running(_) => return Err(15),
        }
        Ok(())
    }

    /// X.
    pub fn repeat(&mut self) -> Result<(), u8> {
        match self.state {
            State::Done => self.begin(),
            _ if self.ready() || self.delaying() => return Err(14),
            _ => return Err(15),
        }
        Ok(())
    }

    /// C.
    pub fn clear(&mut self) -> Result<(), u8> {
        if !self.ready() {
            return Err(15);
        }
        self.erase();
        Ok(())
    }

    /// What T makes of a run, once what was in progress is dropped.
    pub fn halt(&mut self) {
        if self.next < self.commands.len() {
            self.state = State::Stopped;
        } else {
            self.erase();
        }
    }

    /// The command that a tick takes.
    pub fn take(&mut self) -> Command {
        self.next += 1;
        self.commands[self.next - 1]
    }

    /// "The end of the last command makes Done in the same tick."
    pub fn end_command(&mut self) {
        self.state = if self.next < self.commands.len() { State::Running(Activity::Between) } else { State::Done };
    }

    pub fn enter(&mut self) {
        self.loops.push(Entered { begin: self.next, passes: 0 });
    }

    /// "G n gives n passes in all .. 0 is endless"
    pub fn close(&mut self, passes: u32) {
        let innermost = self.loops.last_mut().expect("loops are checked before a run");
        innermost.passes = innermost.passes.saturating_add(1);
        if passes == 0 || innermost.passes < passes {
            self.next = innermost.begin;
        } else {
            self.loops.pop();
        }
    }
}
