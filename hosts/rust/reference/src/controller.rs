//! The second controller: frames, ticks and the host's calls.
use crate::answers;
use crate::buffer::{Buffer, State};
use crate::calls::{Calls, Refusal, Told};
use crate::commands::{Command, Kind, Volume};
use crate::motion::{gone, too_much, Activity, Search, Travel};
use crate::requests::{request, Request};
use crate::settings::Settings;
use crate::wire::{framed, Frame, Receiver};

const INCREMENT: u64 = 1_000_000;
const TRAVEL: u32 = 44_000;

/// The second controller, for tests only.
#[derive(Clone)]
pub struct Controller {
    pub(crate) address: u8,
    receiver: Receiver,
    pub(crate) buffer: Buffer,
    pub(crate) settings: Settings,
    pub(crate) plunger: u32,
    exact: u64,
    initialised: bool,
    pub(crate) tip: bool,
    pub(crate) error: u8,
    pub(crate) column: u32,
}

/// A command or a tick of one that is refused in the run.
type Refused<T> = Result<T, u8>;

impl Controller {
    /// What a complete frame to us does, and its answer.
    fn act(&mut self, frame: &Frame) -> Vec<u8> {
        if frame.data.len() > 320 {
            self.judge(Err(15));
            return self.status(self.error, b"");
        }
        let data: Vec<u8> = frame.data.iter().copied().filter(|&b| b != b' ').collect();
        match request(&data) {
            Ok(Request::Report(letter, number)) => match number.and_then(|n| answers::report(self, letter, n)) {
                Some(told) => self.status(self.error, told.as_bytes()),
                None => self.status(3, b""),
            },
            Ok(wanted) => {
                let verdict = self.obey(wanted);
                self.judge(verdict);
                self.status(self.error, b"")
            }
            Err(wrong) => {
                self.error = wrong.number;
                self.column = wrong.column;
                self.status(self.error, b"")
            }
        }
    }

    /// After a frame that is no report: the last error is its number, and no character is to blame.
    fn judge(&mut self, verdict: Refused<()>) {
        self.error = verdict.err().unwrap_or(0);
        self.column = 0;
    }

    fn status(&self, error: u8, data: &[u8]) -> Vec<u8> {
        let ready = if self.buffer.ready() { 0x60 } else { 0x40 };
        framed(self.receiver.is_oem(), ready | error, data)
    }

    fn obey(&mut self, wanted: Request) -> Refused<()> {
        match wanted {
            Request::Report(..) => Ok(()),
            Request::Run => self.buffer.run(),
            Request::Stop => {
                self.halt();
                Ok(())
            }
            Request::Repeat => self.buffer.repeat(),
            Request::Clear => self.buffer.clear(),
            Request::Reset => {
                self.reset();
                Ok(())
            }
            Request::String { commands, length, runs } => self.buffer.load(commands, length, runs),
        }
    }

    fn reset(&mut self) {
        self.buffer.erase();
        self.settings = Settings::default();
        self.initialised = false;
        self.start_here();
    }

    /// The exact position is the plunger's from here on.
    fn start_here(&mut self) {
        self.exact = u64::from(self.plunger) * INCREMENT;
    }

    /// T.
    fn halt(&mut self) {
        if let State::Running(activity) = self.buffer.state {
            match activity {
                Activity::Initialising(_) | Activity::Moving(_) | Activity::Approaching(..) | Activity::Searching(_) => self.start_here(),
                Activity::Between | Activity::Delaying { .. } | Activity::Ejecting => {}
            }
            self.buffer.halt();
        }
    }

    /// One tick.
    fn step(&mut self, tip: bool, reading: i32) -> Told {
        self.tip = tip;
        let mut eject = false;
        let done = match self.buffer.state {
            State::Running(Activity::Between) => self.take(tip, reading, &mut eject),
            State::Running(activity) => self.go_on(activity, tip, reading),
            _ => Ok(()),
        };
        match done {
            Ok(()) => Told { failure: 0, eject },
            Err(number) => {
                self.judge(Err(number));
                self.buffer.erase();
                Told { failure: number, eject }
            }
        }
    }

    /// What is in progress, a tick on.
    fn go_on(&mut self, activity: Activity, tip: bool, reading: i32) -> Refused<()> {
        match activity {
            Activity::Between => {}
            Activity::Delaying { left: 1 } => self.buffer.end_command(),
            Activity::Delaying { left } => self.now(Activity::Delaying { left: left - 1 }),
            Activity::Initialising(mut travel) => {
                self.plunger = travel.step();
                if self.plunger == travel.goal {
                    self.initialised = true;
                    self.buffer.end_command();
                } else {
                    self.now(Activity::Initialising(travel));
                }
            }
            Activity::Moving(mut travel) => {
                self.plunger = travel.step();
                if self.plunger == travel.goal {
                    self.buffer.end_command();
                } else {
                    self.now(Activity::Moving(travel));
                }
            }
            Activity::Approaching(mut travel, zero) => {
                self.plunger = travel.step();
                if too_much(reading) {
                    self.start_here();
                    return Err(5);
                }
                self.now(if self.plunger == travel.goal {
                    Activity::Searching(Search::new(self.plunger, zero))
                } else {
                    Activity::Approaching(travel, zero)
                });
            }
            Activity::Searching(search) => return self.search(search, reading),
            Activity::Ejecting if tip => return Err(8),
            Activity::Ejecting => self.buffer.end_command(),
        }
        Ok(())
    }

    fn now(&mut self, activity: Activity) {
        self.buffer.state = State::Running(activity);
    }

    /// A tick of a search: the plunger moves, then the reading is judged.
    fn search(&mut self, mut search: Search, reading: i32) -> Refused<()> {
        search.ticks += 1;
        let room = if self.settings.dispenses() { search.from } else { TRAVEL - search.from };
        let end = room.min(self.settings.most());
        let way = gone(search.ticks, self.settings.search_tenths()).min(end.into()) as u32;
        self.plunger = if self.settings.dispenses() { search.from - way } else { search.from + way };
        if too_much(reading) {
            self.start_here();
            return Err(5);
        }
        let far = (i64::from(reading) - i64::from(search.zero)).abs() > self.settings.threshold();
        search.count = if far { search.count + 1 } else { 0 };
        if 10 * search.count >= self.settings.duration() {
            self.start_here();
            self.buffer.end_command();
        } else if way == end {
            self.start_here();
            return Err(6);
        } else {
            self.now(Activity::Searching(search));
        }
        Ok(())
    }

    /// A tick between commands takes one.
    fn take(&mut self, tip: bool, reading: i32, eject: &mut bool) -> Refused<()> {
        let command = self.buffer.take();
        let begun = match command {
            Command::Initialise { increments_a_second } => self.initialise(increments_a_second),
            Command::Move(kind, volume) => self.displace(kind, volume)?,
            Command::Delay { milliseconds } => delay(milliseconds),
            Command::Eject { without_asking } => {
                if !without_asking && !tip {
                    return Err(10);
                }
                if without_asking && !self.initialised {
                    return Err(7);
                }
                *eject = true;
                Some(Activity::Ejecting)
            }
            Command::Find { from_here } => self.find(from_here, reading)?,
            Command::Open => {
                self.buffer.enter();
                None
            }
            Command::Close { passes } => {
                self.buffer.close(passes);
                None
            }
            setting => {
                self.set(setting);
                None
            }
        };
        match begun {
            Some(activity) => self.now(activity),
            None => self.buffer.end_command(),
        }
        Ok(())
    }

    fn set(&mut self, command: Command) {
        match command {
            Command::Top { tenths } => self.settings.top = tenths,
            Command::Start { tenths } => self.settings.start = tenths,
            Command::Cutoff { tenths } => self.settings.cutoff = tenths,
            Command::Slopes(slopes) => self.settings.slopes = slopes,
            Command::Backlash(n) => self.settings.backlash = n,
            Command::Rate(rate) => self.settings.rate = rate,
            Command::Search { which, value } => self.settings.search[which] = value,
            _ => unreachable!("only settings are set"),
        }
    }

    /// W: nothing is begun where there is no way to go.
    fn initialise(&mut self, increments_a_second: u32) -> Option<Activity> {
        self.exact = 0;
        self.initialised = self.plunger == 0;
        (!self.initialised).then(|| Activity::Initialising(Travel::new(self.plunger, 0, 10 * increments_a_second)))
    }

    /// A, P and D.
    fn displace(&mut self, kind: Kind, volume: Volume) -> Refused<Option<Activity>> {
        if !self.initialised {
            return Err(7);
        }
        if self.settings.start > self.settings.top {
            return Err(3);
        }
        let size = match volume {
            Volume::Increments(n) => u64::from(n) * INCREMENT,
            Volume::Nanolitres(n) => u64::from(n) * u64::from(self.settings.rate),
        };
        let exact = match kind {
            Kind::To => Some(size),
            Kind::Aspirate => Some(self.exact + size),
            Kind::Dispense => self.exact.checked_sub(size),
        };
        let exact = exact.filter(|&exact| exact <= u64::from(TRAVEL) * INCREMENT).ok_or(3)?;
        self.exact = exact;
        let goal = ((exact + INCREMENT / 2) / INCREMENT) as u32;
        Ok((goal != self.plunger).then(|| Activity::Moving(Travel::new(self.plunger, goal, self.settings.top))))
    }

    /// B.
    fn find(&mut self, from_here: bool, reading: i32) -> Refused<Option<Activity>> {
        if !self.initialised {
            return Err(7);
        }
        if self.settings.dispenses() && self.settings.place() == 0 {
            return Err(3);
        }
        if too_much(reading) {
            return Err(5);
        }
        if from_here {
            return Ok(Some(Activity::Searching(Search::new(self.plunger, reading))));
        }
        let place = self.settings.place();
        self.exact = u64::from(place) * INCREMENT;
        Ok(Some(if place == self.plunger {
            Activity::Searching(Search::new(place, reading))
        } else {
            Activity::Approaching(Travel::new(self.plunger, place, self.settings.top), reading)
        }))
    }

    /// "0 goal (the plunger when none pending)"
    pub(crate) fn goal(&self) -> u32 {
        match self.buffer.state {
            State::Running(Activity::Initialising(travel) | Activity::Moving(travel) | Activity::Approaching(travel, _)) => travel.goal,
            _ => self.plunger,
        }
    }
}

/// "M below 10 is 0; else the nearest 10 ms, 5 upwards."
fn delay(milliseconds: u32) -> Option<Activity> {
    (milliseconds >= 10).then(|| Activity::Delaying { left: (milliseconds + 5) / 10 })
}

impl Calls for Controller {
    fn make(oem: bool, address: u32) -> Result<Controller, Refusal> {
        if !(1..=9).contains(&address) {
            return Err(Refusal::S2);
        }
        Ok(Controller {
            address: b'0' + address as u8,
            receiver: Receiver::new(oem),
            buffer: Buffer::new(),
            settings: Settings::default(),
            plunger: 0,
            exact: 0,
            initialised: false,
            tip: false,
            error: 0,
            column: 0,
        })
    }

    fn byte(&mut self, b: u8, buffer: &mut [u8]) -> Result<usize, Refusal> {
        if buffer.len() < 32 {
            return Err(Refusal::S1);
        }
        match self.receiver.feed(b) {
            Some(frame) if frame.address == self.address => {
                let answer = self.act(&frame);
                buffer[..answer.len()].copy_from_slice(&answer);
                Ok(answer.len())
            }
            _ => Ok(0),
        }
    }

    fn listen(&mut self, bytes: &[u8]) -> Result<usize, Refusal> {
        for (taken, &b) in bytes.iter().enumerate() {
            if self.receiver.completes(b) {
                return Ok(taken);
            }
            self.receiver.feed(b);
        }
        Ok(bytes.len())
    }

    fn tick(&mut self, tip: bool, reading: i32) -> Result<Told, Refusal> {
        Ok(self.step(tip, reading))
    }

    fn advance(&mut self, n: u32, tip: bool, reading: i32) -> Result<Told, Refusal> {
        let mut told = Told::default();
        for _ in 0..n {
            let one = self.step(tip, reading);
            told = Told { failure: told.failure.max(one.failure), eject: told.eject || one.eject };
            if self.buffer.ready() {
                break;
            }
        }
        Ok(told)
    }

    fn run(&mut self, n: u32, tip: bool, reading: i32) -> Result<(u32, Told), Refusal> {
        if n > 60_000 {
            return Err(Refusal::S3);
        }
        let mut told = Told::default();
        let mut used = 0;
        while used < n && !self.buffer.ready() {
            let one = self.step(tip, reading);
            told = Told { failure: told.failure.max(one.failure), eject: told.eject || one.eject };
            used += 1;
        }
        Ok((used, told))
    }

    fn stop(&mut self) -> Result<(), Refusal> {
        self.halt();
        Ok(())
    }

    fn plunger(&self) -> Result<u32, Refusal> {
        Ok(self.plunger)
    }

    fn exact(&self) -> Result<u64, Refusal> {
        Ok(self.exact)
    }

    fn ready(&self) -> Result<bool, Refusal> {
        Ok(self.buffer.ready())
    }

    fn last_error(&self) -> Result<u8, Refusal> {
        Ok(self.error)
    }
}
