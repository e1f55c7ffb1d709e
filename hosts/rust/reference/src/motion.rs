//! What can be in progress.

#[derive(Clone, Copy)]
pub struct Travel {
    pub from: u32,
    pub goal: u32,
    /// Tenths of an increment a second.
    pub tenths: u32,
    pub ticks: u32,
}

impl Travel {
    pub fn new(from: u32, goal: u32, tenths: u32) -> Travel {
        Travel { from, goal, tenths, ticks: 0 }
    }

    /// A tick: the place it brings the plunger to.
    pub fn step(&mut self) -> u32 {
        self.ticks += 1;
        let way = gone(self.ticks, self.tenths).min(self.from.abs_diff(self.goal).into()) as u32;
        if self.goal < self.from {
            self.from - way
        } else {
            self.from + way
        }
    }
}

/// "after k ticks at s tenths of an increment a second, the distance gone is k × s / 1000 rounded down"
pub fn gone(ticks: u32, tenths: u32) -> u64 {
    u64::from(ticks) * u64::from(tenths) / 1000
}

/// "a reading outside -32767 to 32767"
pub fn too_much(reading: i32) -> bool {
    !(-32_767..=32_767).contains(&reading)
}

#[derive(Clone, Copy)]
pub struct Search {
    pub from: u32,
    pub zero: i32,
    pub ticks: u32,
    pub count: u32,
}

impl Search {
    pub fn new(from: u32, zero: i32) -> Search {
        Search { from, zero, ticks: 0, count: 0 }
    }
}

#[derive(Clone, Copy)]
pub enum Activity {
    Between,
    Delaying { left: u32 },
    Initialising(Travel),
    Moving(Travel),
    Approaching(Travel, i32),
    Searching(Search),
    Ejecting,
}
