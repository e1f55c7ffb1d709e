//! The settings, with their defaults: 01's table and 004's section 5.8.

#[derive(Clone, Copy)]
pub struct Settings {
    /// V, v and c, in tenths of an increment a second.
    pub top: u32,
    pub start: u32,
    pub cutoff: u32,
    pub slopes: [u32; 2],
    pub backlash: u32,
    /// C of 01: millionths of an increment that a nanolitre makes.
    pub rate: u32,
    /// p0 to p6.
    pub search: [u32; 7],
}

impl Default for Settings {
    fn default() -> Settings {
        Settings {
            top: 80_000,
            start: 10_000,
            cutoff: 80_000,
            slopes: [20, 20],
            backlash: 0,
            rate: 40_000,
            search: SEARCH.map(|row| row.2),
        }
    }
}

/// Of each p: least, most, default.
pub const SEARCH: [(u32, u32, u32); 7] =
    [(1, 1000, 15), (1, 100, 5), (0, 44_000, 0), (100, 1000, 150), (500, 44_000, 44_000), (0, 1, 0), (1, 20, 20)];

impl Settings {
    pub fn threshold(&self) -> i64 {
        self.search[0].into()
    }
    pub fn duration(&self) -> u32 {
        self.search[1]
    }
    pub fn place(&self) -> u32 {
        self.search[2]
    }
    pub fn search_tenths(&self) -> u32 {
        10 * self.search[3]
    }
    pub fn most(&self) -> u32 {
        self.search[4]
    }
    pub fn dispenses(&self) -> bool {
        self.search[5] == 1
    }
}
