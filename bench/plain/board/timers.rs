//! The timers of all processors, with a table of the earliest deadline: a tree whose nodes have four
//! children each.

pub const ENABLE: u64 = 1;
pub const DIRECT: u64 = 1 << 12;

const PERIODIC: u64 = 1 << 1;
const KEPT: u64 = 0xf1ff3;
const CATCHES_UP: u64 = 8;

/// A key is the deadline minus one, since no deadline is 0. No tick reaches 2^64 or later.
const NEVER: u64 = u64::MAX;

#[derive(Clone, Copy, Default)]
struct Timer {
    config: u64,
    count: u64,
    /// If there is a deadline, its low 64 bits.
    due: u64,
    /// Whether the deadline is 2^64 or later.
    is_beyond: bool,
    is_running: bool,
    /// Whether its processor is suspended.
    is_held: bool,
}

pub struct Expiry {
    pub signal: u64,
    pub skipped: u64,
}

impl Timer {
    fn key(&self) -> u64 {
        if self.is_running && !self.is_beyond && !self.is_held {
            self.due - 1
        } else {
            NEVER
        }
    }

    fn start(&mut self, moment: u64) {
        self.is_running = self.config & ENABLE != 0 && self.count != 0;
        let from = if self.config & PERIODIC == 0 {
            0
        } else {
            moment
        };
        (self.due, self.is_beyond) = from.overflowing_add(self.count);
    }

    fn expire(&mut self, moment: u64) -> Expiry {
        let signal = self.due;
        if self.config & PERIODIC == 0 {
            self.config &= !ENABLE;
            self.is_running = false;
            return Expiry { signal, skipped: 0 };
        }
        let late = moment - signal;
        // Deadlines are rarely late enough to be skipped; only then is the division needed.
        let skipped = if late / (CATCHES_UP + 1) < self.count {
            0
        } else {
            late / self.count - CATCHES_UP
        };
        (self.due, self.is_beyond) = signal.overflowing_add(self.count * (skipped + 1));
        Expiry { signal, skipped }
    }
}

/// A key and the number of its timer, or its place among some. The number has four bytes: it is written
/// and read as such, so that the read does not wait for the write.
type Least = (u64, u32);

const NOTHING: Least = (NEVER, 0);

/// The least keys of some nodes.
struct Row<const N: usize> {
    keys: [u64; N],
    numbers: [u32; N],
}

impl<const N: usize> Row<N> {
    fn new() -> Row<N> {
        Row {
            keys: [NEVER; N],
            numbers: [0; N],
        }
    }

    #[inline(always)]
    fn set(&mut self, at: usize, (key, number): Least) {
        self.keys[at % N] = key;
        self.numbers[at % N] = number;
    }

    /// The key at a place, with the timer's number.
    #[inline(always)]
    fn numbered(&self, (key, place): Least) -> Least {
        (key, self.numbers[place as usize % N])
    }

    /// The least of the four keys from `at` on, a multiple of four, with its place.
    #[inline(always)]
    fn least_of_four(&self, at: usize) -> Least {
        let keys = &self.keys[at & (N - 4)..][..4];
        let (key, place) = first_of([keys[0], keys[1], keys[2], keys[3]]);
        (key, at as u32 | place)
    }
}

/// The least of four keys, with its place.
#[inline(always)]
fn first_of([first, second, third, fourth]: [u64; 4]) -> Least {
    lesser(
        lesser((first, 0), (second, 1)),
        lesser((third, 2), (fourth, 3)),
    )
}

/// As large as the largest board requires, so that no index has to be checked.
pub struct Timers {
    processors: u8,
    timers: [Timer; 256],
    /// The keys of the four timers of each processor, except those set aside.
    keys: [[u64; 4]; 64],
    /// The least key of each processor.
    least: Row<64>,
    /// With more than one processor, the least key of each four, and with more than eight, of each
    /// sixteen.
    fours: Row<16>,
    sixteens: Row<4>,
    /// The least key of all.
    first: Least,
    /// Which timers were tried in this tick and are still due.
    aside: Vec<u8>,
}

impl Timers {
    pub fn new(processors: u8) -> Timers {
        Timers {
            processors,
            timers: [Timer::default(); 256],
            keys: [[NEVER; 4]; 64],
            least: Row::new(),
            fours: Row::new(),
            sixteens: Row::new(),
            first: NOTHING,
            aside: Vec::with_capacity(4 * usize::from(processors)),
        }
    }

    pub fn earliest(&self) -> Option<(u128, u8)> {
        let (key, number) = self.first;
        if key != NEVER {
            return Some((u128::from(key) + 1, number as u8));
        }
        let beyond = self.timers.iter().enumerate();
        beyond
            .filter(|(_, timer)| timer.is_running && timer.is_beyond && !timer.is_held)
            .map(|(number, timer)| ((1 << 64) + u128::from(timer.due), number as u8))
            .min()
    }

    pub fn config(&self, number: u8) -> u64 {
        self.timers[number as usize].config
    }

    pub fn is_due(&self, number: u8, moment: u64) -> bool {
        self.timers[number as usize].key() < moment
    }

    pub fn write_config(&mut self, number: u8, value: u64, moment: u64) {
        let timer = &mut self.timers[number as usize];
        let config = value & KEPT;
        let is_mute = if config & DIRECT != 0 {
            vector_in(config) < 16
        } else {
            source_in(config) == 0
        };
        timer.config = if is_mute { config & !ENABLE } else { config };
        timer.start(moment);
    }

    pub fn write_count(&mut self, number: u8, value: u64, moment: u64) {
        let timer = &mut self.timers[number as usize];
        timer.count = value;
        if value == 0 {
            timer.config &= !ENABLE;
        }
        timer.start(moment);
    }

    pub fn expire(&mut self, number: u8, moment: u64) -> Expiry {
        self.timers[number as usize].expire(moment)
    }

    /// The first of the timers that are due and not set aside.
    pub fn first_due(&self, moment: u64) -> Option<u8> {
        let (key, number) = self.first;
        (key < moment).then_some(number as u8)
    }

    /// Returns a timer that was tried in a tick to the table, unless it is still due.
    #[inline(always)]
    pub fn settle(&mut self, number: u8, moment: u64) {
        let key = self.timers[number as usize].key();
        if key < moment {
            self.aside.push(number);
            self.enter(number, NEVER);
        } else {
            self.enter(number, key);
        }
    }

    /// Returns the timers that were set aside to the table.
    pub fn bring_back(&mut self) {
        while let Some(number) = self.aside.pop() {
            self.update(number);
        }
    }

    /// A processor is suspended or resumed.
    pub fn hold(&mut self, vp: u8, is_held: bool) {
        for number in 4 * vp..=4 * vp + 3 {
            self.timers[number as usize].is_held = is_held;
            self.update(number);
        }
    }

    /// Resets the timers of a processor.
    pub fn reset(&mut self, vp: u8) {
        for number in 4 * vp..=4 * vp + 3 {
            self.timers[number as usize] = Timer::default();
            self.update(number);
        }
    }

    /// A timer was written.
    #[inline(never)]
    pub fn update(&mut self, number: u8) {
        self.enter(number, self.timers[number as usize].key());
    }

    #[inline(always)]
    fn enter(&mut self, number: u8, key: u64) {
        let (vp, index) = (number as usize / 4, number as usize % 4);
        self.keys[vp][index] = key;
        let (key, place) = first_of(self.keys[vp]);
        self.least.set(vp, (key, 4 * vp as u32 | place));
        if self.processors == 1 {
            self.first = (key, place);
            return;
        }
        let four = self.least.least_of_four(vp & !3);
        self.fours.set(vp / 4, self.least.numbered(four));
        self.first = if self.processors <= 8 {
            let [first, second, ..] = self.fours.keys;
            self.fours.numbered(lesser((first, 0), (second, 1)))
        } else {
            let sixteen = self.fours.least_of_four(vp / 4 & !3);
            self.sixteens.set(vp / 16, self.fours.numbered(sixteen));
            self.sixteens.numbered(self.sixteens.least_of_four(0))
        };
    }
}

/// Of equal keys the former is less: it has the lower number.
#[inline(always)]
fn lesser(former: Least, latter: Least) -> Least {
    if latter.0 < former.0 { latter } else { former }
}

pub fn vector_in(config: u64) -> u8 {
    (config >> 4) as u8
}

pub fn source_in(config: u64) -> u8 {
    (config >> 16) as u8 & 15
}
