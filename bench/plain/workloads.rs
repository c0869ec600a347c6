//! The workloads, as bench_board has them.

use crate::board::Board;
use crate::board::events::{
    EOI, EOM, Event, Notices, SCONTROL, SIEFP, SIMP, SINT0, STIMER0_CONFIG, Shape,
};

pub const NAMES: [&str; 7] = [
    "interrupts",
    "messages",
    "pages",
    "flags",
    "timers",
    "timer-messages",
    "mixed",
];

const TIMERS: u8 = 4;
const PAGES: u8 = 64;
const SPARSE_PAGES: u16 = 256;
const FEW_PAGES: u8 = 4;
const OVERLAY_PAGE: u8 = 1;
const FLAGS: u16 = 64;
const SOURCE: u8 = 2;
const POST_SOURCE: u8 = 3;
const FLAG_SOURCE: u8 = 4;
const DENSE_TICKS: u64 = 64;
const DENSE_STEP: u64 = 50;
const MESSAGE_STEP: u64 = 125;

/// How many processors a board has: 1 or 8, and then it holds its guest's pages, or 64, and then it is
/// sparse.
#[derive(Clone, Copy)]
pub struct Size(u8);

impl Size {
    pub fn of(word: &str) -> Option<Size> {
        match word {
            "1" => Some(Size(1)),
            "8" => Some(Size(8)),
            "64" => Some(Size(64)),
            _ => None,
        }
    }

    fn is_sparse(self) -> bool {
        self.0 == 64
    }

    /// How often a round goes over the processors.
    fn turns(self) -> u8 {
        if self.0 == 1 { 8 } else { 1 }
    }

    /// How many processors get posts and signals.
    fn targets(self) -> u8 {
        if self.is_sparse() { 64 } else { 1 }
    }

    /// How many message ports each of them has.
    fn ports_of_target(self) -> u8 {
        if self.is_sparse() { 4 } else { 16 }
    }

    /// How often each overlay moves in a round.
    fn moves(self) -> u8 {
        match self.0 {
            1 => 64,
            8 => 8,
            _ => 4,
        }
    }
}

/// A board's sizes, the untimed events, and the timed ones.
#[derive(Default)]
pub struct Scene {
    processors: u8,
    is_sparse: bool,
    pages: u16,
    setup: Vec<Event<'static>>,
    pub round: Vec<Event<'static>>,
    pub span: u64,
}

impl Scene {
    pub fn of(name: &str, size: Size) -> Option<Scene> {
        let scene = match name {
            "interrupts" => interrupts(size),
            "messages" => messages(size),
            "pages" => pages(size),
            "flags" => flags(size),
            "timers" => timers(size),
            "timer-messages" => timer_messages(size),
            "mixed" => mixed(size),
            _ => return None,
        };
        Some(Scene {
            is_sparse: size.is_sparse(),
            ..scene
        })
    }

    pub fn open(&self, notices: &mut Notices) -> Board {
        let mut board = if self.is_sparse {
            Board::open_sparse(self.processors, 0)
        } else {
            Board::open(self.processors, self.pages as u8, 0)
        };
        for event in &self.setup {
            board.perform(event, notices);
        }
        board
    }

    /// How many pages in the caller's memory the events use.
    pub fn elsewhere(&self) -> u16 {
        if self.is_sparse { self.pages } else { 0 }
    }
}

fn write(vp: u8, register: u32, value: u64) -> Event<'static> {
    Event::Write {
        vp,
        register,
        value,
    }
}

fn store(address: u64, bytes: [u8; 8], length: u8) -> Event<'static> {
    Event::Store {
        address,
        word: u64::from_le_bytes(bytes),
        length,
    }
}

fn slot_address(page: u8, sint: u8) -> u64 {
    u64::from(page) * 4096 + u64::from(sint) * 256
}

fn overlay_at(page: u8) -> u64 {
    u64::from(page) * 4096 + 1
}

fn period(processors: u8, vp: u8, index: u8) -> u64 {
    125 * u64::from(processors) + 10 * u64::from(vp) + u64::from(index)
}

fn timer(processors: u8, vp: u8, index: u8, config: u64) -> [Event<'static>; 2] {
    let register = STIMER0_CONFIG + 2 * u32::from(index);
    [
        write(vp, register + 1, period(processors, vp, index)),
        write(vp, register, config),
    ]
}

fn interrupts(size: Size) -> Scene {
    let processors = size.0;
    let mut round = Vec::new();
    for _ in 0..size.turns() {
        for vp in 0..processors {
            round.push(Event::Assert { vp, vector: 0x60 });
            round.push(Event::Take { vp });
            round.push(write(vp, EOI, 0));
        }
    }
    Scene {
        processors,
        pages: 1,
        round,
        ..Scene::default()
    }
}

fn messages(size: Size) -> Scene {
    let processors = size.targets();
    let each = size.ports_of_target();
    let mut setup = Vec::new();
    let mut round = Vec::new();
    for vp in 0..processors {
        let page = OVERLAY_PAGE + vp;
        setup.push(write(vp, SCONTROL, 1));
        setup.push(write(vp, SIMP, overlay_at(page)));
        for sint in 0..each {
            let port = each * vp + sint;
            setup.push(write(vp, SINT0 + u32::from(sint), u64::from(0x40 + sint)));
            setup.push(open_port(port, vp, sint, Shape::Messages { buffers: 2 }));
            round.push(Event::Post {
                port,
                kind: 1,
                payload: &[0x0a],
            });
            round.push(store(slot_address(page, sint), [0; 8], 4));
            round.push(write(vp, EOM, 0));
        }
    }
    Scene {
        processors,
        pages: FEW_PAGES.into(),
        setup,
        round,
        ..Scene::default()
    }
}

fn pages(size: Size) -> Scene {
    let processors = size.0;
    let mut round = Vec::new();
    let mut page = 0u8;
    for _ in 0..size.moves() {
        for vp in 0..processors {
            let address = u64::from(page) * 4096;
            round.push(write(vp, SIMP, overlay_at(page)));
            round.push(store(address, [1, 2, 3, 4, 5, 6, 7, 8], 8));
            round.push(Event::Load { address, length: 8 });
            page = page.wrapping_add(1);
        }
    }
    Scene {
        processors,
        pages: if size.is_sparse() { SPARSE_PAGES } else { PAGES.into() },
        round,
        ..Scene::default()
    }
}

fn flags(size: Size) -> Scene {
    let processors = size.targets();
    let shape = Shape::Flags {
        base: 0,
        count: FLAGS,
    };
    let mut setup = Vec::new();
    let mut round = Vec::new();
    for vp in 0..processors {
        let page = OVERLAY_PAGE + vp;
        setup.push(write(vp, SCONTROL, 1));
        setup.push(write(vp, SIEFP, overlay_at(page)));
        setup.push(write(vp, SINT0 + u32::from(SOURCE), 0x50));
        setup.push(open_port(vp, vp, SOURCE, shape));
        round.extend((0..FLAGS).map(|flag| Event::Signal { port: vp, flag }));
        round.push(store(slot_address(page, SOURCE), [0; 8], 8));
    }
    Scene {
        processors,
        pages: FEW_PAGES.into(),
        setup,
        round,
        ..Scene::default()
    }
}

fn timers(size: Size) -> Scene {
    let processors = size.0;
    let mut setup = Vec::new();
    for vp in 0..processors {
        for index in 0..TIMERS {
            let config = 0x1003 | u64::from(0x40 + index) << 4;
            setup.extend(timer(processors, vp, index, config));
        }
    }
    let round = (1..=DENSE_TICKS)
        .map(|number| Event::Tick {
            moment: DENSE_STEP * number,
        })
        .collect();
    Scene {
        processors,
        pages: 1,
        setup,
        round,
        span: DENSE_STEP * DENSE_TICKS,
        ..Scene::default()
    }
}

fn timer_messages(size: Size) -> Scene {
    let processors = size.0;
    let mut setup = Vec::new();
    let mut round = Vec::new();
    for vp in 0..processors {
        setup.push(write(vp, SCONTROL, 1));
        setup.push(write(vp, SIMP, overlay_at(vp)));
        setup.push(write(vp, SINT0 + u32::from(SOURCE), 0x50));
        for index in 0..TIMERS {
            setup.extend(timer(processors, vp, index, 3 | u64::from(SOURCE) << 16));
        }
    }
    let mut moment = 0;
    for _ in 0..size.turns() {
        for vp in 0..processors {
            moment += MESSAGE_STEP;
            round.push(Event::Tick { moment });
            for _ in 0..TIMERS {
                round.push(store(slot_address(vp, SOURCE), [0; 8], 4));
                round.push(write(vp, EOM, 0));
            }
        }
    }
    Scene {
        processors,
        pages: processors.into(),
        setup,
        round,
        span: moment,
        ..Scene::default()
    }
}

fn open_port(port: u8, vp: u8, sint: u8, shape: Shape) -> Event<'static> {
    Event::OpenPort {
        port,
        vp,
        sint,
        shape,
    }
}

fn mixed(size: Size) -> Scene {
    let processors = size.0;
    let mut setup = Vec::new();
    let mut round = Vec::new();
    for vp in 0..processors {
        set_up_mixed(processors, vp, &mut setup);
    }
    let mut moment = 0;
    for _ in 0..size.turns() {
        for vp in 0..processors {
            moment += MESSAGE_STEP;
            perform_mixed(size, vp, moment, &mut round);
        }
    }
    Scene {
        processors,
        pages: 3 * u16::from(processors),
        setup,
        round,
        span: moment,
        ..Scene::default()
    }
}

fn set_up_mixed(processors: u8, vp: u8, setup: &mut Vec<Event<'static>>) {
    let page = processors + vp;
    setup.push(write(vp, SCONTROL, 1));
    setup.push(write(vp, SIMP, overlay_at(vp)));
    setup.push(write(vp, SIEFP, overlay_at(page)));
    for source in [SOURCE, POST_SOURCE, FLAG_SOURCE] {
        let register = SINT0 + u32::from(source);
        setup.push(write(vp, register, u64::from(0x50 + source)));
    }
    let messages = Shape::Messages { buffers: 2 };
    let flags = Shape::Flags {
        base: 0,
        count: FLAGS,
    };
    setup.push(open_port(vp, vp, POST_SOURCE, messages));
    setup.push(open_port(processors + vp, vp, FLAG_SOURCE, flags));
    setup.extend(timer(processors, vp, 0, 0x1003 | 0x40 << 4));
    setup.extend(timer(processors, vp, 1, 3 | u64::from(SOURCE) << 16));
}

fn perform_mixed(size: Size, vp: u8, moment: u64, round: &mut Vec<Event<'static>>) {
    let page = size.0 + vp;
    let other = size.0 + page;
    let post = Event::Post {
        port: vp,
        kind: 1,
        payload: &[0x0a],
    };
    let assert = Event::Assert { vp, vector: 0x60 };
    let signal = Event::Signal {
        port: size.0 + vp,
        flag: 0,
    };
    for cause in [Event::Tick { moment }, assert, post, signal] {
        round.extend([cause, Event::Take { vp }, write(vp, EOI, 0)]);
    }
    for source in [SOURCE, POST_SOURCE] {
        round.push(store(slot_address(vp, source), [0; 8], 4));
        round.push(write(vp, EOM, 0));
    }
    // A sparse board refuses a load from the page that the overlay left.
    let loaded = if size.is_sparse() { other } else { page };
    let address = u64::from(loaded) * 4096;
    round.extend([
        store(slot_address(page, FLAG_SOURCE), [0; 8], 8),
        write(vp, SIEFP, overlay_at(other)),
        Event::Load { address, length: 8 },
        write(vp, SIEFP, overlay_at(page)),
    ]);
}
