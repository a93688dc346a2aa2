//! The same exchanges on a plain set of states: for each value of local and of panel the modes shown with each goal, and
//! of each register whether it may be Clear and a sorted `Vec<(u32, u32)>` of the frames at which it may be Set.

#[allow(dead_code)] // another bench calls the rest of it
#[path = "../../lib/spans.rs"]
mod spans;

use spans::Spans;
use std::hint::black_box;
use std::time::Instant;

#[derive(Clone)]
struct Register {
    may_clear: bool,
    times: Spans,
}

#[derive(Clone, Copy)]
enum Change {
    SetAt(u32),
    Next,
    Prev,
}

impl Register {
    fn all() -> Register {
        Register { may_clear: true, times: Spans::all() }
    }

    fn is_some(&self) -> bool {
        self.may_clear || !self.times.0.is_empty()
    }

    fn change(&mut self, change: Change) {
        match change {
            Change::SetAt(frame) => *self = Register { may_clear: false, times: Spans(vec![(frame, frame)]) },
            Change::Next => self.times.shift_next(),
            Change::Prev => self.times.shift_prev(),
        }
    }

    fn widen(&mut self, change: Change) {
        match change {
            Change::SetAt(frame) => self.times.add(frame),
            Change::Next => self.times.widen_next(),
            Change::Prev => self.times.widen_prev(),
        }
    }

    fn agree(&mut self, time: Option<u32>) {
        let kept = time.filter(|frame| self.times.contains(*frame));
        self.times.0.clear();
        self.times.0.extend(kept.map(|frame| (frame, frame)));
    }

    fn say(&mut self, is_set: bool) {
        if is_set {
            self.may_clear = false;
        } else {
            self.times.0.clear();
        }
    }
}

const STOP: usize = 0;
const PLAY: usize = 1;

/// The modes that may be shown on the way to each goal, as bits.
const ON_THE_WAY: [u16; 10] = [0x01, 0x01, 0x03, 0x01, 0x01, 0x01, 0x01, 0x01, 0xFB, 0x01];

/// A mode, its bits of datum 1 that are set and clear, and those of datum 2.
const LINES: [(usize, u8, u8, u8, u8); 11] = [
    (0, 0x20, 0x1F, 0x00, 0x38),
    (1, 0x01, 0x3E, 0x00, 0x38),
    (2, 0x02, 0x3C, 0x00, 0x38),
    (3, 0x04, 0x3B, 0x00, 0x18),
    (4, 0x08, 0x37, 0x00, 0x18),
    (5, 0x00, 0x12, 0x20, 0x18),
    (6, 0x00, 0x12, 0x10, 0x28),
    (7, 0x00, 0x12, 0x08, 0x30),
    (8, 0x00, 0x1F, 0x01, 0x38),
    (9, 0x10, 0x0F, 0x00, 0x38),
    (9, 0x00, 0x3F, 0x00, 0x38),
];

fn modes_shown(datum1: Option<u8>, datum2: Option<u8>) -> u16 {
    let has = |datum: Option<u8>, set, clear| datum.is_none_or(|byte| byte & set == set && byte & clear == 0);
    LINES
        .iter()
        .filter(|line| has(datum1, line.1, line.2) && has(datum2, line.3, line.4))
        .fold(0, |modes, line| modes | 1 << line.0)
}

#[derive(Clone)]
struct Part {
    shown: [u16; 10],
    registers: [Register; 4],
}

impl Part {
    fn all() -> Part {
        Part { shown: [0x3FF; 10], registers: std::array::from_fn(|_| Register::all()) }
    }

    fn drift(&mut self) {
        for goal in 0..10 {
            if self.shown[goal] != 0 {
                self.shown[goal] |= 1 << goal | ON_THE_WAY[goal];
            }
        }
        self.shown[STOP] |= 1;
    }

    fn go(&mut self, goal: usize, may_stay: bool) {
        let all = self.shown.iter().fold(0, |all, shown| all | shown);
        if may_stay {
            self.shown[goal] |= all;
        } else {
            self.shown = [0; 10];
            self.shown[goal] = all;
        }
    }

    fn is_some(&self) -> bool {
        self.shown.iter().any(|shown| *shown != 0) && self.registers.iter().all(Register::is_some)
    }
}

#[derive(Clone, Copy)]
enum Command {
    Play,
    Change(usize, Change),
    Sense(usize),
    Status(u8),
}

struct Reply {
    head: (u8, u8),
    data: Vec<u8>,
}

impl Reply {
    fn datum(&self, asked: u8, number: u8) -> Option<u8> {
        let index = number.checked_sub(asked >> 4)?;
        self.data.get(usize::from(index)).copied()
    }

    fn time(&self) -> Option<u32> {
        let digits = |byte: u8, most: u32| {
            let (tens, ones) = (u32::from(byte >> 4), u32::from(byte & 15));
            (tens < 10 && ones < 10 && tens * 10 + ones <= most).then_some(tens * 10 + ones)
        };
        let [frames, seconds, minutes, hours] = *self.data.as_slice() else { return None };
        let frames = digits(frames & 0x3F, 24)?;
        let seconds = digits(seconds & 0x7F, 59)?;
        let minutes = digits(minutes & 0x7F, 59)?;
        Some(((digits(hours & 0x3F, 23)? * 60 + minutes) * 60 + seconds) * 25 + frames)
    }
}

/// Remote and local, each with the panel off and on; no part is there where it has no state.
struct Deck {
    parts: [Option<Part>; 4],
}

impl Deck {
    fn new() -> Deck {
        Deck { parts: [Some(Part::all()), Some(Part::all()), None, None] }
    }

    fn observe(&mut self, command: Command, reply: &Reply) -> bool {
        for (number, slot) in self.parts.iter_mut().enumerate() {
            let Some(part) = slot else { continue };
            let is_local = number % 2 == 1;
            part.drift();
            if reply.head == (0x11, 0x12) {
                continue;
            }
            let mut agrees = true;
            match command {
                Command::Play => part.go(PLAY, is_local),
                Command::Change(register, change) if is_local => part.registers[register].widen(change),
                Command::Change(register, change) => part.registers[register].change(change),
                Command::Sense(register) => part.registers[register].agree(reply.time()),
                Command::Status(asked) => {
                    agrees = reply.datum(asked, 0).is_none_or(|byte| (byte & 1 == 1) == is_local);
                    let modes = modes_shown(reply.datum(asked, 1), reply.datum(asked, 2));
                    part.shown.iter_mut().for_each(|shown| *shown &= modes);
                    if let Some(byte) = reply.datum(asked, 3) {
                        for (place, register) in part.registers.iter_mut().enumerate() {
                            register.say(byte >> place & 1 == 1);
                        }
                    }
                }
            }
            if !agrees || !part.is_some() {
                *slot = None;
            }
        }
        self.parts.iter().any(Option::is_some)
    }

    fn spans(&self, register: usize) -> usize {
        self.parts.iter().flatten().map(|part| part.registers[register].times.0.len()).max().unwrap_or(0)
    }
}

fn reply(bytes: &[u8]) -> Reply {
    Reply { head: (bytes[0], bytes[1]), data: bytes[2..].to_vec() }
}

fn observe(deck: &mut Deck, exchanges: &[(Command, Reply)], rounds: u32) -> u64 {
    let mut seen = 0;
    for _ in 0..rounds {
        for (command, reply) in black_box(exchanges) {
            seen += u64::from(deck.observe(*command, reply));
        }
    }
    seen
}

fn measure(name: &str, exchanges: &[(Command, Reply)], rounds: u32) {
    let mut deck = Deck::new();
    deck.observe(Command::Status(0x01), &reply(&[0x71, 0x20, 0x00]));
    let start = Instant::now();
    let seen = observe(black_box(&mut deck), exchanges, rounds);
    println!("{name} {} {seen}", start.elapsed().as_nanos());
}

fn measure_presets() {
    let mut deck = Deck::new();
    deck.observe(Command::Status(0x04), &reply(&[0x74, 0x20, 0x01, 0x20, 0x00, 0x01]));
    deck.observe(Command::Sense(0), &reply(&[0x74, 0x10, 0x00, 0x00, 0x00, 0x10]));
    let ack = reply(&[0x10, 0x01]);
    let start = Instant::now();
    for index in 0..10_000u32 {
        let frame = index * 7_919 % 10_000 * 216;
        black_box(&mut deck).observe(Command::Change(0, Change::SetAt(black_box(frame))), &ack);
    }
    println!("presets-in-local {} {}", start.elapsed().as_nanos(), deck.spans(0));
}

fn main() {
    let ack = || reply(&[0x10, 0x01]);
    let played = [
        (Command::Play, ack()),
        (Command::Status(0x03), reply(&[0x73, 0x20, 0x00, 0x01, 0x00])),
    ];
    let sensed = [
        (Command::Sense(0), reply(&[0x74, 0x10, 0x00, 0x00, 0x00, 0x10])),
        (Command::Sense(1), reply(&[0x74, 0x11, 0x00, 0x00, 0x00, 0x10])),
    ];
    let preset = [
        (Command::Change(0, Change::SetAt(900_000)), ack()),
        (Command::Change(0, Change::Next), ack()),
        (Command::Change(0, Change::Next), ack()),
        (Command::Change(0, Change::Prev), ack()),
    ];
    measure("play-and-status", &played, 500_000);
    measure("senses", &sensed, 500_000);
    measure("presets-and-shifts", &preset, 250_000);
    measure_presets();
}
