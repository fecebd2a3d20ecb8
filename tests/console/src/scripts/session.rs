//! A loader at work. The calls are those of the random sequences of tests/differential, which are driven here along the second
//! loader's state and written down as lines.

use super::writer::{cut, upload_length};
use super::{bad, Writer};
use crate::second::command::LINE;
use differential::rng::Rng;
use differential::sequences::driver::{Driver, Ground};
use differential::sequences::loader::second;
use differential::sequences::Does;
use std::rc::Rc;

/// A host and its payloads. No name has a space or a line feed, which would end the field.
pub fn ground(rng: &mut Rng) -> Ground {
    let mut ground = Ground::new(rng);
    let separate = |byte: &&mut u8| matches!(**byte, b' ' | b'\n');
    ground.pool.names.iter_mut().flatten().filter(separate).for_each(|byte| *byte += 1);
    ground
}

/// Turns of a session. A replace over seven payloads with many records takes most of them.
const MOST: u64 = 400;

struct Session<'g> {
    driver: Driver<'g>,
    rng: Rng,
    writer: Writer,
}

pub fn session(ground: &Ground, seed: u64) -> Vec<u8> {
    let driver = Driver::new(ground, &[second()], seed);
    let mut session = Session { driver, rng: Rng::new(!seed), writer: Writer::default() };
    let turns = session.driver.begin();
    if session.rng.one_in(8) {
        session.early();
    }
    let started = session.driver.session.log.last().map(|(call, _)| call.does.clone());
    started.iter().for_each(|does| session.write(does));
    for _ in 0..turns.min(MOST) {
        session.turn();
    }
    session.writer.close(&mut session.rng)
}

impl Session<'_> {
    /// Commands before there was a start.
    fn early(&mut self) {
        for line in ["list", "tick", "upload p1 00000003010000", "end"] {
            if self.rng.one_in(2) {
                self.writer.line(line);
            }
        }
        self.refused_start();
    }

    fn turn(&mut self) {
        match self.rng.below(150) {
            0..=4 => {
                let line = bad::outside(&mut self.rng);
                self.writer.line(line);
            }
            5 => self.refused_start(),
            6 => self.start_again(),
            7..=24 => {
                let does = self.driver.nonsense();
                self.make(does);
            }
            _ => {
                let does = self.driver.intent();
                self.make(does);
            }
        }
    }

    /// Makes a call, and writes it down. A call that its line cannot say is not made.
    fn make(&mut self, does: Does) {
        match does {
            Does::Upload { name, symbols, file } => self.upload(name, symbols, file),
            does => {
                self.write(&does);
                self.driver.session.call(does);
            }
        }
    }

    fn upload(&mut self, name: Vec<u8>, symbols: Rc<Vec<u8>>, file: Rc<Vec<u8>>) {
        let said = name.strip_suffix(b"\0").unwrap_or(&name);
        let over = upload_length(said, &symbols) > LINE;
        let rare = if over { 20 } else { 1 + file.len() as u64 / 8_192 };
        if !self.rng.one_in(rare) {
            return;
        }
        let spoilt = self.rng.one_in(15);
        let file = self.sized(file);
        let mut lines = cut(&file, &mut self.rng).into_iter().map(String::into_bytes).collect::<Vec<_>>();
        if spoilt {
            let at = self.rng.index(lines.len() + 1);
            lines.insert(at, bad::inside(&mut self.rng));
        }
        self.writer.upload_line(said, &symbols);
        lines.iter().for_each(|line| self.writer.line(line));
        self.writer.line("end");
        if !over && !spoilt {
            self.driver.session.call(Does::Upload { name, symbols, file });
        }
    }

    /// A file, sometimes with so many bytes more that it is as large as a file may be, or larger.
    fn sized(&mut self, file: Rc<Vec<u8>>) -> Rc<Vec<u8>> {
        if !self.rng.one_in(60) {
            return file;
        }
        let mut sized = file.to_vec();
        let size = self.rng.pick(&[32_767, 32_768, 32_769, 32_770, 40_000]);
        if sized.len() < size {
            sized.resize(size, self.rng.byte());
        }
        Rc::new(sized)
    }

    /// A start that is refused, mostly for one number.
    fn refused_start(&mut self) {
        let world = &self.driver.ground.world;
        let host = world.host;
        let (base, size, arena, id) = (host.text_base, host.text_len, host.arena_base, &world.build_id[..]);
        let writer = &mut self.writer;
        match self.rng.below(8) {
            0 => writer.start(base, 0, arena, 1, id),
            1 => writer.start(base, size, arena, self.rng.pick(&[0, 65, u32::MAX]), id),
            2 => writer.start(base, size, arena + 1, 1, id),
            3 => writer.start(base, size, base & !4_095, 1, id),
            4 => writer.start(base, size, 0, 1, id),
            5 => writer.start(u64::MAX, 2, arena, 1, id),
            6 => writer.start(base, size, arena, 1, &[7; 65]),
            _ => writer.start(base, size, 0u64.wrapping_sub(61_440), 1, id),
        }
    }

    /// A start that is accepted.
    fn start_again(&mut self) {
        let host = self.driver.ground.world.host;
        let cpus = self.rng.pick(&[1, 1, 2, 3, 64]);
        self.make(Does::Start { text_base: host.text_base, arena_base: host.arena_base, cpus });
    }

    /// The line of a call other than an upload; none for the question that the console does not have.
    fn write(&mut self, does: &Does) {
        let ground = self.driver.ground;
        match does {
            Does::Start { text_base, arena_base, cpus } => {
                let world = &ground.world;
                self.writer.start(*text_base, world.host.text_len, *arena_base, *cpus, &world.build_id);
            }
            Does::Get { name } => self.writer.fields(&[b"get", name.strip_suffix(b"\0").unwrap_or(name)]),
            Does::List { .. } => self.writer.line("list"),
            Does::Action { name, command, time } => {
                let name = name.strip_suffix(b"\0").unwrap_or(name);
                let (command, time) = (command.to_string(), time.to_string());
                self.writer.fields(&[b"act", name, command.as_bytes(), time.as_bytes()]);
            }
            Does::Report { cpu } => self.writer.line(format!("report {cpu}")),
            Does::Tick => self.writer.line("tick"),
            Does::Work => self.writer.line("work"),
            Does::Upload { .. } | Does::TopBuildId => (),
        }
    }
}
