//! The console: what it does with a line, and what it writes.

use super::command::{payload_bytes, read, Command, Why, LINE};
use super::host::Host;
use super::marks::Marks;
use super::{answer, host};
use differential::second::limits::FILE;

/// What the next line is.
enum Next {
    Command,
    /// A line of a payload; so far it has these bytes.
    Payload {
        name: Vec<u8>,
        symbols: Vec<u8>,
        file: Vec<u8>,
    },
    /// A line of a payload that is dropped.
    Dropped,
}

pub struct Console {
    host: Option<Host>,
    next: Next,
    lines: u64,
    pub marks: Marks,
}

impl Default for Console {
    fn default() -> Console {
        Console { host: None, next: Next::Command, lines: 0, marks: Marks::default() }
    }
}

impl Console {
    /// What is written for the next line.
    pub fn line(&mut self, line: &[u8]) -> Vec<u8> {
        self.lines += 1;
        match std::mem::replace(&mut self.next, Next::Command) {
            Next::Command => self.command(line),
            Next::Payload { name, symbols, file } if line == b"end" => self.upload(&name, &symbols, &file),
            Next::Payload { name, symbols, mut file } => match payload_bytes(line) {
                Ok(more) => {
                    self.full(line);
                    file.extend(more);
                    self.next = Next::Payload { name, symbols, file };
                    Vec::new()
                }
                Err(why) => {
                    self.next = Next::Dropped;
                    self.bad(true, why)
                }
            },
            Next::Dropped => {
                if line != b"end" {
                    self.next = Next::Dropped;
                }
                Vec::new()
            }
        }
    }

    /// The input's end; whether its last line had a line feed.
    pub fn end(&mut self, ended: bool) {
        match self.next {
            Next::Command => (),
            Next::Payload { .. } => self.marks.add("turn: the input ends in a payload"),
            Next::Dropped => self.marks.add("turn: the input ends in a payload that is dropped"),
        }
        if !ended {
            self.marks.add("turn: the last line has no line feed");
        }
    }

    fn bad(&mut self, inside: bool, why: Why) -> Vec<u8> {
        self.marks.bad_line(inside, why);
        answer::bad_line(self.lines)
    }

    fn full(&mut self, line: &[u8]) {
        if line.len() == LINE {
            self.marks.add("turn: a line of 4,096 bytes is read");
        }
    }

    fn command(&mut self, line: &[u8]) -> Vec<u8> {
        let command = match read(line) {
            Ok(command) => command,
            Err(why) => return self.bad(false, why),
        };
        self.full(line);
        if let Command::Start { base, size, arena, cpus, id } = command {
            let started = Host::start(base, size, arena, cpus, id);
            return self.started(started);
        }
        match self.host.take() {
            None => self.bad(false, Why::Early),
            Some(mut host) => {
                let written = self.call(&mut host, command);
                self.host = Some(host);
                written
            }
        }
    }

    fn started(&mut self, started: Result<Host, u64>) -> Vec<u8> {
        let loaded = self.host.as_ref().map_or(0, Host::loaded);
        let outcome = started.map(|host| self.host = Some(host));
        self.marks.answer("start", outcome.err().unwrap_or(0));
        if loaded > 0 {
            let what = if outcome.is_ok() { "accepted" } else { "refused" };
            self.marks.add(format!("turn: a start with payloads loaded is {what}"));
        }
        answer::outcome(outcome)
    }

    fn upload(&mut self, name: &[u8], symbols: &[u8], file: &[u8]) -> Vec<u8> {
        let host = self.host.as_mut().expect("an upload line is read once there was a start");
        let outcome = host.upload(name, symbols, file);
        self.marks.answer("upload", outcome.err().unwrap_or(0));
        let size = match file.len() {
            0 => Some("no byte"),
            FILE => Some("32,768 bytes"),
            32_769 => Some("32,769 bytes"),
            32_770.. => Some("more bytes"),
            _ => None,
        };
        size.into_iter().for_each(|size| self.marks.add(format!("turn: a payload of {size}")));
        answer::outcome(outcome)
    }

    /// What a command other than start does and writes.
    fn call(&mut self, host: &mut Host, command: Command) -> Vec<u8> {
        match command {
            Command::Start { .. } => unreachable!("it is answered before"),
            Command::Upload { name, symbols } => {
                self.next = Next::Payload { name, symbols, file: Vec::new() };
                Vec::new()
            }
            Command::Get { name } => {
                let found = host.get(&name);
                self.marks.answer("get", found.err().unwrap_or(0));
                found.iter().for_each(|(number, result)| self.note(*number, *result));
                found.map_or_else(answer::refusal, answer::found)
            }
            Command::List => {
                let list = host.list();
                self.marks.answer("list", list.as_ref().err().copied().unwrap_or(0));
                list.iter().flat_map(|list| &list.1).for_each(|entry| self.listed(entry));
                list.map_or_else(answer::refusal, answer::listed)
            }
            Command::Act { name, command, time } => {
                let what = match command {
                    1 => "unload",
                    2 => "revert",
                    3 => "apply",
                    4 => "replace",
                    _ => "no action",
                };
                self.outcome(what, host.act(&name, command, time))
            }
            Command::Report { cpu } => self.outcome("report", host.report(cpu)),
            Command::Tick => self.outcome("tick", host.tick()),
            Command::Work => self.outcome("work", host.work()),
        }
    }

    fn outcome(&mut self, what: &str, outcome: Result<(), u64>) -> Vec<u8> {
        self.marks.answer(what, outcome.err().unwrap_or(0));
        answer::outcome(outcome)
    }

    /// Notes what status and result were shown.
    fn note(&mut self, number: u32, result: i32) {
        self.marks.add(format!("shown: {} {result}", answer::status(number)));
    }

    fn listed(&mut self, entry: &host::Entry) {
        self.note(entry.status, entry.result);
        if entry.name.len() == 127 {
            self.marks.add("turn: a name of 127 bytes is listed");
        }
        if entry.name.iter().any(|byte| *byte < 32) {
            self.marks.add("turn: a name with a control byte is listed");
        }
    }
}
