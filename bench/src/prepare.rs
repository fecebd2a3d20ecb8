//! Preparing a payload by itself: the largest, and others that leave out a part of what it has.

use crate::largest::{payload, Shape, BY_NAME, LARGEST, SYMBOLS};
use crate::library;
use crate::show::{print_both, print_head, print_line};
use crate::timing::{black_box, in_turn, Timed, Times};
use differential::payloads::Input;
use differential::second::limits::RECORDS;
use differential::second::refusal::in_words;
use differential::second::{self, Surroundings};

type Buffers = [Vec<u8>; 3];

fn library_prepare(input: &Input, [image, edits, summary]: &mut Buffers) -> u64 {
    library::prepare(&input.file, &input.list, input, [image, edits, summary])
}

fn second_prepare(input: &Input, [image, edits, summary]: &mut Buffers) -> u64 {
    let around = Surroundings { text_base: input.text_base, text_len: input.text_len, slot_base: input.slot_base };
    second::prepare_into(&input.file, &input.list, &around, [image, edits, summary])
}

/// Whether both accept the list, the file and the payload, and leave the same buffers; else what they do instead.
fn agree(input: &Input) -> Result<(), String> {
    let lists = [library::check_symbols(&input.list), second::check_symbols(&input.list)];
    let files = [library::check_file(&input.file), second::check_file(&input.file)];
    if [lists, files] != [[0, 0]; 2] {
        return Err("list and file by themselves should be accepted by both".to_string());
    }
    let (mut a, mut b) = (input.buffers.map(|len| vec![0xa5; len]), input.buffers.map(|len| vec![0x5a; len]));
    let answers = [library_prepare(input, &mut a), second_prepare(input, &mut b)];
    if answers != [0, 0] {
        let [library, second] = answers.map(in_words);
        return Err(format!("library: {library}, second loader: {second}; both should accept"));
    }
    match ["image", "edits", "summary"].iter().zip(a.iter().zip(&b)).find(|(_, (a, b))| a != b) {
        Some((name, _)) => Err(format!("both accept, but the {name} differs")),
        None => Ok(()),
    }
}

/// One loader's preparing, with buffers of its own: they keep what the round before wrote, or are cleared between rounds.
struct Preparing<'a> {
    call: fn(&Input, &mut Buffers) -> u64,
    input: &'a Input,
    buffers: Buffers,
    cleared: bool,
}

impl Timed for Preparing<'_> {
    fn before(&mut self) {
        if self.cleared {
            self.buffers.iter_mut().for_each(|buffer| black_box(buffer).fill(0));
        }
    }

    fn run(&mut self) -> u64 {
        (self.call)(black_box(self.input), &mut self.buffers)
    }
}

fn times(input: &Input, rounds: usize, cleared: bool) -> [Times; 2] {
    let preparing = |call| Preparing { call, input, buffers: input.buffers.map(|len| vec![0; len]), cleared };
    in_turn(rounds, [&mut preparing(library_prepare), &mut preparing(second_prepare)])
}

/// The payloads that are timed, the largest first.
fn shapes() -> [(&'static str, Shape); 7] {
    let few = Shape { run: 0, ..LARGEST };
    let absolute = Shape { undefined: 0, ..LARGEST };
    // so few that the relocations ask for about as many names as there are undefined symbols in the largest
    let once = Shape { undefined: 9, ..LARGEST };
    let short = Shape { names: SYMBOLS / 2 + BY_NAME, ..LARGEST };
    [
        ("prepare", LARGEST),
        ("prepare, the records' relocations only", few),
        ("prepare, undefined symbols made absolute", absolute),
        ("prepare, all but 9 undefined symbols made absolute", once),
        ("prepare, a list of the names that are used only", short),
        ("prepare, such a list and absolute symbols", Shape { undefined: 0, ..short }),
        ("prepare, such a list and the records' relocations only", Shape { run: 0, ..short }),
    ]
}

fn print_parts(input: &Input, rounds: usize) -> Result<(), String> {
    print_head("parts of it, buffers not cleared:");
    let mut check = || library::check_symbols(black_box(&input.list));
    let mut second_check = || second::check_symbols(black_box(&input.list));
    print_line("check_symbols", 1, &in_turn(rounds, [&mut check, &mut second_check]));
    let mut check = || library::check_file(black_box(&input.file));
    let mut second_check = || second::check_file(black_box(&input.file));
    print_line("check_file", 1, &in_turn(rounds, [&mut check, &mut second_check]));
    for (name, shape) in shapes() {
        let input = payload(&shape);
        agree(&input).map_err(|words| format!("{name}: {words}"))?;
        print_line(name, 1, &times(&input, rounds, false));
    }
    Ok(())
}

/// Prepares every payload once by both; how many there are.
pub fn check() -> Result<usize, String> {
    for (name, shape) in shapes() {
        agree(&payload(&shape)).map_err(|words| format!("{name}: {words}"))?;
    }
    Ok(shapes().len())
}

/// Times preparing the largest payload, and its parts if wanted.
pub fn show(rounds: usize, parts: bool) -> Result<(), String> {
    let input = payload(&LARGEST);
    let Shape { names, undefined, .. } = LARGEST;
    let (file, list, relocations) = (input.file.len(), input.list.len(), LARGEST.relocations());
    println!("the largest payload, a file of {file} bytes: {relocations} relocations, {SYMBOLS} symbols");
    println!("  ({undefined} undefined), {RECORDS} function records ({BY_NAME} by name)");
    println!("its symbol list of {list} bytes: {names} names");
    agree(&input)?;
    println!();
    print_both("prepare, buffers not cleared between rounds:", &times(&input, rounds, false));
    println!();
    print_both("prepare, buffers cleared between rounds, outside the time:", &times(&input, rounds, true));
    if parts {
        println!();
        print_parts(&input, rounds)?;
    }
    Ok(())
}
