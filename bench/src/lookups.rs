//! A name looked up in a symbol list: by the library, and by plain Rust that stops at the first name that is not smaller, as the
//! library does, or goes on to the name or the list's end.

use crate::pieces::listed;
use crate::timing::{black_box, in_turn, Times};
use differential::payloads::assemble::list_bytes;
use std::cmp::Ordering;

#[path = "../../tests/lookups.rs"]
mod library;

/// Names in the list, as many as the largest payload's list has.
const NAMES: usize = 4_000;

/// Lookups in one round.
const EACH: usize = 16;

/// The answer, the address, and how many entries were compared.
type Answer = (u64, u64, u64);

/// One entry's address and name, and where the next entry begins.
fn entry(list: &[u8], at: usize) -> Option<(u64, &[u8], usize)> {
    let address = list.get(at..at + 8)?;
    let next = at + 9 + usize::from(*list.get(at + 8)?);
    Some((u64::from_be_bytes(address.try_into().ok()?), list.get(at + 9..next)?, next))
}

/// The entries' addresses and names, as many as the list's count says.
fn entries(list: &[u8]) -> impl Iterator<Item = (u64, &[u8])> {
    let count = list.get(5..7).map_or(0, |count| u16::from_be_bytes([count[0], count[1]]));
    let mut at = 7;
    (0..count).map_while(move |_| {
        let (address, name, next) = entry(list, at)?;
        at = next;
        Some((address, name))
    })
}

/// Stops at the first name that is not smaller.
fn stopping(list: &[u8], name: &[u8]) -> Answer {
    let mut compared = 0;
    for (address, found) in entries(list) {
        compared += 1;
        match found.cmp(name) {
            Ordering::Less => {}
            Ordering::Equal => return (0, address, compared),
            Ordering::Greater => return (3, 0, compared),
        }
    }
    (3, 0, compared)
}

/// Goes on to the name or the list's end.
fn going_on(list: &[u8], name: &[u8]) -> Answer {
    let mut compared = 0;
    for (address, found) in entries(list) {
        compared += 1;
        if found == name {
            return (0, address, compared);
        }
    }
    (3, 0, compared)
}

/// What is looked up: a title and a name.
fn names(list: &[(Vec<u8>, u64)]) -> Vec<(&'static str, Vec<u8>)> {
    let behind = |at: usize| [&list[at].0[..], b"~"].concat();
    vec![
        ("the first name", list[0].0.clone()),
        ("the middle name", list[NAMES / 2].0.clone()),
        ("the last name", list[NAMES - 1].0.clone()),
        ("absent, before the first", b"a".to_vec()),
        ("absent, in the middle", behind(NAMES / 2)),
        ("absent, behind the last", behind(NAMES - 1)),
    ]
}

/// Whether all three find the same, and the two that stop compare as many entries.
fn agree(list: &[u8], name: &[u8]) -> Result<(), String> {
    let [proved, plain, whole] = [library::find, stopping, going_on].map(|find| find(list, name));
    match proved == plain && (proved.0, proved.1) == (whole.0, whole.1) {
        true => Ok(()),
        false => Err(format!("{name:02x?}: library {proved:?}, plain {plain:?}, to the end {whole:?}")),
    }
}

/// Looks each name up once by all three; how many there are.
pub fn check() -> Result<usize, String> {
    let list = listed(NAMES);
    let bytes = list_bytes(&list);
    let names = names(&list);
    names.iter().try_for_each(|(_, name)| agree(&bytes, name))?;
    Ok(names.len())
}

fn times(list: &[u8], name: &[u8], rounds: usize) -> [Times; 3] {
    let found = library::find(list, name);
    let all = |find: fn(&[u8], &[u8]) -> Answer| {
        move || (0..EACH).filter(|_| find(black_box(list), black_box(name)).1 != found.1).count() as u64
    };
    let (mut proved, mut plain, mut whole) = (all(library::find), all(stopping), all(going_on));
    in_turn(rounds, [&mut proved, &mut plain, &mut whole])
}

/// Times each.
pub fn show(rounds: usize) -> Result<(), String> {
    check()?;
    let list = listed(NAMES);
    let bytes = list_bytes(&list);
    println!("a name looked up in a list of {NAMES} names, {} bytes; medians in us:", bytes.len());
    println!("{:26} {:>8} {:>8} {:>8}   proved / plain   proved / to the end", "", "proved", "plain", "to the end");
    for (title, name) in names(&list) {
        let [proved, plain, whole] = times(&bytes, &name, rounds).map(|times| times.at(50) / EACH as f64);
        println!(
            "  {title:<24} {proved:>8.3} {plain:>8.3} {whole:>10.3} {:>14.2} {:>19.2}",
            proved / plain,
            proved / whole
        );
    }
    Ok(())
}
