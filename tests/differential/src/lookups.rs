//! Lookups and comparisons with their counts, by the library and by the second loader.

use crate::report::Report;
use differential::damage::symbol_list;
use differential::payloads::random::lists;
use differential::rng::Rng;
use differential::second::lookup::{compare, lookup};
use differential::surrounded::Surrounded;
use std::cmp::Ordering;

#[path = "../../lookups.rs"]
mod library;

/// Names looked up in one list.
const NAMES: u64 = 40;

/// How many cases there were, and in how many of them the name was found, or the strings were the same.
#[derive(Default)]
struct Tally {
    cases: u64,
    found: u64,
}

type Group = fn(&mut Rng, u8) -> Result<Tally, String>;

/// Groups, their names, and the lists or pairs that each has for a thousand generated cases of a payload.
const GROUPS: [(Group, &str, u64); 3] = [
    (in_valid_lists, "lookups in valid lists", 20),
    (in_damaged_lists, "lookups in damaged lists", 20),
    (of_two_strings, "comparisons", 200),
];

/// Runs the groups; each counts as one test. One that finds nothing, or everything, has failed.
pub fn run(seed: u64, cases: u64, report: &mut Report) {
    let mut seeds = Rng::new(!seed);
    for (group, name, part) in GROUPS {
        let seed = seeds.number();
        let (Tally { cases, found }, differences) = tried(group, seed, (cases * part + 999) / 1000);
        if let Some(first) = differences.first() {
            println!("FIRST DIFFERENCE\n  case: {name}, seed {seed:#018x}\n  {first}");
        }
        let one_sided = found == 0 || found == cases;
        let verdict = if differences.is_empty() && !one_sided { "ok" } else { "FAILED" };
        let differ = differences.len();
        println!("group {name}, seed {seed:#018x}: {verdict}, {cases} cases ({found} found or same), {differ} differ");
        report.count(cases, differ as u64 + u64::from(one_sided));
    }
}

/// The cases without a difference, and the differences.
fn tried(group: Group, seed: u64, times: u64) -> (Tally, Vec<String>) {
    let mut rng = Rng::new(seed);
    let (mut all, mut differences) = (Tally::default(), Vec::new());
    for time in 0..times {
        let fill = if time % 2 == 0 { 0 } else { 0xff };
        match group(&mut rng, fill) {
            Ok(Tally { cases, found }) => {
                all.cases += cases;
                all.found += found;
            }
            Err(difference) => differences.push(difference),
        }
    }
    (all, differences)
}

fn in_valid_lists(rng: &mut Rng, fill: u8) -> Result<Tally, String> {
    in_list(&lists::symbol_list(rng), rng, fill)
}

fn in_damaged_lists(rng: &mut Rng, fill: u8) -> Result<Tally, String> {
    let mut list = lists::symbol_list(rng);
    symbol_list(&mut list, rng);
    in_list(&list, rng, fill)
}

/// Names that the list has, names near them, and others.
fn in_list(list: &[u8], rng: &mut Rng, fill: u8) -> Result<Tally, String> {
    let around = Surrounded::new(list, fill);
    let mut found = 0;
    for _ in 0..NAMES {
        let name = sought(list, rng);
        let (address, compared) = lookup(list, &name);
        let second = (if address.is_some() { 0 } else { 3 }, address.unwrap_or(0), compared);
        let proved = library::find(around.inner(), Surrounded::new(&name, fill).inner());
        if proved != second {
            return Err(format!("{name:02x?} in {list:02x?}: library {proved:?}, second loader {second:?}"));
        }
        found += u64::from(address.is_some());
    }
    Ok(Tally { cases: NAMES, found })
}

/// Some bytes of the list, more often than not a whole name, changed now and then.
fn sought(list: &[u8], rng: &mut Rng) -> Vec<u8> {
    let mut name = listed(list, rng).unwrap_or_else(|| rng.bytes(3));
    match rng.below(6) {
        0 => name.push(rng.byte()),
        1 => name.truncate(rng.index(name.len() + 1)),
        2 if !name.is_empty() => {
            let at = rng.index(name.len());
            name[at] = name[at].wrapping_add(rng.pick(&[1, 0xff]));
        }
        3 if rng.one_in(4) => {
            let len = rng.index(140);
            name = rng.bytes(len);
        }
        _ => {}
    }
    name
}

/// The name of one of the entries, as far as there are any.
fn listed(list: &[u8], rng: &mut Rng) -> Option<Vec<u8>> {
    let mut at = 7;
    let mut names = Vec::new();
    while let Some(length) = list.get(at + 8) {
        let end = at + 9 + usize::from(*length);
        names.push(list.get(at + 9..end)?);
        at = end;
    }
    (!names.is_empty()).then(|| names[rng.index(names.len())].to_vec())
}

/// Strings of few letters, so that many begin alike.
fn of_two_strings(rng: &mut Rng, fill: u8) -> Result<Tally, String> {
    let string = |rng: &mut Rng| {
        let len = rng.index(12);
        (0..len).map(|_| rng.pick(&[0, b'a', b'a', b'a', 0x7f, 0x80, 0xff])).collect::<Vec<u8>>()
    };
    let (a, mut b) = (string(rng), string(rng));
    if rng.one_in(3) {
        b = [&a[..], &b[..]].concat();
    }
    if rng.one_in(4) {
        b = a.clone();
    }
    let (order, compared) = compare(&a, &b);
    let number = match order {
        Ordering::Less => 0,
        Ordering::Equal => 1,
        Ordering::Greater => 2,
    };
    let proved = library::compare(Surrounded::new(&a, fill).inner(), Surrounded::new(&b, fill).inner());
    match proved == (number, compared) {
        true => Ok(Tally { cases: 1, found: u64::from(a == b) }),
        false => Err(format!("{a:02x?} and {b:02x?}: library {proved:?}, second loader {:?}", (number, compared))),
    }
}
