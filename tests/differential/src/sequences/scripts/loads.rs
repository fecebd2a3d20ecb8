//! Uploads and unloads: slots, names, versions, refusals in their order.

use super::play::{name, plain, Play, CPUS, OK};
use super::Scripts;
use crate::payloads::assemble::{header_field, list_bytes, section_field};
use crate::payloads::draft::{Draft, Record};
use crate::payloads::template::note;
use crate::second::calls::state::{APPLY, UNLOAD};
use crate::second::refusal::Refusal;
use crate::sequences::call::Does;
use crate::sequences::plain::Edit;
use std::rc::Rc;

pub const SCRIPTS: Scripts = &[
    ("eight loaded, and slots used again", slots),
    ("unloads while a job stands", unloads),
    ("refused uploads", refused),
    ("the order of an upload's checks", order),
];

const EDIT: [Edit; 2] = [Edit::Jump(64), Edit::NoOps(500, 12)];

fn slots(play: &mut Play) {
    play.start(CPUS, OK);
    for slot in 0..8 {
        let own = slot as u8 + 1;
        play.upload(&format!("p{slot}"), &plain(slot, own, if slot == 3 { 0 } else { 9 }, &EDIT), OK);
    }
    play.upload("p8", &plain(0, 9, 0, &EDIT), 12);
    play.job("p3", APPLY, 2);
    for slot in [5, 1] {
        play.action(&format!("p{slot}"), UNLOAD, 0, OK);
        play.holds("the freed slot and its entries are zero", |memory| {
            let part = |bytes: &[u8], size: usize| bytes[size * slot..size * (slot + 1)].iter().all(|byte| *byte == 0);
            part(memory.arena.inner(), 8_192) && part(memory.ids.inner(), 64) && part(memory.undo.inner(), 992)
        });
    }
    play.list(0, 1, [5, 10], &[("p0", 1, 0)]);
    // the lowest free slot, below that of the applied one, and the end of the list
    play.upload("again", &plain(1, 10, 4, &EDIT), OK);
    play.holds("the id stands in slot 1", |memory| memory.ids.inner()[64..84] == super::play::id(10));
    play.upload("more", &plain(5, 11, 10, &EDIT), OK);
    play.list(5, 3, [0, 12], &[("p7", 1, 0), ("again", 1, 0), ("more", 1, 0)]);
    play.job("again", APPLY, 2);
    play.job("more", APPLY, 2);
    play.top(Some(5));
    play.action("p3", UNLOAD, 0, 22);
    play.action("p8", UNLOAD, 0, 2);
}

fn unloads(play: &mut Play) {
    play.start(CPUS, OK);
    for (slot, text) in ["a", "b", "c", "d"].iter().enumerate() {
        play.upload(text, &plain(slot, slot as u8 + 1, 0, &EDIT), OK);
    }
    play.action("c", APPLY, 0, OK);
    play.action("a", UNLOAD, 0, OK);
    play.action("c", UNLOAD, 0, 16);
    play.report_all();
    play.work(1, OK);
    play.action("b", UNLOAD, 0, OK);
    play.list(0, 8, [0, 6], &[("c", 1, -11), ("d", 1, 0)]);
    play.upload("e", &plain(0, 9, 3, &EDIT), OK);
    play.work(1, OK);
    play.list(0, 3, [0, 7], &[("c", 2, 0), ("d", 1, 0), ("e", 1, 0)]);
    play.top(Some(2));
    play.job("e", APPLY, 2);
    play.action("c", UNLOAD, 0, 22);
}

/// A payload that is wrong in one way, and its refusal.
type Wrong = (fn(&mut Draft), fn(&Draft) -> Refusal);

const WRONG: [Wrong; 12] = [
    (|draft| draft.header(header_field::MACHINE, 3), |_| Refusal::nowhere(8)),
    (|draft| draft.header(header_field::NAMES, 60), |_| Refusal::nowhere(22)),
    (|draft| draft.set("code", section_field::TYPE, 14), |draft| Refusal::section(95, draft.index("code"))),
    (|draft| draft.set("code", section_field::ALIGN, 3), |draft| Refusal::section(22, draft.index("code"))),
    (|draft| draft.add_zeros("more", 1, 8_192), |draft| Refusal::section(12, draft.index("more"))),
    (|draft| *draft.bytes("build_id") = vec![0; 20], |draft| Refusal::section(22, draft.index("build_id"))),
    (|draft| *draft.bytes("build_id") = note(&[1; 65]), |draft| Refusal::section(22, draft.index("build_id"))),
    (|draft| *draft.bytes("depends") = note(&[1; 65]), |draft| Refusal::section(22, draft.index("depends"))),
    (|draft| draft.reserve_records(33), |draft| Refusal::section(22, draft.index("funcs"))),
    (|draft| draft.then(|assembled| assembled.file.resize(32_769, 0)), |_| Refusal::nowhere(8)),
    (record_too_far, |_| Refusal::record(22, 1)),
    (record_twice, |_| Refusal::record(22, 1)),
];

fn record_too_far(draft: &mut Draft) {
    let (first, past) = (Record::new(0, draft.text_base, 1, 1), Record::new(0, draft.text_base + 4_090, 5, 7));
    draft.set_records(&[first, past]);
}

fn record_twice(draft: &mut Draft) {
    draft.set_records(&[Record::new(0, draft.text_base, 5, 5), Record::new(0, draft.text_base + 4, 5, 5)]);
}

fn refused(play: &mut Play) {
    use crate::payloads::assemble::assemble;
    play.start(CPUS, OK);
    play.upload("first", &plain(0, 1, 0, &EDIT), OK);
    for (change, refusal) in WRONG {
        let mut draft = plain(1, 2, 1, &EDIT).draft(&play.world);
        change(&mut draft);
        play.upload_file(name("p"), assemble(&draft).file, refusal(&draft).code());
    }
    // a function that is named and not listed, and new code out of a jump's reach
    let mut draft = plain(1, 2, 1, &EDIT).draft(&play.world);
    draft.add_bytes("names", ".rodata.str", 1, b"nobody\0");
    let named = Record { name: draft.address("names"), ..Record::new(0, 0, 1, 1) };
    draft.set_records(&[Record::new(0, draft.text_base, 1, 1), named]);
    play.upload_file(name("p"), assemble(&draft).file, Refusal::record(3, 1).code());
    play.list(0, 8, [0, 1], &[("first", 1, 0)]);
    let far = crate::sequences::world::World::new(0x10_0000, 4_096, 1 << 40, &super::play::id(0), CPUS);
    play.move_to(far);
    play.start(CPUS, OK);
    play.upload("p", &plain(0, 2, 1, &[Edit::NoOps(64, 5), Edit::Jump(64 + 5)]), Refusal::record(34, 1).code());
    play.upload("p", &plain(0, 2, 1, &[Edit::NoOps(64, 5)]), OK);
}

/// Each upload has all faults of those after it: the first one in the order decides.
fn order(play: &mut Play) {
    let long = vec![b'x'; 129];
    let names: [&[u8]; 7] = [b"", b"\0", b"p", b"p\0q\0", b"p\0\0", &long, &long[..128]];
    let upload = |name: &[u8], list: Vec<u8>| Does::Upload {
        name: name.to_vec(),
        symbols: Rc::new(list),
        file: Rc::new(vec![0; 63]),
    };
    play.start(CPUS, OK);
    (0..7).for_each(|slot| play.upload(&format!("p{slot}"), &plain(slot, 1, 0, &EDIT), OK));
    names.iter().for_each(|name| drop(play.says(upload(name, Vec::new()), 22)));
    play.says(upload(b"new\0", list_bytes(&[])), 8);
    play.upload("p7", &plain(7, 1, 0, &EDIT), OK);
    play.says(upload(b"p0\0", Vec::new()), 22);
    play.says(upload(b"p0\0", list_bytes(&[])), 17);
    play.says(upload(b"new\0", list_bytes(&[])), 12);
}
