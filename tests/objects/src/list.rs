//! Symbol lists in the house format, and the names outside the payloads.

use std::collections::BTreeMap;

/// The names that payloads use and do not have. They are in the symbol list, and GNU ld gets them by --defsym.
pub const OUTSIDE: [(&str, u64); 8] = [
    ("do_domctl", 0xffff_82d0_8010_4a6a),
    ("jiffies", 0xffff_82d0_8031_0008),
    ("memcpy_from", 0xffff_82d0_8013_0000),
    ("outside_high", 0xffff_82d0_b000_0001),
    ("outside_low", 0x1001),
    ("percpu", 0xffff_82d0_8032_0000),
    ("printk", 0xffff_82d0_8015_fbb9),
    ("xen_extra_version", 0xffff_82d0_8013_963c),
];

/// Names of the payloads' own symbols, in the symbol list with addresses that nothing must use.
const OWN: [(&str, u64); 5] =
    [("first", 0x10), ("later", 0x20), ("summed", 0x30), ("two", 0x40), ("xen_hello_world", 0x50)];

/// The list of all these names.
pub fn standard() -> Vec<u8> {
    encode(OUTSIDE.iter().chain(&OWN).map(|(name, address)| (name.to_string(), *address)).collect())
}

/// A list in the house format: big-endian numbers, names strictly rising.
pub fn encode(names: BTreeMap<String, u64>) -> Vec<u8> {
    let count = u16::try_from(names.len()).expect("at most 65,535 names");
    let mut body = vec![1];
    body.extend(count.to_be_bytes());
    for (name, address) in &names {
        body.extend(address.to_be_bytes());
        body.push(u8::try_from(name.len()).expect("a name of at most 255 bytes"));
        body.extend(name.as_bytes());
    }
    let length = u32::try_from(body.len()).expect("a list below 4 GB");
    [&length.to_be_bytes()[..], &body].concat()
}
