//! Payloads made by the GNU tools, prepared by the library and compared byte for byte with what GNU ld links.
//!
//! Words: the folder to work in, the debug image of Debian's Xen, and why it is missing where it is.

mod abi;
mod bounds;
mod compare;
mod elf;
mod list;
mod objects;
mod oracle;
mod recipes;
mod report;
mod tools;
mod xen;

use std::path::Path;
use std::process::ExitCode;

fn main() -> ExitCode {
    let words: Vec<String> = std::env::args().skip(1).collect();
    let (work, image, why_missing) = match &words[..] {
        [work, image, why] => (Path::new(work), Path::new(image), why),
        _ => {
            eprintln!("objects: wants a folder to work in, the debug image of Debian's Xen, and why that is missing");
            return ExitCode::from(2);
        }
    };
    let mut report = report::Report::new();
    objects::run(work, &mut report);
    bounds::run(work, &mut report);
    xen::run(work, image, why_missing, &mut report);
    match report.close() {
        true => ExitCode::SUCCESS,
        false => ExitCode::FAILURE,
    }
}
