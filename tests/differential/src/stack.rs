//! The stack that a call takes.

use crate::abi;
use crate::number;
use crate::report::Report;
use differential::payloads::assemble::input;
use differential::payloads::template::template;
use differential::second::limits::BUFFERS;

const HEADER: &str = include_str!("../../../include/urddolwy.h");

/// What the header says is enough to prepare a payload; 0 where it says nothing.
fn stated() -> usize {
    let stated = HEADER.lines().find_map(|line| line.strip_prefix("#define URDDOLWY_PREPARE_STACK "));
    stated.and_then(|text| number(text.trim()).ok()).unwrap_or(0) as usize
}

/// For the thread itself.
const THREAD: usize = 10 << 10;

/// Prepares an accepted payload on a stack of that size. Where it is not enough, the page that guards it ends the program.
pub fn run(report: &mut Report) {
    let input = input(&template(0));
    let mut buffers = BUFFERS.map(|len| vec![0; len]);
    let call = move || {
        let [image, edits, summary] = &mut buffers;
        abi::prepare(&input.file, &input.list, &input, [image, edits, summary])
    };
    let size = stated();
    let answer = std::thread::Builder::new().stack_size(size + THREAD).spawn(call).map(|thread| thread.join());
    let accepted = size > 0 && matches!(answer, Ok(Ok(0)));
    println!("a stack of {size} bytes: {}", if accepted { "ok" } else { "FAILED" });
    report.count(1, u64::from(!accepted));
}
