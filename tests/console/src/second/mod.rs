//! A second console, written from the language's rules alone (docs/console.md), over the second loader. It shares no code with
//! the program that it is compared with.

pub mod answer;
pub mod command;
pub mod console;
pub mod host;
pub mod marks;

pub use console::Console;
pub use marks::Marks;

/// The lines of an input: each up to its line feed, and what stands after the last line feed where that is not empty.
pub fn lines(input: &[u8]) -> Vec<&[u8]> {
    let mut lines: Vec<&[u8]> = input.split(|byte| *byte == b'\n').collect();
    if lines.last().map_or(false, |last| last.is_empty()) {
        lines.pop();
    }
    lines
}

/// What a console writes for a whole input, and what the input reached.
pub fn run(input: &[u8]) -> (Vec<u8>, Marks) {
    let mut console = Console::default();
    let mut output = Vec::new();
    for line in lines(input) {
        output.extend(console.line(line));
    }
    console.end(input.last().map_or(true, |last| *last == b'\n'));
    (output, console.marks)
}

#[cfg(test)]
mod tests {
    use super::*;

    #[test]
    fn lines_of_inputs() {
        assert_eq!(lines(b""), Vec::<&[u8]>::new());
        assert_eq!(lines(b"\n"), [b""]);
        assert_eq!(lines(b"a"), [b"a"]);
        assert_eq!(lines(b"a\n\nb\n"), [&b"a"[..], b"", b"b"]);
        assert_eq!(lines(b"a\r\n\0"), [&b"a\r"[..], b"\0"]);
    }

    #[test]
    fn a_short_run() {
        let (output, _) = run(b"list\nstart 4096 100 8192 1 01\nlist\n\nend\ntick");
        assert_eq!(output, b"bad line 1\nok\nversion 0 count 0\nbad line 4\nbad line 5\nno 22 0\n");
    }
}
