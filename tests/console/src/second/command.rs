//! A line as a command.

/// The most bytes of a line.
pub const LINE: usize = 4_096;

/// The most bytes of text.
const TEXT: u128 = 65_536;

/// Why a line cannot be read.
#[derive(Clone, Copy, PartialEq, Eq, PartialOrd, Ord, Debug)]
pub enum Why {
    /// No byte.
    Empty,
    /// More bytes than a line may have.
    Long,
    /// An empty field: a space at the front or at the end, or two in a row.
    Gap,
    /// No command begins so.
    Word,
    /// A command with more or fewer fields than it has.
    Count,
    /// A number with something else than digits.
    Digits,
    /// A number above its bound.
    Large,
    /// Digits of bytes: an odd number of them, capitals, or something else.
    Odd,
    Capital,
    NoHex,
    /// A command that needs a start before it.
    Early,
}

#[derive(PartialEq, Eq, Debug)]
pub enum Command {
    Start { base: u64, size: usize, arena: u64, cpus: u32, id: Vec<u8> },
    Upload { name: Vec<u8>, symbols: Vec<u8> },
    Get { name: Vec<u8> },
    List,
    Act { name: Vec<u8>, command: u32, time: u32 },
    Report { cpu: u32 },
    Tick,
    Work,
}

const WORDS: [&[u8]; 8] = [b"start", b"upload", b"get", b"list", b"act", b"report", b"tick", b"work"];

/// The command that a line is.
pub fn read(line: &[u8]) -> Result<Command, Why> {
    sized(line)?;
    let fields: Vec<&[u8]> = line.split(|byte| *byte == b' ').collect();
    if fields.iter().any(|field| field.is_empty()) {
        return Err(Why::Gap);
    }
    Ok(match fields[..] {
        [b"start", base, size, arena, cpus, id] => Command::Start {
            base: number(base, u64::MAX.into())? as u64,
            size: number(size, TEXT)? as usize,
            arena: number(arena, u64::MAX.into())? as u64,
            cpus: short(cpus)?,
            id: bytes(id)?,
        },
        [b"upload", name, symbols] => Command::Upload { name: ended(name), symbols: bytes(symbols)? },
        [b"get", name] => Command::Get { name: ended(name) },
        [b"list"] => Command::List,
        [b"act", name, command, time] => {
            Command::Act { name: ended(name), command: short(command)?, time: short(time)? }
        }
        [b"report", cpu] => Command::Report { cpu: short(cpu)? },
        [b"tick"] => Command::Tick,
        [b"work"] => Command::Work,
        _ if WORDS.contains(&fields[0]) => return Err(Why::Count),
        _ => return Err(Why::Word),
    })
}

/// Whether a line has as many bytes as a line may have, and one at least.
fn sized(line: &[u8]) -> Result<(), Why> {
    match line.len() {
        0 => Err(Why::Empty),
        1..=LINE => Ok(()),
        _ => Err(Why::Long),
    }
}

/// The bytes of a payload's line.
pub fn payload_bytes(line: &[u8]) -> Result<Vec<u8>, Why> {
    sized(line)?;
    bytes(line)
}

/// A decimal number up to a bound of at most 64 bits.
fn number(field: &[u8], most: u128) -> Result<u128, Why> {
    if !field.iter().all(u8::is_ascii_digit) {
        return Err(Why::Digits);
    }
    let zeros = field.iter().take_while(|digit| **digit == b'0').count();
    let digits = &field[zeros..];
    if digits.len() > 20 {
        return Err(Why::Large);
    }
    let value = digits.iter().fold(0, |value, digit| 10 * value + u128::from(digit - b'0'));
    (value <= most).then_some(value).ok_or(Why::Large)
}

/// A number below 2^32.
fn short(field: &[u8]) -> Result<u32, Why> {
    number(field, u32::MAX.into()).map(|value| value as u32)
}

/// Bytes in lower-case hexadecimal.
fn bytes(field: &[u8]) -> Result<Vec<u8>, Why> {
    let digit = |byte: &u8| match byte {
        b'0'..=b'9' => Ok(byte - b'0'),
        b'a'..=b'f' => Ok(byte - b'a' + 10),
        b'A'..=b'F' => Err(Why::Capital),
        _ => Err(Why::NoHex),
    };
    let digits = field.iter().map(digit).collect::<Result<Vec<u8>, Why>>()?;
    if digits.len() % 2 != 0 {
        return Err(Why::Odd);
    }
    Ok(digits.chunks(2).map(|pair| 16 * pair[0] + pair[1]).collect())
}

/// A name as the loader gets it.
fn ended(name: &[u8]) -> Vec<u8> {
    [name, b"\0"].concat()
}

#[cfg(test)]
mod tests {
    use super::*;

    #[test]
    fn numbers() {
        let most = u128::from(u64::MAX);
        assert_eq!(number(b"18446744073709551615", most), Ok(most));
        assert_eq!(number(b"18446744073709551616", most), Err(Why::Large));
        assert_eq!(number(&[b'9'; 4_000], most), Err(Why::Large));
        assert_eq!(number(&[&[b'0'; 4_000][..], b"7"].concat(), most), Ok(7));
        assert_eq!((short(b"4294967295"), short(b"4294967296")), (Ok(u32::MAX), Err(Why::Large)));
        assert_eq!((number(b"65536", TEXT), number(b"65537", TEXT)), (Ok(65_536), Err(Why::Large)));
        for field in [&b"+1"[..], b"-1", b"0x1", b"1a", b"1\r", b"1\0", b"\xb2"] {
            assert_eq!(number(field, most), Err(Why::Digits));
        }
    }

    #[test]
    fn lines() {
        assert_eq!(read(b"upload p 00ff"), Ok(Command::Upload { name: b"p\0".to_vec(), symbols: vec![0, 255] }));
        assert_eq!(read(b"get \0\x01"), Ok(Command::Get { name: vec![0, 1, 0] }));
        let faults: [(&[u8], Why); 14] = [
            (b"", Why::Empty),
            (b" ", Why::Gap),
            (b" list", Why::Gap),
            (b"list ", Why::Gap),
            (b"get  p", Why::Gap),
            (b"get", Why::Count),
            (b"list 1", Why::Count),
            (b"LIST", Why::Word),
            (b"list\r", Why::Word),
            (b"end", Why::Word),
            (b"report x", Why::Digits),
            (b"upload p 0", Why::Odd),
            (b"upload p 0A", Why::Capital),
            (b"upload p 0g", Why::NoHex),
        ];
        faults.iter().for_each(|(line, why)| assert_eq!(read(line), Err(*why)));
        assert_eq!(read(&[b'x'; LINE]), Err(Why::Word));
        assert_eq!(read(&[b'x'; LINE + 1]), Err(Why::Long));
    }
}
