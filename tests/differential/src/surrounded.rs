//! Bytes with others before and after them, which no answer may depend on and no call may change.

#[derive(Clone)]
pub struct Surrounded {
    bytes: Vec<u8>,
    fill: u8,
}

/// So many bytes stand on either side.
pub const MARGIN: usize = 64;

impl Surrounded {
    pub fn new(inner: &[u8], fill: u8) -> Surrounded {
        let mut bytes = vec![fill; MARGIN];
        bytes.extend(inner);
        bytes.resize(bytes.len() + MARGIN, fill);
        Surrounded { bytes, fill }
    }

    pub fn inner(&self) -> &[u8] {
        &self.bytes[MARGIN..self.bytes.len() - MARGIN]
    }

    pub fn inner_mut(&mut self) -> &mut [u8] {
        let end = self.bytes.len() - MARGIN;
        &mut self.bytes[MARGIN..end]
    }

    /// The bytes as a call gets them: all of the inner ones, or so many, up to the end of the margin.
    pub fn lent(&mut self, length: Option<usize>) -> &mut [u8] {
        let length = length.unwrap_or(self.bytes.len() - 2 * MARGIN);
        &mut self.bytes[MARGIN..MARGIN + length]
    }

    /// Whether a byte before or after the inner ones has changed.
    pub fn strayed(&self) -> bool {
        let (before, rest) = self.bytes.split_at(MARGIN);
        before.iter().chain(&rest[self.inner().len()..]).any(|byte| *byte != self.fill)
    }
}

/// Bytes that stand in a buffer before a call, so that an untouched buffer is seen.
pub fn pattern(len: usize) -> Vec<u8> {
    (0..len).map(|at| (at as u8).wrapping_mul(31) ^ 0xa5).collect()
}

/// Where two buffers of one length differ first, and some of their bytes there.
pub fn first_difference(a: &[u8], b: &[u8]) -> Option<(usize, [String; 2])> {
    if a == b {
        return None;
    }
    let at = (0..a.len()).find(|&at| a[at] != b[at])?;
    Some((at, [a, b].map(|bytes| format!("{:02x?}", &bytes[at..bytes.len().min(at + 8)]))))
}
