//! Lines, words and numbers.

use std::io::{self, BufRead};

/// The most bytes of a line, its newline not counted.
pub const LONGEST_LINE: usize = 4_096;

/// One line of input without its newline.
#[derive(Clone, Copy)]
pub enum Line<'a> {
    Text(&'a [u8]),
    Overlong,
}

/// Reads lines one at a time and never keeps more than one of them.
pub struct Lines<R> {
    input: R,
    line: Vec<u8>,
    count: u64,
}

impl<R: BufRead> Lines<R> {
    pub fn new(input: R) -> Self {
        Lines {
            input,
            line: Vec::new(),
            count: 0,
        }
    }

    /// The next line and its number counted from 1.
    pub fn next(&mut self) -> io::Result<Option<(u64, Line<'_>)>> {
        self.line.clear();
        let mut begun = false;
        loop {
            let piece = self.input.fill_buf()?;
            if piece.is_empty() {
                break;
            }
            begun = true;
            let newline = piece.iter().position(|&b| b == b'\n');
            let text = &piece[..newline.unwrap_or(piece.len())];
            // One byte past the limit is enough to know the line is overlong.
            let room = LONGEST_LINE + 1 - self.line.len();
            self.line.extend_from_slice(&text[..text.len().min(room)]);
            let used = text.len() + newline.is_some() as usize;
            self.input.consume(used);
            if newline.is_some() {
                break;
            }
        }
        if !begun {
            return Ok(None);
        }
        self.count += 1;
        let line = if self.line.len() > LONGEST_LINE {
            Line::Overlong
        } else {
            Line::Text(&self.line)
        };
        Ok(Some((self.count, line)))
    }
}

/// The line up to its comment.
pub fn without_comment(line: &[u8]) -> &[u8] {
    let end = line.iter().position(|&b| b == b'#');
    &line[..end.unwrap_or(line.len())]
}

/// The words of a line, its comment left out.
pub fn words(line: &[u8]) -> impl Iterator<Item = &[u8]> {
    without_comment(line)
        .split(|&b| b == b' ')
        .filter(|word| !word.is_empty())
}

/// A number is one or more decimal digits that fit 64 bits.
pub fn number(word: &[u8]) -> Option<u64> {
    if word.is_empty() {
        return None;
    }
    word.iter().try_fold(0u64, |sum, &byte| {
        if !byte.is_ascii_digit() {
            return None;
        }
        sum.checked_mul(10)?.checked_add((byte - b'0') as u64)
    })
}

#[cfg(test)]
mod tests {
    use super::*;

    #[test]
    fn numbers() {
        assert_eq!(number(b"18446744073709551615"), Some(u64::MAX));
        assert_eq!(number(b"18446744073709551616"), None);
        assert_eq!(number(b"000000000000000000000000000012"), Some(12));
        for word in ["", "-1", "+1", "1,000", "1.0", "0x1", "1\r"] {
            assert_eq!(number(word.as_bytes()), None);
        }
    }

    #[test]
    fn lines_and_their_limit() {
        let mut input = vec![b'x'; LONGEST_LINE];
        input.extend(b"\n\n");
        input.extend([b'#'; LONGEST_LINE + 1]);
        input.extend(b"\nlast");
        let mut lines = Lines::new(&input[..]);
        let mut lengths = Vec::new();
        while let Some((_, line)) = lines.next().unwrap() {
            lengths.push(match line {
                Line::Text(text) => Some(text.len()),
                Line::Overlong => None,
            });
        }
        assert_eq!(lengths, [Some(LONGEST_LINE), Some(0), None, Some(4)]);
    }
}
