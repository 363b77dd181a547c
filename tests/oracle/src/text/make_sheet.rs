//! From comma-separated lines to 16-byte records.

use super::lines::{number, without_comment, words, Line, Lines};
use crate::engine::MISSING;
use std::io::{self, BufRead};

/// The kinds of sheet.
#[derive(Clone, Copy, Debug, PartialEq, Eq)]
pub enum Kind {
    Register,
    Shares,
    Stress,
}

/// A field of a record.
#[derive(Clone, Copy)]
enum Field {
    /// A number of so many bytes; blank is all bits set.
    Plain(usize),
    /// A 4-byte amount; blank is missing, which no typed number may be.
    Amount,
    /// Zero bytes, for which there is no cell.
    Zero(usize),
}

/// Where the group stands in a stress record: the last cell, which may be left out.
const GROUP: usize = 6;

impl Kind {
    pub fn named(name: &[u8]) -> Option<Kind> {
        match name {
            b"register" => Some(Kind::Register),
            b"shares" => Some(Kind::Shares),
            b"stress" => Some(Kind::Stress),
            _ => None,
        }
    }

    fn fields(self) -> &'static [Field] {
        use Field::*;
        match self {
            Kind::Register | Kind::Shares => &[Plain(1), Zero(3), Amount, Amount, Amount],
            Kind::Stress => &[
                Plain(2),
                Plain(2),
                Plain(1),
                Plain(1),
                Zero(2),
                Amount,
                Zero(4),
            ],
        }
    }
}

/// The sheet, or the number of the first line that cannot be used.
pub fn make_sheet(kind: Kind, input: impl BufRead) -> io::Result<Result<Vec<u8>, u64>> {
    let mut sheet = Vec::new();
    let mut lines = Lines::new(input);
    while let Some((at, line)) = lines.next()? {
        let written = match line {
            Line::Text(text) => write_line(kind, text, &mut sheet),
            Line::Overlong => None,
        };
        if written.is_none() {
            return Ok(Err(at));
        }
    }
    Ok(Ok(sheet))
}

fn write_line(kind: Kind, line: &[u8], sheet: &mut Vec<u8>) -> Option<()> {
    let line = without_comment(line.strip_suffix(b"\r").unwrap_or(line));
    if words(line).next().is_none() {
        return Some(());
    }
    let start = sheet.len();
    let mut cells = line.split(|&b| b == b',').map(trim_spaces);
    for &field in kind.fields() {
        match field {
            Field::Zero(bytes) => sheet.resize(sheet.len() + bytes, 0),
            Field::Plain(bytes) => {
                let value = plain_cell(cells.next()?, bytes)?;
                sheet.extend_from_slice(&value.to_le_bytes()[..bytes]);
            }
            Field::Amount => sheet.extend(amount_cell(cells.next()?)?.to_le_bytes()),
        }
    }
    if kind == Kind::Stress {
        if let Some(group) = cells.next() {
            sheet[start + GROUP] = plain_cell(group, 1)? as u8;
        }
    }
    cells.next().is_none().then_some(())
}

fn trim_spaces(mut cell: &[u8]) -> &[u8] {
    while let [b' ', rest @ ..] | [rest @ .., b' '] = cell {
        cell = rest;
    }
    cell
}

fn plain_cell(cell: &[u8], bytes: usize) -> Option<u64> {
    let all_set = (1 << (8 * bytes)) - 1;
    if cell.is_empty() {
        return Some(all_set);
    }
    number(cell).filter(|&value| value <= all_set)
}

fn amount_cell(cell: &[u8]) -> Option<u32> {
    if cell.is_empty() {
        return Some(MISSING);
    }
    let value = u32::try_from(number(cell)?).ok()?;
    (value != MISSING).then_some(value)
}

#[cfg(test)]
mod tests {
    use super::*;

    fn made(kind: Kind, text: &str) -> Result<Vec<u8>, u64> {
        make_sheet(kind, text.as_bytes()).unwrap()
    }

    #[test]
    fn records() {
        assert_eq!(
            made(Kind::Register, "# members\n\n 1 , 2,3 ,\r\n").unwrap(),
            [1, 0, 0, 0, 2, 0, 0, 0, 3, 0, 0, 0, 255, 255, 255, 255]
        );
        assert_eq!(
            made(Kind::Stress, "258,1,,1,4294967294").unwrap(),
            [2, 1, 1, 0, 255, 1, 0, 0, 254, 255, 255, 255, 0, 0, 0, 0]
        );
        assert_eq!(
            made(Kind::Stress, "1,2,3,0,5,64\n1,2,4,0,6\n1,2,5,0,7,").unwrap(),
            [
                [1, 0, 2, 0, 3, 0, 64, 0, 5, 0, 0, 0, 0, 0, 0, 0],
                [1, 0, 2, 0, 4, 0, 0, 0, 6, 0, 0, 0, 0, 0, 0, 0],
                [1, 0, 2, 0, 5, 0, 255, 0, 7, 0, 0, 0, 0, 0, 0, 0],
            ]
            .concat()
        );
        assert_eq!(made(Kind::Shares, ",,,").unwrap()[..5], [255, 0, 0, 0, 255]);
        assert_eq!(made(Kind::Shares, ""), Ok(Vec::new()));
    }

    #[test]
    fn the_example_register() {
        let lines = "1,50000,20000,10000\n2,0,30000,15000\n3,0,10000,5000\n4,0,20000,0\n";
        let sheet = crate::generate::example_register();
        assert_eq!(made(Kind::Register, lines), Ok(sheet));
    }

    #[test]
    fn lines_that_cannot_be_used() {
        let lines = [
            "1,2,3",
            "1,2,3,4,",
            "256,2,3,4",
            "1,2,3,4294967295",
            "1,2,3,x",
            "1 1,2,3,4",
            "1,2,3,4\r\r",
            "1,2,3,\t4",
        ];
        for line in lines {
            let text = format!("1,2,3,4\n{line}\n");
            assert_eq!(made(Kind::Register, &text), Err(2), "{line:?}");
        }
        assert_eq!(made(Kind::Stress, "65536,1,1,0,5"), Err(1));
        assert_eq!(made(Kind::Stress, "1,1,1,256,5"), Err(1));
        assert_eq!(made(Kind::Stress, "1,1,1,1,5,256"), Err(1));
        assert_eq!(made(Kind::Stress, "1,1,1,1,5,x"), Err(1));
        assert_eq!(made(Kind::Stress, "1,1,1,1,5,6,7"), Err(1));
        assert_eq!(made(Kind::Stress, "1,1,1,1"), Err(1));
    }
}
