//! A printed page read back, by the paper's words on it alone.

use super::{ensure, Counted, Sum};

const NAMES: [&str; 7] = [
    "MARGIN",
    "OWN FUND",
    "TRANCHE 1",
    "MEMBERS",
    "TRANCHE 2",
    "CALLS",
    "SHORT",
];

/// The six layers and the shortfall of the page that the next eight lines are.
pub fn read_page<'a>(lines: &mut impl Iterator<Item = &'a str>) -> Counted<[Sum; 7]> {
    let heading = format!("LAYER{}Rs THOUSAND", " ".repeat(24));
    ensure(lines.next() == Some(heading.as_str()), || {
        "the page has no heading".into()
    })?;
    let mut amounts = [0; 7];
    for (amount, name) in amounts.iter_mut().zip(NAMES) {
        let row = lines.next().unwrap_or_default();
        *amount = read_row(row, name).ok_or_else(|| format!("`{row}` is no {name} row"))?;
    }
    Ok(amounts)
}

/// The amount of a row: a name in 20 columns, and 20 more with the amount at their end.
fn read_row(row: &str, name: &str) -> Option<Sum> {
    let (left, right) = row.split_at_checked(20)?;
    let amount = right.replace([' ', ','], "").parse::<u64>().ok()? as Sum;
    let whole = left == format!("{name:<20}") && right == format!("{:>20}", grouped(amount));
    whole.then_some(amount)
}

/// An amount with its commas: the last three digits, and pairs before them.
fn grouped(amount: Sum) -> String {
    if amount < 1_000 {
        return amount.to_string();
    }
    format!("{},{:03}", in_pairs(amount / 1_000), amount % 1_000)
}

fn in_pairs(amount: Sum) -> String {
    if amount < 100 {
        return amount.to_string();
    }
    format!("{},{:02}", in_pairs(amount / 100), amount % 100)
}

#[cfg(test)]
mod tests {
    use super::*;

    #[test]
    fn commas() {
        let texts = [
            (0, "0"),
            (255, "255"),
            (1_000, "1,000"),
            (100_000, "1,00,000"),
            (255_000, "2,55,000"),
            (10_000_005, "1,00,00,005"),
            (26_000_000_000, "26,00,00,00,000"),
        ];
        for (amount, text) in texts {
            assert_eq!(grouped(amount), text);
        }
    }

    #[test]
    fn rows() {
        let row = "CALLS                           2,55,000";
        assert_eq!(read_row(row, "CALLS"), Some(255_000));
        let spoilt = [
            "CALL                            2,55,000",
            "CALLS                            255,000",
            "CALLS                             255000",
            "CALLS                          02,55,000",
            "CALLS                           ,255,000",
            "CALLS                           2,55,00 ",
            "CALLS                           2,55 000",
            "CALLS                          +2,55,000",
            "CALLS                          2,55,000",
            "CALLS                           2,55,000 ",
            "CALLS                                   ",
            "CALLS",
        ];
        for row in spoilt {
            assert_eq!(read_row(row, "CALLS"), None, "{row}");
        }
    }
}
