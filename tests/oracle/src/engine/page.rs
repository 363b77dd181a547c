//! The page for the wall: the layers and the shortfall of a default, in Indian figures.

use super::waterfall::DefaultAnswer;

/// A line of 40 columns and its newline.
const LINE: usize = 41;
/// The first column of an amount, and that of its last digit.
const AMOUNT: usize = 20;
const LAST: usize = 39;
/// A page has eight lines.
pub const PAGE_BYTES: usize = 8 * LINE;
/// The greatest loss and the greatest fallen call together: no amount of a drill is above it.
const MAX_PRINTED: u64 = 26_000_000_000;

const BLANK_PAGE: [u8; PAGE_BYTES] = *b"\
    LAYER                        Rs THOUSAND\n\
    MARGIN                                  \n\
    OWN FUND                                \n\
    TRANCHE 1                               \n\
    MEMBERS                                 \n\
    TRANCHE 2                               \n\
    CALLS                                   \n\
    SHORT                                   \n";

/// Prints an answer on the first bytes of a page; refusal 20 leaves all of it untouched.
pub fn print_page(answer: &DefaultAnswer, page: &mut [u8]) -> Result<(), u8> {
    let page = page.first_chunk_mut::<PAGE_BYTES>().ok_or(20)?;
    let [l1, l2, l3, l4, l5, l6] = answer.layers;
    let amounts = [l1, l2, l3, l4, l5, l6, answer.short];
    if amounts.iter().any(|&amount| amount > MAX_PRINTED) {
        return Err(20);
    }
    *page = BLANK_PAGE;
    let (lines, _) = page.as_chunks_mut();
    for (line, amount) in lines.iter_mut().skip(1).zip(amounts) {
        print_amount(amount, line);
    }
    Ok(())
}

/// Writes an amount over the spaces at the end of its line, the last digit first.
///
/// Three digits stand at the end and pairs before them, so all but the very last digit
/// go into groups of a comma's column and a pair.
#[inline]
fn print_amount(mut amount: u64, line: &mut [u8; LINE]) {
    line[LAST] = take_digit(&mut amount);
    let (_, groups) = line[AMOUNT..LAST].as_rchunks_mut::<3>();
    for [comma, pair @ ..] in groups.iter_mut().rev() {
        for column in pair.iter_mut().rev() {
            if amount == 0 {
                return;
            }
            *column = take_digit(&mut amount);
        }
        if amount > 0 {
            *comma = b',';
        }
    }
}

/// Takes the last digit off an amount.
fn take_digit(amount: &mut u64) -> u8 {
    let digit = (*amount % 10) as u8;
    *amount /= 10;
    b'0' + digit
}

/// The page of the first default of the drill examples.
#[cfg(test)]
pub const FIRST_PAGE: &str = "\
    LAYER                        Rs THOUSAND\n\
    MARGIN                            50,000\n\
    OWN FUND                          20,000\n\
    TRANCHE 1                         13,200\n\
    MEMBERS                           16,800\n\
    TRANCHE 2                              0\n\
    CALLS                                  0\n\
    SHORT                                  0\n";

#[cfg(test)]
mod tests {
    use super::*;

    /// The first default of the drill examples.
    const FIRST: DefaultAnswer = DefaultAnswer {
        fallen: 0,
        layers: [50_000, 20_000, 13_200, 16_800, 0, 0],
        short: 0,
    };

    #[test]
    fn amounts() {
        let texts = [
            (0, "                   0"),
            (7, "                   7"),
            (10, "                  10"),
            (255, "                 255"),
            (999, "                 999"),
            (1_000, "               1,000"),
            (99_999, "              99,999"),
            (100_000, "            1,00,000"),
            (255_000, "            2,55,000"),
            (9_999_999, "           99,99,999"),
            (10_000_000, "         1,00,00,000"),
            (999_999_999, "        99,99,99,999"),
            (1_000_000_000, "      1,00,00,00,000"),
            (12_345_678_901, "     12,34,56,78,901"),
            (26_000_000_000, "     26,00,00,00,000"),
        ];
        for (amount, text) in texts {
            let mut line = [b'.'; LINE];
            line[20..40].fill(b' ');
            print_amount(amount, &mut line);
            let whole = format!("{}{text}.", ".".repeat(20));
            assert_eq!(std::str::from_utf8(&line), Ok(&*whole), "{amount}");
        }
    }

    #[test]
    fn the_first_default() {
        let mut page = [b'x'; 328];
        assert_eq!(print_page(&FIRST, &mut page), Ok(()));
        assert_eq!(std::str::from_utf8(&page), Ok(FIRST_PAGE));
    }

    /// What another page has left on the buffer does not show through.
    #[test]
    fn a_page_printed_over_another() {
        let large = DefaultAnswer {
            fallen: 3,
            layers: [26_000_000_000; 6],
            short: 26_000_000_000,
        };
        let mut page = [0; 328];
        assert_eq!(print_page(&large, &mut page), Ok(()));
        assert_eq!(print_page(&FIRST, &mut page), Ok(()));
        assert_eq!(std::str::from_utf8(&page), Ok(FIRST_PAGE));
    }

    #[test]
    fn the_largest_amounts_and_the_places_of_all_seven() {
        let answer = DefaultAnswer {
            fallen: 400_000_000,
            layers: [1, 22, 333, 4_444, 55_555, 666_666],
            short: 26_000_000_000,
        };
        let mut page = [0; 328];
        assert_eq!(print_page(&answer, &mut page), Ok(()));
        let expected = "\
            LAYER                        Rs THOUSAND\n\
            MARGIN                                 1\n\
            OWN FUND                              22\n\
            TRANCHE 1                            333\n\
            MEMBERS                            4,444\n\
            TRANCHE 2                         55,555\n\
            CALLS                           6,66,666\n\
            SHORT                    26,00,00,00,000\n";
        assert_eq!(std::str::from_utf8(&page), Ok(expected));
    }

    #[test]
    fn bytes_after_the_page_stay() {
        for more in [0, 1, 41, 1_000] {
            let mut page = vec![7; 328 + more];
            assert_eq!(print_page(&FIRST, &mut page), Ok(()));
            assert_eq!(page[..328], *FIRST_PAGE.as_bytes());
            assert_eq!(page[328..], vec![7; more]);
        }
    }

    #[test]
    fn too_short_a_page_is_untouched() {
        for length in [0, 1, 40, 287, 327] {
            let mut page = vec![7; length];
            assert_eq!(print_page(&FIRST, &mut page), Err(20));
            assert_eq!(page, vec![7; length]);
        }
    }

    #[test]
    fn too_large_an_amount_is_refused_in_each_place() {
        for place in 0..7 {
            for amount in [26_000_000_001, u64::MAX] {
                let mut answer = FIRST;
                match answer.layers.get_mut(place) {
                    Some(layer) => *layer = amount,
                    None => answer.short = amount,
                }
                let mut page = [7; 400];
                assert_eq!(print_page(&answer, &mut page), Err(20), "place {place}");
                assert_eq!(page, [7; 400]);
            }
        }
    }

    /// The fallen call is not on the page, and no check speaks of it.
    #[test]
    fn the_fallen_call_is_not_read() {
        let answer = DefaultAnswer {
            fallen: u64::MAX,
            ..FIRST
        };
        let mut page = [0; 328];
        assert_eq!(print_page(&answer, &mut page), Ok(()));
        assert_eq!(std::str::from_utf8(&page), Ok(FIRST_PAGE));
    }
}
