//! The split of a sum over weights.

/// A split under way: the sum and the weights still left.
pub struct Split {
    sum: u64,
    weights: u64,
}

impl Split {
    pub fn new(sum: u64, weights: u64) -> Self {
        Split { sum, weights }
    }

    /// The share of the next member, or of the next pool, in rising order.
    ///
    /// A member's weight is at most 400,000,000 and a sum below 46,000,000,000; a pool's weight is at
    /// most 26,000,000,000 and a contribution at most 400,000,000: the product fits.
    #[inline]
    pub fn share(&mut self, weight: u64) -> u64 {
        if weight == 0 {
            return 0;
        }
        let share = if self.sum == self.weights {
            weight // the whole total is taken: weight * sum / sum
        } else if weight == self.weights {
            self.sum // the last weight: weight * sum / weight
        } else {
            weight * self.sum / self.weights
        };
        self.sum -= share;
        self.weights -= weight;
        share
    }
}

#[cfg(test)]
mod tests {
    use super::Split;

    fn split(sum: u64, weights: &[u64]) -> Vec<u64> {
        let mut split = Split::new(sum, weights.iter().sum());
        weights.iter().map(|&w| split.share(w)).collect()
    }

    #[test]
    fn examples() {
        assert_eq!(split(5, &[3, 3, 4]), [1, 1, 3]);
        assert_eq!(split(6, &[3, 3, 4]), [1, 2, 3]);
        assert_eq!(split(10, &[3, 3, 4]), [3, 3, 4]);
        assert_eq!(split(5, &[0, 5]), [0, 5]);
    }

    #[test]
    fn zero_weights_take_nothing() {
        assert_eq!(split(0, &[0, 0]), [0, 0]);
        assert_eq!(split(7, &[0, 0, 0]), [0, 0, 0]);
        assert_eq!(split(7, &[5, 0]), [7, 0]);
    }

    #[test]
    fn plain_shares() {
        assert_eq!(split(0, &[3, 0, 4]), [0, 0, 0]);
        assert_eq!(split(7, &[3, 0, 4]), [3, 0, 4]);
        assert_eq!(split(5, &[0, 9, 0]), [0, 5, 0]);
        assert_eq!(split(9, &[5, 3, 2]), [4, 3, 2]);
    }

    #[test]
    fn shortcuts_agree_with_the_division() {
        for sum in 0..40u64 {
            for code in 0..256u64 {
                let weights = [code & 3, (code >> 2) & 3, (code >> 4) & 3, code >> 6];
                let (mut left, mut total) = (sum, weights.iter().sum::<u64>());
                let plain = weights.map(|w| {
                    let share = if w == 0 { 0 } else { w * left / total };
                    left -= share;
                    total -= w;
                    share
                });
                assert_eq!(split(sum, &weights), plain);
            }
        }
    }
}
