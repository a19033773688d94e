//! Exact fractions, so that no amount is rounded before its line is rounded.

/// A numerator over a denominator above zero. The sizes met here stay far below the limits of
/// `i128`: totals are held within a thousand million before the next percentage is taken.
#[derive(Debug, Clone, Copy)]
pub struct Fraction {
    numerator: i128,
    denominator: i128,
}

impl Fraction {
    pub fn whole(number: i128) -> Self {
        Fraction { numerator: number, denominator: 1 }
    }

    pub fn over(numerator: i128, denominator: i128) -> Self {
        assert!(denominator > 0, "the denominators here are fixed or checked");
        Fraction { numerator, denominator }
    }

    pub fn plus(self, other: Fraction) -> Self {
        Fraction::over(
            self.numerator * other.denominator + other.numerator * self.denominator,
            self.denominator * other.denominator,
        )
    }

    pub fn times(self, factor: i128) -> Self {
        Fraction::over(self.numerator * factor, self.denominator)
    }

    pub fn divided_by(self, divisor: i128) -> Self {
        Fraction::over(self.numerator, self.denominator * divisor)
    }

    /// The greatest whole number not above the fraction.
    pub fn floor(self) -> i128 {
        self.numerator.div_euclid(self.denominator)
    }

    /// The least whole number not below the fraction.
    pub fn ceiling(self) -> i128 {
        -(-self.numerator).div_euclid(self.denominator)
    }

    /// The nearest whole number; of two equally near ones the one farther from zero.
    pub fn nearest(self) -> i128 {
        if self.numerator < 0 {
            self.plus(Fraction::over(-1, 2)).ceiling()
        } else {
            self.plus(Fraction::over(1, 2)).floor()
        }
    }
}

#[cfg(test)]
mod tests {
    use super::Fraction;

    /// The whole number not above, the one not below, and the nearest.
    fn rounded(numerator: i128, denominator: i128) -> (i128, i128, i128) {
        let fraction = Fraction::over(numerator, denominator);
        (fraction.floor(), fraction.ceiling(), fraction.nearest())
    }

    #[test]
    fn halves_go_away_from_zero() {
        assert_eq!(rounded(1, 2), (0, 1, 1));
        assert_eq!(rounded(-1, 2), (-1, 0, -1));
        assert_eq!(rounded(3, 2), (1, 2, 2));
        assert_eq!(rounded(-3, 2), (-2, -1, -2));
        assert_eq!(rounded(-10, 4), (-3, -2, -3));
    }

    #[test]
    fn what_is_no_half_goes_to_the_nearest() {
        for near in [499, 501] {
            let up = i128::from(near > 500);
            assert_eq!(rounded(near, 1_000), (0, 1, up));
            assert_eq!(rounded(-near, 1_000), (-1, 0, -up));
            assert_eq!(rounded(7_000 + near, 1_000), (7, 8, 7 + up));
            assert_eq!(rounded(-7_000 - near, 1_000), (-8, -7, -7 - up));
        }
        for whole in [-7, -1, 0, 1, 7] {
            assert_eq!(rounded(whole, 1), (whole, whole, whole));
            assert_eq!(rounded(3 * whole, 3), (whole, whole, whole));
        }
    }
}
