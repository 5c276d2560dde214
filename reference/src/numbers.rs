//! The two number kinds (docs/NUMBERS.md).

/// Decimal numbers are taken modulo this.
const DECIMAL_SIZE: u64 = 100_000_000;

#[derive(Clone, Copy, Debug, PartialEq, Eq)]
pub enum Kind {
    Binary,
    Decimal,
}

impl Kind {
    pub fn is_number(self, word: u32) -> bool {
        match self {
            Kind::Binary => true,
            Kind::Decimal => (0..8).all(|digit| (word >> (4 * digit)) & 15 <= 9),
        }
    }

    /// The word of a literal, or none where the kind has no reading for it.
    pub fn literal(self, value: u64) -> Option<u32> {
        match self {
            Kind::Binary => (value < 1 << 31).then_some(value as u32),
            Kind::Decimal => (value < DECIMAL_SIZE).then(|| pack(value)),
        }
    }

    pub fn sum(self, a: u32, b: u32) -> u32 {
        match self {
            Kind::Binary => a.wrapping_add(b),
            Kind::Decimal => pack((unpack(a) + unpack(b)) % DECIMAL_SIZE),
        }
    }

    pub fn difference(self, a: u32, b: u32) -> u32 {
        match self {
            Kind::Binary => a.wrapping_sub(b),
            Kind::Decimal => pack((unpack(a) + DECIMAL_SIZE - unpack(b)) % DECIMAL_SIZE),
        }
    }

    pub fn product(self, a: u32, b: u32) -> u32 {
        match self {
            Kind::Binary => a.wrapping_mul(b),
            Kind::Decimal => pack(unpack(a) * unpack(b) % DECIMAL_SIZE),
        }
    }

    pub fn less(self, a: u32, b: u32) -> bool {
        match self {
            Kind::Binary => (a as i32) < (b as i32),
            Kind::Decimal => unpack(a) < unpack(b),
        }
    }

    pub fn written(self, word: u32) -> String {
        match self {
            Kind::Binary => (word as i32).to_string(),
            Kind::Decimal => unpack(word).to_string(),
        }
    }
}

/// The number that a word's eight digits write.
fn unpack(word: u32) -> u64 {
    (0..8).rev().fold(0, |number, digit| 10 * number + u64::from((word >> (4 * digit)) & 15))
}

/// The word of a number below the size.
pub fn pack(number: u64) -> u32 {
    let digit = |place: u32| (number / 10u64.pow(place) % 10) as u32;
    (0..8).fold(0, |word, place| word | digit(place) << (4 * place))
}

#[cfg(test)]
mod tests {
    use super::*;

    #[test]
    fn binary_wraps_and_is_signed() {
        let most = Kind::Binary.literal(2_147_483_647).expect("a literal");
        assert_eq!(Kind::Binary.literal(2_147_483_648), None);
        assert_eq!(Kind::Binary.written(Kind::Binary.sum(most, 1)), "-2147483648");
        assert_eq!(Kind::Binary.written(Kind::Binary.difference(0, 1)), "-1");
        assert!(Kind::Binary.less(Kind::Binary.difference(0, 1), 0));
        assert!(!Kind::Binary.less(1, 1));
        assert_eq!(Kind::Binary.product(65_536, 65_536), 0);
    }

    #[test]
    fn decimal_is_packed_and_wraps() {
        let most = Kind::Decimal.literal(99_999_999).expect("a literal");
        assert_eq!(most, 0x9999_9999);
        assert_eq!(Kind::Decimal.literal(100_000_000), None);
        assert_eq!(Kind::Decimal.sum(most, 1), 0);
        assert_eq!(Kind::Decimal.difference(0, 1), most);
        assert_eq!(Kind::Decimal.product(most, most), 1);
        assert_eq!(Kind::Decimal.written(0x0012_3456), "123456");
        assert!(Kind::Decimal.less(0x9, 0x10));
        assert!(!Kind::Decimal.is_number(0xA0));
        assert!(Kind::Decimal.is_number(0x1234_5678));
    }
}
