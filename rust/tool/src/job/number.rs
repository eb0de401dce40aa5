//! Whole numbers within the bounds of their type.

use std::fmt::{self, Display};
use std::marker::PhantomData;

use serde::de::{Deserialize, Deserializer, Error, Visitor};

/// A number of a type; one that is outside it is reported as such.
#[derive(Clone, Copy, Debug, PartialEq, Eq)]
pub struct Number<T>(pub T);

/// A type of whole numbers from 0 on.
pub trait Bounded: TryFrom<u64> {
    /// The largest.
    const MOST: u64;
}

impl Bounded for u8 {
    const MOST: u64 = u8::MAX as u64;
}

impl Bounded for u16 {
    const MOST: u64 = u16::MAX as u64;
}

impl Bounded for u32 {
    const MOST: u64 = u32::MAX as u64;
}

impl<'de, T: Bounded> Deserialize<'de> for Number<T> {
    fn deserialize<D: Deserializer<'de>>(from: D) -> Result<Number<T>, D::Error> {
        from.deserialize_any(Whole(PhantomData))
    }
}

/// The visitor that looks at the number that is there.
struct Whole<T>(PhantomData<T>);

impl<T: Bounded> Whole<T> {
    fn outside<E: Error>(number: impl Display) -> E {
        E::custom(format!("{number} is outside 0 to {}", T::MOST))
    }
}

impl<T: Bounded> Visitor<'_> for Whole<T> {
    type Value = Number<T>;

    fn expecting(&self, f: &mut fmt::Formatter<'_>) -> fmt::Result {
        write!(f, "a whole number from 0 to {}", T::MOST)
    }

    fn visit_u64<E: Error>(self, number: u64) -> Result<Number<T>, E> {
        let fits = T::try_from(number);
        fits.map(Number).map_err(|_| Self::outside(number))
    }

    fn visit_i64<E: Error>(self, number: i64) -> Result<Number<T>, E> {
        match u64::try_from(number) {
            Ok(number) => self.visit_u64(number),
            Err(_) => Err(Self::outside(number)),
        }
    }

    /// Numbers with a point or an exponent, and those of more than 64 bits.
    fn visit_f64<E: Error>(self, number: f64) -> Result<Number<T>, E> {
        match number.fract() == 0.0 && !(0.0..=T::MOST as f64).contains(&number) {
            true => Err(Self::outside(number)),
            false => Err(E::custom(format!(
                "{number:?} is not written as a whole number from 0 to {}",
                T::MOST
            ))),
        }
    }
}

#[cfg(test)]
mod tests {
    use super::Number;

    #[test]
    fn numbers_are_within_their_type() {
        let byte = |text| serde_json::from_str::<Number<u8>>(text).map_err(|e| e.to_string());
        assert_eq!(byte("0"), Ok(Number(0)));
        assert_eq!(byte("255"), Ok(Number(255)));
        for (text, words) in [
            ("256", "256 is outside 0 to 255"),
            ("-1", "-1 is outside 0 to 255"),
            ("18446744073709551615", "is outside 0 to 255"),
            ("99999999999999999999", "is outside 0 to 255"),
            ("1e3", "1000 is outside 0 to 255"),
            ("1.5", "1.5 is not written as a whole number from 0 to 255"),
            ("1.0", "1.0 is not written as a whole number from 0 to 255"),
            ("\"1\"", "expected a whole number from 0 to 255"),
            ("true", "expected a whole number from 0 to 255"),
            ("null", "expected a whole number from 0 to 255"),
        ] {
            let told = byte(text).unwrap_err();
            assert!(told.contains(words), "{text}: {told}");
        }
        let four = |text| serde_json::from_str::<Number<u32>>(text).is_ok();
        assert!(four("4294967295") && !four("4294967296"));
    }
}
