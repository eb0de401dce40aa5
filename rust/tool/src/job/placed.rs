//! Objects that are looked at once more when they are read, so that a mistake in one is reported where it ends.

use std::fmt;
use std::marker::PhantomData;

use serde::de::value::MapAccessDeserializer;
use serde::de::{Deserialize, Deserializer, Error, MapAccess, Visitor};

/// Reads an object as an `A`, and makes a `T` of it.
pub fn object<'de, A, T, D>(from: D) -> Result<T, D::Error>
where
    A: Deserialize<'de>,
    T: TryFrom<A, Error = String>,
    D: Deserializer<'de>,
{
    from.deserialize_map(Object(PhantomData::<(A, T)>))
}

struct Object<A, T>(PhantomData<(A, T)>);

impl<'de, A: Deserialize<'de>, T: TryFrom<A, Error = String>> Visitor<'de> for Object<A, T> {
    type Value = T;

    fn expecting(&self, f: &mut fmt::Formatter<'_>) -> fmt::Result {
        write!(f, "an object")
    }

    fn visit_map<M: MapAccess<'de>>(self, map: M) -> Result<T, M::Error> {
        let any = A::deserialize(MapAccessDeserializer::new(map))?;
        T::try_from(any).map_err(M::Error::custom)
    }
}
