//! Stands in for the crate `serde`: the traits that the crate names, so that it compiles. Nothing is run through it.

pub trait Serialize {
    fn serialize<S: ser::Serializer>(&self, serializer: S) -> Result<S::Ok, S::Error>;
}

pub trait Deserialize<'de>: Sized {
    fn deserialize<D: de::Deserializer<'de>>(deserializer: D) -> Result<Self, D::Error>;
}

impl<'de: 'a, 'a> Deserialize<'de> for &'a str {
    fn deserialize<D: de::Deserializer<'de>>(deserializer: D) -> Result<Self, D::Error> {
        deserializer.text()
    }
}

pub mod ser {
    pub trait Serializer {
        type Ok;
        type Error;
        fn serialize_str(self, text: &str) -> Result<Self::Ok, Self::Error>;
    }
}

pub mod de {
    pub trait Error {
        fn custom<T: std::fmt::Display>(text: T) -> Self;
    }

    pub trait Deserializer<'de> {
        type Error: Error;
        fn text(self) -> Result<&'de str, Self::Error>;
    }
}
