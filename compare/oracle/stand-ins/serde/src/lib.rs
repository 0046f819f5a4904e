//! The part of serde that the six Rust files name. It is compiled and never called.

pub use derives::{Deserialize, Serialize};

pub trait Serializer {
    type Ok;
    type Error;
    fn serialize_str(self, text: &str) -> Result<Self::Ok, Self::Error>;
}

pub trait Serialize {
    fn serialize<S: Serializer>(&self, serializer: S) -> Result<S::Ok, S::Error>;
}

pub trait Deserializer<'de> {
    type Error;
    fn deserialize_string(self) -> Result<String, Self::Error>;
}

pub trait Deserialize<'de>: Sized {
    fn deserialize<D: Deserializer<'de>>(deserializer: D) -> Result<Self, D::Error>;
}

impl<'de> Deserialize<'de> for String {
    fn deserialize<D: Deserializer<'de>>(deserializer: D) -> Result<Self, D::Error> {
        deserializer.deserialize_string()
    }
}
