//! Stand-in for serde, for the bench alone: the names that the published `snake.rs` writes, so that it compiles unchanged
//! without a package of serde for the measured machine. Nothing that is measured reaches any of it.

pub use serde_derive::{Deserialize, Serialize};

pub trait Serializer {
    type Ok;
    type Error;
}

pub trait Deserializer<'de> {
    type Error: de::Error;
}

pub trait Serialize {
    fn serialize<S: Serializer>(&self, _: S) -> Result<S::Ok, S::Error> {
        unreachable!("the bench writes no snapshot")
    }
}

impl<T: ?Sized> Serialize for T {}

pub trait Deserialize<'de>: Sized {
    fn deserialize<D: Deserializer<'de>>(_: D) -> Result<Self, D::Error> {
        unreachable!("the bench reads no snapshot")
    }
}

impl<'de, T> Deserialize<'de> for T {}

pub mod de {
    pub trait Error: Sized {
        fn custom<T: std::fmt::Display>(message: T) -> Self;
    }
}
