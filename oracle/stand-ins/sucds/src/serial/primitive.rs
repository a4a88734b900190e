//! Stand-in: the primitive types are serializable, by name only. Nothing here is ever run.

use crate::io::{Read, Write};
use crate::{Result, Serializable};

macro_rules! serializable {
    ($($t:ty)*) => {$(
        impl Serializable for $t {
            fn serialize_into<W: Write>(&self, _: W) -> Result<usize> {
                unimplemented!()
            }

            fn deserialize_from<R: Read>(_: R) -> Result<Self> {
                unimplemented!()
            }

            fn size_in_bytes(&self) -> usize {
                unimplemented!()
            }
        }
    )*};
}

serializable!(bool u8 u16 u32 u64 usize i8 i16 i32 i64);
