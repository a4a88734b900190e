//! Stand-in: the type `Bytes` with the calls that the crate makes of it. Nothing here is ever run.

#[derive(Clone)]
pub struct Bytes(Vec<u8>);

impl Bytes {
    pub fn split_to(&mut self, at: usize) -> Self {
        let rest = self.0.split_off(at);
        Self(core::mem::replace(&mut self.0, rest))
    }
}

impl core::ops::Deref for Bytes {
    type Target = [u8];

    fn deref(&self) -> &[u8] {
        &self.0
    }
}

impl From<Vec<u8>> for Bytes {
    fn from(v: Vec<u8>) -> Self {
        Self(v)
    }
}
