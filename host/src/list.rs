//! A jet list, as the library takes it and as the oracle does.

use oracle::Jets;

pub struct List {
    pub bytes: Vec<u8>,
    pub known: Jets,
}

impl List {
    pub fn new(bytes: &[u8]) -> Self {
        List {
            bytes: bytes.to_vec(),
            known: Jets::new(bytes),
        }
    }
}
