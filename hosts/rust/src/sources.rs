use crate::archive::{self, Found};
use crate::error::{Result, answer};

/// The sources: items of bytes that stay the same for as long as a machine and its snapshots are used.
///
/// They are built by [`add`](Sources::add), which allocates. No call that looks an item up does.
#[derive(Clone, Debug, Default)]
pub struct Sources {
    directory: Vec<u64>,
    bytes: Vec<u8>,
}

impl Sources {
    /// No item.
    pub fn new() -> Sources {
        Sources::default()
    }

    /// Adds an item. The first item with an id decides: another one with the same id is never found.
    pub fn add(&mut self, id: u64, data: &[u8]) {
        self.directory.extend([id, self.bytes.len() as u64, data.len() as u64]);
        self.bytes.extend_from_slice(data);
    }

    /// The bytes of an item from `offset` on, at most `length`, and how many remain from there in all.
    ///
    /// Refused 6: no such item, or an offset above its length.
    pub fn load_data(&self, id: u64, offset: u64, length: u64) -> Result<(&[u8], u64)> {
        let Found { number, start, count, full } = archive::find_data(self.lent(), id, offset, length);
        answer(number).map(|()| (&self.bytes[start as usize..][..count as usize], full))
    }

    pub(crate) fn lent(&self) -> archive::Sources<'_> {
        archive::Sources { directory: &self.directory, bytes: &self.bytes }
    }
}
