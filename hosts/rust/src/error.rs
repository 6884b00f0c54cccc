use std::fmt;

/// A refusal: one case for each number of document 01's table.
///
/// The first six are named as the upstream's errors. What a refused call leaves is said with each call.
#[derive(Clone, Copy, Debug, PartialEq, Eq, Hash)]
#[repr(u32)]
pub enum Error {
    /// 1: the snapshot is of another version.
    InvalidVersion = 1,
    /// 2: past the machine's memory, past the maximum, or a sum past 2^64-1.
    MemOutOfBound = 2,
    /// 3: an address, a size or data that is not whole pages.
    MemPageUnalignedAccess = 3,
    /// 4: a store to an executable page, or an execute load from one that isn't.
    MemWriteOnExecutablePage = 4,
    /// 5: a page fill that meets a frozen page.
    MemWriteOnFreezedPage = 5,
    /// 6: no such item, its range leaves the source bytes, or the offset is past its end.
    SnapshotDataLoadError = 6,
    /// 7: an absent page must be written and all slots are in use.
    AllSlotsInUse = 7,
    /// 8: a lent output is too short.
    OutputTooShort = 8,
    /// 9: a memory size, a lent length or a page's slot number that can't be.
    BadStorage = 9,
    /// 10: register number 32 or more.
    NoSuchRegister = 10,
    /// 11: a record file that is not in its form.
    BadRecordFile = 11,
}

/// What a call answers.
pub type Result<T> = std::result::Result<T, Error>;

impl Error {
    /// All of them, by their numbers.
    pub const ALL: [Error; 11] = [
        Error::InvalidVersion,
        Error::MemOutOfBound,
        Error::MemPageUnalignedAccess,
        Error::MemWriteOnExecutablePage,
        Error::MemWriteOnFreezedPage,
        Error::SnapshotDataLoadError,
        Error::AllSlotsInUse,
        Error::OutputTooShort,
        Error::BadStorage,
        Error::NoSuchRegister,
        Error::BadRecordFile,
    ];

    /// The number of document 01's table.
    pub const fn number(self) -> u32 {
        self as u32
    }

    /// The refusal with a number; none for 0, which is no refusal, and for 12 and above.
    pub fn from_number(number: u32) -> Option<Error> {
        Error::ALL.into_iter().find(|error| error.number() == number)
    }

    /// What it means, in a line.
    pub const fn meaning(self) -> &'static str {
        match self {
            Error::InvalidVersion => "the snapshot is of another version",
            Error::MemOutOfBound => "past the machine's memory, past the maximum, or a sum past 2^64-1",
            Error::MemPageUnalignedAccess => "an address, a size or data that is not whole pages",
            Error::MemWriteOnExecutablePage => "a store to an executable page, or an execute load from one that isn't",
            Error::MemWriteOnFreezedPage => "a page fill that meets a frozen page",
            Error::SnapshotDataLoadError => {
                "no such item, its range leaves the source bytes, or the offset is past its end"
            }
            Error::AllSlotsInUse => "an absent page must be written and all slots are in use",
            Error::OutputTooShort => "a lent output is too short",
            Error::BadStorage => "a memory size, a lent length or a page's slot number that can't be",
            Error::NoSuchRegister => "register number 32 or more",
            Error::BadRecordFile => "a record file that is not in its form",
        }
    }
}

impl fmt::Display for Error {
    fn fmt(&self, f: &mut fmt::Formatter) -> fmt::Result {
        write!(f, "{}: {}", self.number(), self.meaning())
    }
}

impl std::error::Error for Error {}

/// What a number of the archive says: done, or which refusal.
#[inline]
pub(crate) fn answer(number: u32) -> Result<()> {
    if number == 0 { Ok(()) } else { Err(refusal(number)) }
}

#[cold]
fn refusal(number: u32) -> Error {
    Error::from_number(number).expect("the archive's numbers are 0 to 11")
}
