//! The refusals: names, numbers and texts are those of document 01's table.

use latchpebble::Error;

const NAMES: [&str; 11] = [
    "InvalidVersion",
    "MemOutOfBound",
    "MemPageUnalignedAccess",
    "MemWriteOnExecutablePage",
    "MemWriteOnFreezedPage",
    "SnapshotDataLoadError",
    "AllSlotsInUse",
    "OutputTooShort",
    "BadStorage",
    "NoSuchRegister",
    "BadRecordFile",
];

#[test]
fn each_number_has_its_name() {
    assert_eq!(Error::ALL.map(|error| format!("{error:?}")), NAMES);
    for (number, error) in (1..).zip(Error::ALL) {
        assert_eq!(error.number(), number);
        assert_eq!(Error::from_number(number), Some(error));
    }
    for number in [0, 12, u32::MAX] {
        assert_eq!(Error::from_number(number), None);
    }
}

#[test]
fn a_line_for_people() {
    for error in Error::ALL {
        let line = error.to_string();
        assert_eq!(line, format!("{}: {}", error.number(), error.meaning()));
        assert!(!line.contains('\n') && !error.meaning().is_empty());
    }
    let error: Box<dyn std::error::Error> = Error::AllSlotsInUse.into();
    assert_eq!(error.to_string(), "7: an absent page must be written and all slots are in use");
}
