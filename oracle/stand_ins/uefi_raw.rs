//! A stand-in for the crate uefi-raw: the few names that the original's files use, with the layout of the UEFI standard.

/// A GUID as it lies in memory.
#[repr(C, align(4))]
#[derive(Clone, Copy, Debug, Eq, PartialEq)]
pub struct Guid {
    bytes: [u8; 16],
}

/// The place in memory of each pair of digits of a GUID that is written out: the first three groups are little-endian.
const PLACES: [usize; 16] = [3, 2, 1, 0, 5, 4, 7, 6, 8, 9, 10, 11, 12, 13, 14, 15];

impl Guid {
    pub const fn from_bytes(bytes: [u8; 16]) -> Self {
        Self { bytes }
    }

    /// Reads a GUID as it is written, 8-4-4-4-12 digits.
    pub const fn parse(text: &str) -> Self {
        let text = text.as_bytes();
        assert!(text.len() == 36);
        let mut bytes = [0; 16];
        let mut at = 0;
        let mut pair = 0;
        while pair < 16 {
            if text[at] == b'-' {
                at += 1;
            }
            bytes[PLACES[pair]] = digit(text[at]) * 16 + digit(text[at + 1]);
            at += 2;
            pair += 1;
        }
        Self { bytes }
    }
}

const fn digit(character: u8) -> u8 {
    match character {
        b'0'..=b'9' => character - b'0',
        b'a'..=b'f' => character - b'a' + 10,
        _ => panic!("a digit of a GUID"),
    }
}

#[macro_export]
macro_rules! guid {
    ($text:literal) => {
        $crate::Guid::parse($text)
    };
}

pub mod table {
    pub mod configuration {
        use core::ffi::c_void;

        #[repr(C)]
        pub struct ConfigurationTable {
            pub vendor_guid: crate::Guid,
            pub vendor_table: *mut c_void,
        }
    }

    pub mod system {
        use super::configuration::ConfigurationTable;

        /// Only the two fields that the original reads. No script runs the function that reads them.
        #[repr(C)]
        pub struct SystemTable {
            pub number_of_configuration_table_entries: usize,
            pub configuration_table: *const ConfigurationTable,
        }
    }
}
