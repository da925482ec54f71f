//! The entries of a `find`, as the original takes them.

use std::ffi::c_void;
use std::ptr::NonNull;

use uefi_raw::table::configuration::ConfigurationTable;
use uefi_raw::Guid;

/// The bytes of an entry.
pub const ENTRY: usize = 24;
const GUID: usize = 16;
const HEADER: u64 = 24;
/// Words behind the copy of an image, beyond its own, for an image that is shorter than a header.
const BEHIND: usize = 4;

/// The table's GUID as it lies in memory.
pub const TABLE_GUID: [u8; GUID] =
    [0x3c, 0xde, 0xd1, 0xd5, 0x5c, 0x10, 0xf9, 0x44, 0x9e, 0xa9, 0xbc, 0xef, 0x98, 0x12, 0x00, 0x31];

/// The pointer of the first entry with the table's GUID.
pub fn first_match(bytes: &[u8]) -> Option<u64> {
    bytes.chunks_exact(ENTRY).find(|entry| entry[..GUID] == TABLE_GUID).map(pointer)
}

fn pointer(entry: &[u8]) -> u64 {
    u64::from_le_bytes(entry[GUID..].try_into().expect("an entry has a pointer of eight bytes"))
}

/// Whether a header at the pointer would end above the last address.
pub fn is_too_high(pointer: u64) -> bool {
    pointer.checked_add(HEADER).is_none()
}

/// The entries as the original's type, or `None` where they cannot be that: bytes that are no whole number of entries, or a
/// first match at which no memory can lie. The pointer of the first match is put in place by one to the image, at an address
/// with the same remainder by 8, on which alone the original's answer depends; null stays null. A later match points to other
/// words, which are no table.
pub fn typed(bytes: &[u8], image: &[u64], memory: NonNull<u64>) -> Option<Vec<ConfigurationTable>> {
    if bytes.len() % ENTRY != 0 {
        return None;
    }
    let matching = first_match(bytes);
    if matching.is_some_and(is_too_high) {
        return None;
    }
    let mut places = std::iter::once(match matching {
        None | Some(0) => std::ptr::null_mut(),
        Some(pointer) => image_at(pointer % 8, image, memory),
    });
    let mut entries = Vec::new();
    for entry in bytes.chunks_exact(ENTRY) {
        let guid: [u8; GUID] = entry[..GUID].try_into().expect("an entry has a GUID");
        let vendor_table =
            if guid == TABLE_GUID { places.next().unwrap_or_else(no_table) } else { pointer(entry) as *mut c_void };
        entries.push(ConfigurationTable { vendor_guid: Guid::from_bytes(guid), vendor_table });
    }
    Some(entries)
}

/// Words of which the first tells a version that no table has.
fn no_table() -> *mut c_void {
    vec![0u64; BEHIND].leak().as_mut_ptr().cast()
}

/// The image's own memory, or for an address that is no multiple of 8 a copy of its words there, which is never freed.
fn image_at(remainder: u64, image: &[u64], memory: NonNull<u64>) -> *mut c_void {
    if remainder == 0 {
        return memory.as_ptr().cast();
    }
    let mut bytes = vec![0; remainder as usize];
    bytes.extend(image.iter().flat_map(|word| word.to_le_bytes()));
    let copy = vec![0u64; image.len() + BEHIND].leak();
    let start = copy.as_mut_ptr().cast::<u8>();
    // SAFETY: the copy has more bytes than these.
    unsafe {
        start.copy_from(bytes.as_ptr(), bytes.len());
        start.add(remainder as usize).cast()
    }
}
