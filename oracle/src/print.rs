//! How lists and requests are printed: runs in one word.

use crate::host::Request;

/// Each value in hexadecimal after a space, and n > 1 equal ones that follow each other as `x*n`.
pub fn values<T: Copy + PartialEq + Into<u64>>(list: &[T]) -> String {
    let mut text = String::new();
    for run in list.chunk_by(|before, value| before == value) {
        text += &format!(" {:#x}", run[0].into());
        if run.len() > 1 {
            text += &format!("*{}", run.len());
        }
    }
    text
}

/// Each request after a space, and n > 1 of one level at addresses that follow each other as `level@address*n`.
pub fn requests(list: &[Request]) -> String {
    let follows = |before: &Request, request: &Request| {
        before.level == request.level && before.address.checked_add(before.size()) == Some(request.address)
    };
    let mut text = String::new();
    for run in list.chunk_by(follows) {
        text += &format!(" {}@{:#x}", run[0].level, run[0].address);
        if run.len() > 1 {
            text += &format!("*{}", run.len());
        }
    }
    text
}
