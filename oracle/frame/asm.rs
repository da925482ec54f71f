//! What stands for the TDCALL instruction: each call goes to the function that the driver has set.

use std::sync::OnceLock;

use crate::tdcall::TdcallArgs;

/// Takes the registers RAX (the number of the leaf) and RCX, and replies the status.
pub type Module = fn(leaf: u64, rcx: u64) -> u64;

static MODULE: OnceLock<Module> = OnceLock::new();

/// Sets the function that all later calls go to. Only the first one that is set counts.
pub fn set_module(module: Module) {
    let _ = MODULE.set(module);
}

pub(crate) unsafe fn asm_td_call(args: *mut TdcallArgs) -> u64 {
    let registers = args.cast::<u64>();
    // SAFETY: the caller's arguments are nine u64 in the order of their declaration (repr(C)): RAX first, then RCX.
    let (leaf, rcx) = unsafe { (registers.read(), registers.add(1).read()) };
    let module = MODULE.get().expect("a module is set before the first call");
    module(leaf, rcx)
}
