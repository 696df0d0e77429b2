//! Harness: deliberately different readings of the missing file, chosen by ORACLE_VARIANT (sum of bits, default 0).
use std::sync::atomic::{AtomicU32, Ordering};
static VARIANT : AtomicU32 = AtomicU32::new(0);
pub const PLACE_JOINED_REVERSED : u32 = 1; //the last of the joined results is placed first
pub const QUEUE_JOINED_REVERSED : u32 = 2; //the last of the joined results is queued first
pub const QUEUE_SUBTREES_REVERSED : u32 = 4; //what a necessity gives the last path is queued first
pub const PLACE_SUBTREES_AT_TARGET : u32 = 8; //what a necessity gives goes below the node taken, not on its own path
pub const DROP_UNPLACED_FROM_QUEUE : u32 = 16; //what no open path took is not queued
pub fn set(bits : u32) { VARIANT.store(bits, Ordering::Relaxed); }
#[inline] pub fn on(bit : u32) -> bool { return VARIANT.load(Ordering::Relaxed) & bit != 0; }
