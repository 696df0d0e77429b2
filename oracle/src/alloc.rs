//! Harness: a thread-local free-list allocator (the prover clones whole paths all the time: twice as fast as the
//! system's) that counts blocks: a measure of a run's work that is the same on every machine.
use std::alloc::{GlobalAlloc, Layout, System};
use std::cell::UnsafeCell;
use std::sync::atomic::{AtomicU64, Ordering};

const SMALL : usize = 33;                //classes 0..32: multiples of 16 up to 512 bytes
const CLASSES : usize = SMALL + 14;      //then powers of two: 1 KiB .. 8 MiB
const CHUNK : usize = 1 << 20;
struct Lists { free : [*mut u8; CLASSES], at : *mut u8, left : usize }
thread_local! { static LISTS : UnsafeCell<Lists> = const { UnsafeCell::new(Lists { free:[std::ptr::null_mut(); CLASSES], at:std::ptr::null_mut(), left:0 }) }; }

static BLOCKS : AtomicU64 = AtomicU64::new(0);
pub fn blocks() -> u64 { return BLOCKS.load(Ordering::Relaxed); }

#[inline]
fn class_of(layout : Layout) -> usize
{
    if layout.align() > 16 { return CLASSES }
    if layout.size() <= 512 { return (layout.size() + 15) >> 4 }
    return SMALL + (layout.size().next_power_of_two().trailing_zeros() as usize - 10).min(14);
}

#[inline]
fn size_of(class : usize) -> usize
{
    return if class < SMALL { class.max(1) << 4 } else { 1 << (class - SMALL + 10) };
}

pub struct FreeLists;
unsafe impl GlobalAlloc for FreeLists
{
    #[inline]
    unsafe fn alloc(&self, layout : Layout) -> *mut u8
    {
        BLOCKS.store(blocks() + 1, Ordering::Relaxed); //one thread works at a time
        let class = class_of(layout);
        if class >= CLASSES { return unsafe { System.alloc(layout) }; }
        LISTS.with(|lists| unsafe
        {
            let lists = &mut *lists.get();
            let head = lists.free[class];
            if !head.is_null() { lists.free[class] = *(head as *mut *mut u8); return head; }
            let size = size_of(class);
            if class >= SMALL { return System.alloc(Layout::from_size_align_unchecked(size, 16)); }
            if lists.left < size
            {
                lists.at = System.alloc(Layout::from_size_align_unchecked(CHUNK, 16));
                if lists.at.is_null() { lists.left = 0; return lists.at; }
                lists.left = CHUNK;
            }
            let out = lists.at;
            lists.at = out.add(size); lists.left -= size;
            return out;
        })
    }

    #[inline]
    unsafe fn dealloc(&self, pointer : *mut u8, layout : Layout)
    {
        let class = class_of(layout);
        if class >= CLASSES { return unsafe { System.dealloc(pointer, layout) }; }
        LISTS.with(|lists| unsafe
        {
            let lists = &mut *lists.get();
            *(pointer as *mut *mut u8) = lists.free[class];
            lists.free[class] = pointer;
        })
    }

    #[inline]
    unsafe fn realloc(&self, pointer : *mut u8, layout : Layout, new_size : usize) -> *mut u8
    {
        let new_layout = unsafe { Layout::from_size_align_unchecked(new_size, layout.align()) };
        let class = class_of(layout);
        if class < CLASSES && class == class_of(new_layout) { return pointer; }
        unsafe
        {
            let out = self.alloc(new_layout);
            if !out.is_null()
            {
                std::ptr::copy_nonoverlapping(pointer, out, layout.size().min(new_size));
                self.dealloc(pointer, layout);
            }
            return out;
        }
    }
}
