//! How much stack a call takes: it is run on a thread whose stack was painted before, with an unreadable page below.

use crate::buffer::Slice;
use crate::call::{Answer, Call};
use crate::pages::Pages;
use std::ffi::{c_int, c_long, c_void};

unsafe extern "C" {
    fn pthread_attr_init(attributes: *mut [u64; 16]) -> c_int;
    fn pthread_attr_setstack(attributes: *mut [u64; 16], lowest: *mut c_void, len: usize) -> c_int;
    fn pthread_create(
        thread: *mut usize,
        attributes: *const [u64; 16],
        start: extern "C" fn(*mut c_void) -> *mut c_void,
        task: *mut c_void,
    ) -> c_int;
    fn pthread_join(thread: usize, answer: *mut *mut c_void) -> c_int;
    fn sysconf(name: c_int) -> c_long;
}

/// Linux's number of the least stack of a thread.
const LEAST_STACK: c_int = 75;

/// What the stack is painted with.
const PAINT: u64 = 0xC0FF_EE11_5EED_5EED;

/// What the thread does and finds.
struct Task<'a> {
    call: &'a Call,
    slices: &'a [Slice],
    lowest: *const u64,
    answer: Option<Answer>,
    used: usize,
}

/// The thread: the call, and then how far down the paint is gone, from a place in this frame.
extern "C" fn start(task: *mut c_void) -> *mut c_void {
    // SAFETY: it is the task of `used`, which waits for this thread.
    let task = unsafe { &mut *task.cast::<Task>() };
    let here = std::hint::black_box(0u64);
    task.answer = Some((task.call.work)(task.slices));
    let mut at = task.lowest;
    // SAFETY: the words from the lowest up to this frame are the thread's stack.
    while unsafe { at.read_volatile() } == PAINT {
        at = at.wrapping_add(1);
    }
    task.used = (&raw const here) as usize - at as usize;
    std::ptr::null_mut()
}

/// The least stack that a thread may have here.
fn least() -> usize {
    // SAFETY: it only answers a number.
    unsafe { sysconf(LEAST_STACK) }.max(1 << 14) as usize
}

/// The status of a call and the bytes of stack that it takes, on a stack of `room` bytes and the least that a thread has.
pub fn used(call: &Call, room: usize) -> (u32, usize) {
    let pages = Pages::new(room + least());
    let lowest = pages.first();
    // SAFETY: the pages are this function's own, and hold as many words.
    unsafe { std::slice::from_raw_parts_mut(lowest.cast::<u64>(), pages.room() / 8) }.fill(PAINT);
    let mut used = 0;
    let left = Call::plain_by(&call.buffers, |slices| {
        let mut task = Task { call, slices, lowest: lowest.cast(), answer: None, used: 0 };
        on_stack(&pages, &raw mut task);
        used = task.used;
        task.answer.expect("an answer")
    });
    (left.answer.status, used)
}

/// Runs a task on these pages and waits for it.
fn on_stack(pages: &Pages, task: *mut Task) {
    let (mut attributes, mut thread) = ([0; 16], 0);
    // SAFETY: the pages and the task outlive the thread, which ends here.
    unsafe {
        assert_eq!(pthread_attr_init(&mut attributes), 0);
        assert_eq!(pthread_attr_setstack(&mut attributes, pages.first().cast(), pages.room()), 0);
        assert_eq!(pthread_create(&mut thread, &attributes, start, task.cast()), 0);
        assert_eq!(pthread_join(thread, std::ptr::null_mut()), 0);
    }
}
