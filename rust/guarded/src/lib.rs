//! Every C function of the archive on buffers that lie against unreadable pages.
//!
//! Bytes become a call ([`made`]); the call is run in ordinary memory, flush before an unreadable page and flush behind one, and what
//! it leaves is held to what must hold of every call ([`call::Call::try_all`]). The tests feed it bytes of a generator and the
//! stored inputs of `fuzz/corpus.txt`; the fuzzer of `fuzz/` feeds it bytes that it keeps for the new ground they cover.

pub mod buffer;
pub mod call;
pub mod pages;
pub mod source;

pub mod arithmetic;
pub mod files;
pub mod meshes;
pub mod sheets;
pub mod strokes;

pub mod largest;
pub mod rows;
pub mod sound;
pub mod stack;

use call::Call;
use source::Source;

/// A maker for each call on lists. The reader's three functions are tried as one.
pub const CALLS: [fn(&mut Source) -> Call; 13] = [
    strokes::chop,
    strokes::splice,
    strokes::chop_adaptive,
    strokes::simplify,
    strokes::reader,
    meshes::weld,
    meshes::section,
    meshes::draw,
    sheets::write_sheet,
    sheets::read_sheet,
    files::read_stl,
    files::write_stl,
    meshes::contour,
];

/// The call that these bytes stand for: the first says which function, mostly one on lists.
pub fn made(s: &mut Source) -> Call {
    let makers = arithmetic::MAKERS;
    match s.byte() as usize {
        first if first < makers.len() => makers[first](s),
        first => CALLS[first % CALLS.len()](s),
    }
}

/// Tries the call that these bytes stand for. Answers its function and status.
pub fn one(bytes: &[u8]) -> (&'static str, u32) {
    let mut source = Source::new(bytes);
    let short = source.byte() as usize;
    let call = made(&mut source);
    (call.name, call.try_all(short))
}

/// The fuzzer's way in.
///
/// # Safety
///
/// `bytes` are `len` bytes that can be read.
#[unsafe(no_mangle)]
pub unsafe extern "C" fn LLVMFuzzerTestOneInput(bytes: *const u8, len: usize) -> i32 {
    // SAFETY: the caller sees to that.
    one(if len == 0 { &[] } else { unsafe { std::slice::from_raw_parts(bytes, len) } });
    0
}
