//! A call of a C function as data: what it is lent, what it left, and what must hold of that whatever the function.

use crate::buffer::{Buffer, Role, Slice, words};
use crate::pages::{Pages, Side};
use std::cell::RefCell;

/// The status, 0 for a function that has none, and the bits of the value that the function itself answers.
#[derive(Clone, Copy, Debug, PartialEq)]
pub struct Answer {
    pub status: u32,
    pub value: u64,
}

/// What a call leaves: its answer, and the bytes of every buffer.
#[derive(Clone, Debug, PartialEq)]
pub struct Left {
    pub answer: Answer,
    pub bytes: Vec<Vec<u8>>,
}

type Work = Box<dyn Fn(&[Slice]) -> Answer + Send + Sync>;
type Sound = Box<dyn Fn(&Call, &Left) + Send + Sync>;

/// A function with all that it is handed.
pub struct Call {
    pub name: &'static str,
    /// The refusals that the function has.
    pub refusals: &'static [u32],
    pub buffers: Vec<Buffer>,
    pub work: Work,
    /// What else must hold of an accepted call, and of one that is refused for a face.
    pub sound: Sound,
}

/// The refusals that carry a face.
const FOR_A_FACE: [u32; 2] = [7, 10];

/// Hands a C function its buffers by their numbers: `[k]` is a list, a pointer and its length, `(k)` a pointer alone, `{x}` a number.
macro_rules! handed {
    ($name:ident, $b:ident, $($rest:tt)*) => { handed!(@ $name, $b, (), $($rest)*) };
    (@ $name:ident, $b:ident, ($($done:tt)*), [$k:literal] $($rest:tt)*) => {
        handed!(@ $name, $b, ($($done)* $b[$k].to(), $b[$k].len,), $($rest)*)
    };
    (@ $name:ident, $b:ident, ($($done:tt)*), ($k:literal) $($rest:tt)*) => {
        handed!(@ $name, $b, ($($done)* $b[$k].to(),), $($rest)*)
    };
    (@ $name:ident, $b:ident, ($($done:tt)*), {$x:expr} $($rest:tt)*) => {
        handed!(@ $name, $b, ($($done)* $x,), $($rest)*)
    };
    (@ $name:ident, $b:ident, ($($done:tt)*),) => {
        // SAFETY: each list is a pointer with its length, all lie apart, and a place is as large as its value.
        unsafe { ramikohy::c::$name($($done)*) }
    };
}

pub(crate) use handed;

/// The answer of a function that has a status alone.
pub fn status(status: u32) -> Answer {
    Answer { status, value: 0 }
}

/// The answer of a function that has a value alone.
pub fn value(bits: u64) -> Answer {
    Answer { status: 0, value: bits }
}

impl Left {
    /// What is in the k-th place of a count.
    pub fn count(&self, call: &Call, k: usize) -> usize {
        let places = call.buffers.iter().zip(&self.bytes).filter(|(b, _)| b.role == Role::Place);
        let bytes = places.map(|(_, bytes)| bytes).nth(k).expect("a place");
        bytes.iter().rev().fold(0, |n, &b| n << 8 | b as usize)
    }

    /// The words that were written to the buffer `at`.
    pub fn written(&self, call: &Call, at: usize) -> Vec<u32> {
        words(&self.bytes[at][..call.ends_at(at, self) * 4])
    }
}

thread_local! {
    /// The pages of each buffer, used again from call to call.
    static PAGES: RefCell<Vec<Pages>> = const { RefCell::new(Vec::new()) };
}

impl Call {
    /// A function, by its name, its refusals, what it is lent, and how it is called.
    pub fn new(
        name: &'static str,
        refusals: &'static [u32],
        buffers: Vec<Buffer>,
        work: impl Fn(&[Slice]) -> Answer + Send + Sync + 'static,
    ) -> Call {
        Call { name, refusals, buffers, work: Box::new(work), sound: Box::new(|_, _| {}) }
    }

    /// The same with something more that must hold of it where it is accepted or refused for a face.
    pub fn sound(self, sound: impl Fn(&Call, &Left) + Send + Sync + 'static) -> Call {
        Call { sound: Box::new(sound), ..self }
    }

    /// Hands `work` these buffers, copied to where they are told to lie; an empty one as `empty` says.
    fn handed(
        buffers: &[Buffer],
        places: &[*mut u8],
        empty: impl Fn(*mut u8) -> *mut u8,
        work: impl FnOnce(&[Slice]) -> Answer,
    ) -> Left {
        let slice =
            |(b, &at): (&Buffer, &*mut u8)| Slice { at: if b.is_empty() { empty(at) } else { at }, len: b.len() };
        let slices: Vec<Slice> = buffers.iter().zip(places).map(slice).collect();
        for (buffer, &at) in buffers.iter().zip(places) {
            // SAFETY: there is room for the buffer's bytes.
            unsafe { at.copy_from_nonoverlapping(buffer.bytes.as_ptr(), buffer.bytes.len()) };
        }
        let answer = work(&slices);
        // SAFETY: the same bytes.
        let back = |(b, &at): (&Buffer, &*mut u8)| unsafe { std::slice::from_raw_parts(at, b.bytes.len()) }.to_vec();
        Left { answer, bytes: buffers.iter().zip(places).map(back).collect() }
    }

    /// What is left in ordinary memory; an empty list is handed over as a null pointer with length 0.
    pub fn plain(&self, buffers: &[Buffer]) -> Left {
        Call::plain_by(buffers, &self.work)
    }

    /// The same where `work` calls the function in its own way.
    pub fn plain_by(buffers: &[Buffer], work: impl FnOnce(&[Slice]) -> Answer) -> Left {
        let mut rooms: Vec<Vec<u64>> = buffers.iter().map(|b| vec![0; b.bytes.len().div_ceil(8)]).collect();
        let places: Vec<*mut u8> = rooms.iter_mut().map(|room| room.as_mut_ptr().cast()).collect();
        Call::handed(buffers, &places, |_| std::ptr::null_mut(), work)
    }

    /// What is left in memory that lies against unreadable pages.
    pub fn guarded(&self, buffers: &[Buffer], side: Side) -> Left {
        PAGES.with_borrow_mut(|pages| {
            pages.resize_with(buffers.len().max(pages.len()), || Pages::new(1));
            let lend = |(b, pages): (&Buffer, &mut Pages)| pages.lend(b.bytes.len(), side);
            let places: Vec<*mut u8> = buffers.iter().zip(pages.iter_mut()).map(lend).collect();
            Call::handed(buffers, &places, |at| at, &self.work)
        })
    }

    /// How many elements an accepted call wrote to the buffer `at`.
    fn ends_at(&self, at: usize, left: &Left) -> usize {
        match self.buffers[at].role {
            Role::Out { by, width, .. } => left.count(self, by) * width,
            _ => 0,
        }
    }

    /// How many elements the buffer `at` must have for the call to be accepted, once it was.
    fn needs(&self, at: usize, left: &Left) -> usize {
        match self.buffers[at].role {
            Role::Scratch { need } | Role::Out { need: Some(need), .. } => need,
            Role::Out { need: None, .. } => self.ends_at(at, left),
            _ => self.buffers[at].len(),
        }
    }

    /// Runs it everywhere, holds the answers to each other and to what must hold of every call, and answers the status.
    fn tried(&self, buffers: &[Buffer]) -> Left {
        let left = self.plain(buffers);
        for side in [Side::End, Side::Start] {
            assert!(left == self.guarded(buffers, side), "{}: another answer at the {side:?}", self.name);
        }
        self.held(buffers, &left);
        left
    }

    /// What must hold of every answer: a refusal changes nothing but the place of a face that it carries; an accepted call changes no
    /// input and no such place, leaves scratch zero, and room past what it wrote as it was.
    fn held(&self, buffers: &[Buffer], left: &Left) {
        let (name, status) = (self.name, left.answer.status);
        assert!(status == 0 || self.refusals.contains(&status), "{name}: status {status}");
        for (at, (before, after)) in buffers.iter().zip(&left.bytes).enumerate() {
            let kept = match before.role {
                Role::Face if FOR_A_FACE.contains(&status) => after.len(),
                _ if status != 0 => 0,
                Role::In | Role::Face => 0,
                Role::Out { .. } => self.ends_at(at, left) * before.size,
                Role::Scratch { .. } => {
                    assert!(after.iter().all(|&b| b == 0), "{name}: scratch {at} is not zero");
                    after.len()
                }
                Role::Place => after.len(),
            };
            assert!(kept <= after.len(), "{name}: more written than there is room for");
            assert!(before.bytes[kept..] == after[kept..], "{name}: status {status}, but buffer {at} changed");
        }
    }

    /// Tries a call as it is; and an accepted one with exactly the room that it needs, and with one element less in the
    /// `short`-th of the buffers that it needs. Answers the status of the first.
    pub fn try_all(&self, short: usize) -> u32 {
        let left = self.tried(&self.buffers);
        let status = left.answer.status;
        if status == 0 || FOR_A_FACE.contains(&status) {
            (self.sound)(self, &left);
        }
        if status != 0 {
            return status;
        }
        let exact: Vec<Buffer> =
            self.buffers.iter().enumerate().map(|(at, b)| b.resized(self.needs(at, &left))).collect();
        if exact.iter().zip(&self.buffers).any(|(a, b)| a.len() != b.len()) {
            assert_eq!(self.tried(&exact).answer, left.answer, "{}: exact room", self.name);
        }
        self.try_short(exact, short);
        0
    }

    /// One element too few in one of the buffers is scratch or room that is too short.
    fn try_short(&self, mut buffers: Vec<Buffer>, short: usize) {
        let lendable = |b: &Buffer| !b.is_empty() && matches!(b.role, Role::Scratch { .. } | Role::Out { .. });
        let places: Vec<usize> = (0..buffers.len()).filter(|&at| lendable(&buffers[at])).collect();
        if places.is_empty() {
            return;
        }
        let at = places[short % places.len()];
        buffers[at] = buffers[at].resized(buffers[at].len() - 1);
        let due = if matches!(buffers[at].role, Role::Scratch { .. }) { 5 } else { 6 };
        assert_eq!(self.tried(&buffers).answer.status, due, "{}: buffer {at} one short", self.name);
    }
}
