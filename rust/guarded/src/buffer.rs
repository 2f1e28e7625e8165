//! What a function is lent: lists, scratch, room, and the places of counts.

use crate::pages::Side;

/// What a buffer is lent for.
#[derive(Clone, Copy, Debug, PartialEq)]
pub enum Role {
    /// To be read.
    In,
    /// To be worked in: of so many elements, which an accepted call leaves zero.
    Scratch { need: usize },
    /// To be written: as many times `width` elements as the place `by` says. `need` is the room that the rules ask for, where they
    /// ask for another than what is written.
    Out { by: usize, width: usize, need: Option<usize> },
    /// The place of a count or a value, the k-th of which has the number k.
    Place,
    /// The place of the face that a refusal carries.
    Face,
}

/// A buffer: its elements' bytes, and the bytes of an element.
#[derive(Clone, Debug)]
pub struct Buffer {
    pub role: Role,
    pub size: usize,
    pub bytes: Vec<u8>,
}

/// NaN of every kind: signalling and quiet, of either sign, with the least and the greatest payload and with one between.
pub const NANS: [u64; 10] = [
    0x7FF0_0000_0000_0001,
    0x7FF4_DEAD_BEEF_0001,
    0x7FF7_FFFF_FFFF_FFFF,
    0x7FF8_0000_0000_0000,
    0x7FFF_FFFF_FFFF_FFFF,
    0xFFF0_0000_0000_0001,
    0xFFF4_DEAD_BEEF_0001,
    0xFFF7_FFFF_FFFF_FFFF,
    0xFFF8_0000_0000_0000,
    0xFFFF_FFFF_FFFF_FFFF,
];

/// A buffer as a function is handed it: where it lies, and its elements.
#[derive(Clone, Copy)]
pub struct Slice {
    pub at: *mut u8,
    pub len: usize,
}

impl Slice {
    /// Where the elements lie.
    pub fn to<T>(&self) -> *mut T {
        self.at.cast()
    }

    /// A lie, to see that it is found out: one element of `size` bytes more at this side.
    pub fn longer(self, size: usize, side: Side) -> Slice {
        let at = if side == Side::Start { self.at.wrapping_sub(size) } else { self.at };
        Slice { at, len: self.len + 1 }
    }
}

/// An element of a buffer.
pub trait Element: Copy {
    fn put(self, bytes: &mut Vec<u8>);
}

macro_rules! elements {
    ($($of:ty)*) => {
        $(impl Element for $of {
            fn put(self, bytes: &mut Vec<u8>) {
                bytes.extend(self.to_ne_bytes());
            }
        })*
    };
}

elements! { u8 u32 u64 i64 f64 }

impl Buffer {
    fn of<T: Element>(role: Role, list: &[T]) -> Buffer {
        let mut bytes = Vec::with_capacity(size_of_val(list));
        list.iter().for_each(|x| x.put(&mut bytes));
        Buffer { role, size: size_of::<T>(), bytes }
    }

    /// A list to be read.
    pub fn input<T: Element>(list: &[T]) -> Buffer {
        Buffer::of(Role::In, list)
    }

    /// Buffers with something in them, of `len` elements of `size` bytes. Every other number is a NaN, of each kind in turn: what a
    /// function does not write must stay so to the last bit.
    fn dirty(role: Role, size: usize, len: usize) -> Buffer {
        let mut bytes: Vec<u8> =
            (0..size * len).map(|i| (i as u32).wrapping_mul(0x9E37_79B1).to_be_bytes()[0] | 1).collect();
        if size == 8 {
            let kinds = NANS.iter().cycle();
            bytes.chunks_exact_mut(8).step_by(2).zip(kinds).for_each(|(x, nan)| x.copy_from_slice(&nan.to_ne_bytes()));
        }
        Buffer { role, size, bytes }
    }

    /// Scratch of as many elements as are needed and `more`.
    pub fn scratch<T>(need: usize, more: usize) -> Buffer {
        Buffer::dirty(Role::Scratch { need }, size_of::<T>(), need + more)
    }

    /// Room of as many elements as the rules ask for and `more`.
    pub fn room<T>(by: usize, width: usize, need: usize, more: usize) -> Buffer {
        Buffer::dirty(Role::Out { by, width, need: Some(need) }, size_of::<T>(), need + more)
    }

    /// Room of `len` elements, for a call that needs what it writes.
    pub fn plenty<T>(by: usize, width: usize, len: usize) -> Buffer {
        Buffer::dirty(Role::Out { by, width, need: None }, size_of::<T>(), len)
    }

    /// The place of a count or value.
    pub fn place<T>() -> Buffer {
        Buffer::dirty(Role::Place, size_of::<T>(), 1)
    }

    /// The place of a face.
    pub fn face() -> Buffer {
        Buffer::dirty(Role::Face, size_of::<u32>(), 1)
    }

    /// How many elements it has.
    pub fn len(&self) -> usize {
        self.bytes.len() / self.size
    }

    /// Whether it has none.
    pub fn is_empty(&self) -> bool {
        self.bytes.is_empty()
    }

    /// The same buffer with another number of elements; new ones have something in them.
    pub fn resized(&self, len: usize) -> Buffer {
        let mut bytes = self.bytes.clone();
        bytes.resize(len * self.size, 0xA5);
        Buffer { bytes, ..*self }
    }
}

/// The numbers of a list of bytes.
pub fn reals(bytes: &[u8]) -> Vec<f64> {
    bytes.chunks_exact(8).map(|b| f64::from_ne_bytes(b.try_into().expect("eight bytes"))).collect()
}

/// The words of a list of bytes.
pub fn words(bytes: &[u8]) -> Vec<u32> {
    bytes.chunks_exact(4).map(|b| u32::from_ne_bytes([b[0], b[1], b[2], b[3]])).collect()
}
