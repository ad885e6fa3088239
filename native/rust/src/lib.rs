//! A bounded ring for one producer and one consumer, of up to 64 numbers, whose code is proved down to Lamport's safe bits.
//! `counter_ring.h` says what is proved. The types here ensure what it requires of its caller: an end is moved and never copied, is called
//! through `&mut`, and is `Send` but not `Sync`; so no two threads call it at the same time, and it reaches another thread by something
//! that orders their calls (a spawn, a join, a lock, a channel). The memory is the C library's `malloc`; the library is for Linux on x86-64 and ARM64.
//!
//! ```no_run
//! let (mut putter, mut taker) = counter_ring::open(counter_ring::Shape::of(64)).unwrap();
//! std::thread::spawn(move || {
//!     while putter.put(7) == counter_ring::Put::Full {
//!         std::thread::yield_now();
//!     }
//!     putter.close();
//! });
//! for item in taker.wait(std::thread::yield_now) {
//!     println!("{item}");
//! }
//! ```
use std::ffi::c_void;
use std::fmt;
use std::marker::PhantomData;

// A handle of the library: whether there is an end, and its address. Nothing points to a handle, so it may be moved.
#[repr(C)]
struct Handle {
    is_open: bool,
    at: *mut c_void,
}

impl Handle {
    const NO_END: Handle = Handle { is_open: false, at: std::ptr::null_mut() };
}

extern "C" {
    fn ring_open(putter: *mut Handle, taker: *mut Handle, capacity: u64, modulus: u64, width: u64, batch: u64, take_batch: u64) -> u32;
    fn ring_put(putter: *mut Handle, item: u64) -> u32;
    fn ring_put_all(putter: *mut Handle, items: *const u64, count: usize, stored: *mut usize) -> u32;
    fn ring_close(putter: *mut Handle) -> bool;
    fn ring_is_closed(putter: *mut Handle) -> bool;
    fn ring_take(taker: *mut Handle, item: *mut u64) -> u32;
    fn ring_take_all(taker: *mut Handle, into: *mut u64, room: usize, taken: *mut usize) -> u32;
    fn ring_is_told(taker: *mut Handle) -> bool;
    fn ring_free_putter(putter: *mut Handle);
    fn ring_free_taker(taker: *mut Handle);
}

/// The parameters of a ring.
#[derive(Clone, Copy, PartialEq, Eq, Debug)]
pub struct Shape {
    /// The number of items it can hold: 1 to 64.
    pub capacity: u64,
    /// The number at which its counts wrap: at least the capacity + the larger batch + 1, and at most 256. Any value in this range works.
    pub modulus: u64,
    /// The number of binary digits of an item: 1 to 64.
    pub width: u64,
    /// The most items of one [`Putter::put_all`]: 1 to the capacity.
    pub batch: u64,
    /// The most items of one [`Taker::take_all`]: 1 to the capacity.
    pub take_batch: u64,
}

impl Shape {
    /// A ring of this capacity, of items of 64 binary digits, put and taken one by one.
    pub const fn of(capacity: u64) -> Shape {
        Shape { capacity, modulus: 256, width: 64, batch: 1, take_batch: 1 }
    }
}

/// Why there is no ring: a number of the shape is out of its range, or there is no memory.
#[derive(Clone, Copy, PartialEq, Eq, Debug)]
pub enum OpenError {
    Capacity,
    Batch,
    TakeBatch,
    Modulus,
    Width,
    OutOfMemory,
}

impl fmt::Display for OpenError {
    fn fmt(&self, to: &mut fmt::Formatter<'_>) -> fmt::Result {
        to.write_str(match self {
            OpenError::Capacity => "the capacity is out of its range",
            OpenError::Batch => "the batch is out of its range",
            OpenError::TakeBatch => "the take batch is out of its range",
            OpenError::Modulus => "the modulus is out of its range",
            OpenError::Width => "the width is out of its range",
            OpenError::OutOfMemory => "out of memory",
        })
    }
}

impl std::error::Error for OpenError {}

/// What a put returns. `Refused`: the item does not fit the width, and nothing is done.
#[derive(Clone, Copy, PartialEq, Eq, Debug)]
#[must_use]
pub enum Put {
    Stored,
    Full,
    Closed,
    Refused,
}

/// What a put of several returns: how many were stored. `Refused`: there are none or more than the batch, or one does not fit the width.
#[derive(Clone, Copy, PartialEq, Eq, Debug)]
#[must_use]
pub enum PutAll {
    Stored(usize),
    Full,
    Closed,
    Refused,
}

/// What a take returns. `Closed`: the ring is closed, and all that was put has been taken.
#[derive(Clone, Copy, PartialEq, Eq, Debug)]
#[must_use]
pub enum Take {
    Item(u64),
    Empty,
    Closed,
}

/// What a take of several returns: how many were taken. `Refused`: the slice is empty, or longer than the take batch.
#[derive(Clone, Copy, PartialEq, Eq, Debug)]
#[must_use]
pub enum TakeAll {
    Taken(usize),
    Empty,
    Closed,
    Refused,
}

/// The end that puts. If it is dropped, the ring stays open: once empty, takes return `Empty`, unless [`close`](Putter::close)
/// was called before. It is `Send` but not `Sync`:
///
/// ```compile_fail
/// fn is_sync<T: Sync>() {}
/// is_sync::<counter_ring::Putter>();
/// ```
pub struct Putter(Handle, PhantomData<*mut ()>);

/// The end that takes. It is `Send` but not `Sync`:
///
/// ```compile_fail
/// fn is_sync<T: Sync>() {}
/// is_sync::<counter_ring::Taker>();
/// ```
pub struct Taker(Handle, PhantomData<*mut ()>);

// SAFETY: the library proves that each handle may be passed to another thread (`handles_may_cross`).
unsafe impl Send for Putter {}
unsafe impl Send for Taker {}

/// Makes an empty ring and returns its two ends.
pub fn open(shape: Shape) -> Result<(Putter, Taker), OpenError> {
    let (mut putter, mut taker) = (Handle::NO_END, Handle::NO_END);
    // SAFETY: two handles with no end, and no other copies of them.
    let answer = unsafe { ring_open(&mut putter, &mut taker, shape.capacity, shape.modulus, shape.width, shape.batch, shape.take_batch) };
    match answer {
        0 => Ok((Putter(putter, PhantomData), Taker(taker, PhantomData))),
        1 => Err(OpenError::Capacity),
        2 => Err(OpenError::Batch),
        3 => Err(OpenError::TakeBatch),
        4 => Err(OpenError::Modulus),
        5 => Err(OpenError::Width),
        _ => Err(OpenError::OutOfMemory),
    }
}

impl Putter {
    /// Puts the item.
    #[inline]
    pub fn put(&mut self, item: u64) -> Put {
        // SAFETY: the handle was made by `open`, has no copy, and `&mut` means that no other call is under way. (The same holds for
        // each call below.)
        match unsafe { ring_put(&mut self.0, item) } {
            0 => Put::Stored,
            1 => Put::Full,
            2 => Put::Closed,
            _ => Put::Refused,
        }
    }

    /// Puts the items in order, as many as there is room for, with one count write.
    pub fn put_all(&mut self, items: &[u64]) -> PutAll {
        let mut stored = 0;
        // SAFETY: as above. (The pointer of an empty slice dangles, and is not null.)
        match unsafe { ring_put_all(&mut self.0, items.as_ptr(), items.len(), &mut stored) } {
            0 => PutAll::Stored(stored),
            1 => PutAll::Full,
            2 => PutAll::Closed,
            _ => PutAll::Refused,
        }
    }

    /// Puts the item; calls `wait` each time that the ring is full. Returns `Stored`, `Closed` or `Refused`.
    pub fn put_waiting(&mut self, item: u64, mut wait: impl FnMut()) -> Put {
        loop {
            match self.put(item) {
                Put::Full => wait(),
                reply => return reply,
            }
        }
    }

    /// Closes the ring. A second close does nothing.
    pub fn close(&mut self) {
        // SAFETY: as above.
        unsafe { ring_close(&mut self.0) };
    }

    /// Whether it has closed the ring.
    pub fn is_closed(&mut self) -> bool {
        // SAFETY: as above.
        unsafe { ring_is_closed(&mut self.0) }
    }
}

impl Taker {
    /// Takes the next item.
    #[inline]
    pub fn take(&mut self) -> Take {
        let mut item = 0;
        // SAFETY: as above.
        match unsafe { ring_take(&mut self.0, &mut item) } {
            0 => Take::Item(item),
            1 => Take::Empty,
            _ => Take::Closed,
        }
    }

    /// Takes the next items with one count write, at most as many as there are elements, into the first elements. The others stay as they
    /// were.
    pub fn take_all(&mut self, into: &mut [u64]) -> TakeAll {
        let mut taken = 0;
        // SAFETY: as above.
        match unsafe { ring_take_all(&mut self.0, into.as_mut_ptr(), into.len(), &mut taken) } {
            0 => TakeAll::Taken(taken),
            1 => TakeAll::Empty,
            2 => TakeAll::Closed,
            _ => TakeAll::Refused,
        }
    }

    /// Whether a take returned `Closed`.
    pub fn is_told(&mut self) -> bool {
        // SAFETY: as above.
        unsafe { ring_is_told(&mut self.0) }
    }

    /// The items that are inside now, up to the first take that finds none.
    pub fn now(&mut self) -> Now<'_> {
        Now(self)
    }

    /// All items up to the close. Calls `wait` each time that the ring is empty.
    pub fn wait<W: FnMut()>(&mut self, wait: W) -> Wait<'_, W> {
        Wait(self, wait)
    }
}

impl Drop for Putter {
    fn drop(&mut self) {
        // SAFETY: as above.
        unsafe { ring_free_putter(&mut self.0) }
    }
}

impl Drop for Taker {
    fn drop(&mut self) {
        // SAFETY: as above.
        unsafe { ring_free_taker(&mut self.0) }
    }
}

impl fmt::Debug for Putter {
    fn fmt(&self, to: &mut fmt::Formatter<'_>) -> fmt::Result {
        to.write_str("Putter { .. }")
    }
}

impl fmt::Debug for Taker {
    fn fmt(&self, to: &mut fmt::Formatter<'_>) -> fmt::Result {
        to.write_str("Taker { .. }")
    }
}

/// The items that a ring has now ([`Taker::now`]).
#[derive(Debug)]
pub struct Now<'a>(&'a mut Taker);

impl Iterator for Now<'_> {
    type Item = u64;

    fn next(&mut self) -> Option<u64> {
        match self.0.take() {
            Take::Item(item) => Some(item),
            Take::Empty | Take::Closed => None,
        }
    }
}

/// The items of a ring up to its close ([`Taker::wait`]).
pub struct Wait<'a, W: FnMut()>(&'a mut Taker, W);

impl<W: FnMut()> Iterator for Wait<'_, W> {
    type Item = u64;

    fn next(&mut self) -> Option<u64> {
        loop {
            match self.0.take() {
                Take::Item(item) => return Some(item),
                Take::Empty => (self.1)(),
                Take::Closed => return None,
            }
        }
    }
}

// (once a take has returned `Closed`, each does)
impl<W: FnMut()> std::iter::FusedIterator for Wait<'_, W> {}
