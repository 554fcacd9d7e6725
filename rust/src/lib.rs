//! The forward scan of a Masstree image, and the building of one, proved: a safe wrapper around `libpunchbronze.a`.
//!
//! The functions behind it take anything, so nothing here is tested before a call; the wrapper only lends arrays of the lengths that
//! the functions ask for. What each call returns and leaves is fixed by `crates/punchbronze/specs/Interface.antt`.
//!
//! ```no_run
//! let image = std::fs::read("samples/a.img").unwrap();
//! let counts = punchbronze::check(&image)?;
//! let mut walk = punchbronze::Walk::from(&image, b"", punchbronze::Bound::Unbounded)?;
//! while let Some(found) = walk.step(&image)?.found {
//!     println!("{:?} {}", walk.key(found), found.value);
//! }
//! # let _ = counts;
//! # Ok::<(), punchbronze::Declined>(())
//! ```
#![no_std]

use core::fmt;

#[link(name = "punchbronze", kind = "static")]
extern "C" {
    fn pb_check(image: *const u8, image_len: usize, counts: *mut u64, counts_len: usize) -> u8;
    fn pb_place_above(
        image: *const u8,
        image_len: usize,
        cursor: *const u8,
        cursor_len: usize,
        kind: u8,
        bound_key: *const u8,
        bound_key_len: usize,
        numbers: *mut u64,
        numbers_len: usize,
        buf: *mut u8,
        buf_len: usize,
        bound: *mut u8,
        bound_len: usize,
    ) -> u8;
    fn pb_place_from(
        image: *const u8,
        image_len: usize,
        cursor: *const u8,
        cursor_len: usize,
        kind: u8,
        bound_key: *const u8,
        bound_key_len: usize,
        numbers: *mut u64,
        numbers_len: usize,
        buf: *mut u8,
        buf_len: usize,
        bound: *mut u8,
        bound_len: usize,
    ) -> u8;
    fn pb_step(
        numbers: *mut u64,
        numbers_len: usize,
        buf: *mut u8,
        buf_len: usize,
        bound: *const u8,
        bound_len: usize,
        image: *const u8,
        image_len: usize,
        out: *mut u64,
        out_len: usize,
    ) -> u8;
    fn pb_tally(
        image: *const u8,
        image_len: usize,
        cursor: *const u8,
        cursor_len: usize,
        kind: u8,
        bound_key: *const u8,
        bound_key_len: usize,
        out: *mut u64,
        out_len: usize,
    ) -> u8;
    fn pb_build(
        sheet: *const u8,
        sheet_len: usize,
        out: *mut u8,
        out_len: usize,
        len: *mut u64,
        len_len: usize,
    ) -> u64;
}

/// A call was declined, with the specification's number: 1 and on for a fault of the image (10 where its trailer's key count is not the
/// number of live keys), 11 for a cursor of over 256 bytes, 13 for a bound key of over 256 bytes, 21 for an image of another length than
/// the walk's, or of fewer bytes than the walk has handed out keys, 22 and 23 for an image that cannot be read on, 31 to 33 for a sheet
/// that is not built. Over the image that it was placed over a walk meets none of 21 to 23 where [`check`] accepts that.
#[derive(Clone, Copy, Debug, PartialEq, Eq)]
pub struct Declined(pub u8);

impl fmt::Display for Declined {
    fn fmt(&self, f: &mut fmt::Formatter<'_>) -> fmt::Result {
        write!(f, "declined with {}", self.0)
    }
}

fn taken(code: u8) -> Result<(), Declined> {
    if code == 0 {
        Ok(())
    } else {
        Err(Declined(code))
    }
}

/// The three numbers of an accepted image, the value slots with the dead ones.
#[derive(Clone, Copy, Debug, PartialEq, Eq)]
pub struct Counts {
    pub leaves: u64,
    pub value_slots: u64,
    pub sub_layers: u64,
}

/// Where a walk ends.
#[derive(Clone, Copy, Debug, PartialEq, Eq)]
pub enum Bound<'a> {
    Unbounded,
    /// The last key that may be handed out.
    Included(&'a [u8]),
    /// The first key that may not.
    Excluded(&'a [u8]),
}

impl<'a> Bound<'a> {
    fn parts(self) -> (u8, &'a [u8]) {
        match self {
            Bound::Unbounded => (0, &[]),
            Bound::Included(key) => (1, key),
            Bound::Excluded(key) => (2, key),
        }
    }
}

/// Checks an image: its numbers, or the number of the first fault.
pub fn check(image: &[u8]) -> Result<Counts, Declined> {
    let mut counts = [0u64; 3];
    // SAFETY: the slices are good for their lengths, and the lent array overlaps nothing.
    taken(unsafe { pb_check(image.as_ptr(), image.len(), counts.as_mut_ptr(), counts.len()) })?;
    let [leaves, value_slots, sub_layers] = counts;
    Ok(Counts { leaves, value_slots, sub_layers })
}

/// How many keys a walk above a cursor hands out within a bound. The image is checked first.
pub fn tally(image: &[u8], cursor: &[u8], bound: Bound<'_>) -> Result<u64, Declined> {
    let (kind, key) = bound.parts();
    let mut out = [0u64; 1];
    // SAFETY: as in `check`.
    taken(unsafe {
        pb_tally(
            image.as_ptr(),
            image.len(),
            cursor.as_ptr(),
            cursor.len(),
            kind,
            key.as_ptr(),
            key.len(),
            out.as_mut_ptr(),
            out.len(),
        )
    })?;
    Ok(out[0])
}

/// Builds an image from a sheet of edition 1, the lines of a listing: the image is the first bytes of `out`, and its length is returned.
/// [`check`] accepts it, and a walk over it from the empty key on hands out the sheet's keys and values. Declined with 31 where a line is
/// not in the sheet's form or the first one has another number than there are keys, 32 where a key is over 256 bytes or not above the one
/// before, 33 where `out` is shorter than the image or the image would be over 16,777,216 bytes; `out` is then as it was.
///
/// ```
/// let sheet = b"sheet 1 keys 3\n- 1\n61 7\n6162 9\nend 6\n";
/// let mut out = [255; 500];
/// let len = punchbronze::build(sheet, &mut out)?;
/// let (image, behind) = out.split_at(len);
/// assert_eq!(len, 440);
/// assert_eq!(punchbronze::check(image)?.value_slots, 3);
/// assert!(behind.iter().all(|b| *b == 255));
///
/// let mut out = [255; 439];
/// assert_eq!(punchbronze::build(b"sheet 1 keys 2\n61 7\nend 6\n", &mut out), Err(punchbronze::Declined(31)));
/// assert_eq!(punchbronze::build(b"sheet 1 keys 2\n61 7\n61 9\nend 6\n", &mut out), Err(punchbronze::Declined(32)));
/// assert_eq!(punchbronze::build(sheet, &mut out), Err(punchbronze::Declined(33)));
/// assert_eq!(out, [255; 439]);
/// # Ok::<(), punchbronze::Declined>(())
/// ```
pub fn build(sheet: &[u8], out: &mut [u8]) -> Result<usize, Declined> {
    let mut len = [0u64; 1];
    // SAFETY: as in `check`; the output is lent to this call alone.
    let code = unsafe {
        pb_build(sheet.as_ptr(), sheet.len(), out.as_mut_ptr(), out.len(), len.as_mut_ptr(), len.len())
    };
    taken(code as u8)?;
    Ok(len[0] as usize)
}

/// A key that a step found: the length of its bytes, which [`Walk::key`] gives, and its value.
#[derive(Clone, Copy, Debug, PartialEq, Eq)]
pub struct Found {
    pub len: usize,
    pub value: u64,
}

/// A step: the key that it found, none at the walk's end, and the moves that it took; the layer depth at which the walk's last key was
/// found, for a key this one's, and how many keys the walk has handed out so far, this one with them. At the walk's end these two are as
/// they stand, 0 and 0 where there was no key.
#[derive(Clone, Copy, Debug, PartialEq, Eq)]
pub struct Step {
    pub found: Option<Found>,
    pub moves: u64,
    pub depth: usize,
    pub count: u64,
}

/// The numbers of a walk's record, and two of their places; `include/punchbronze.h` says where each stands.
const NUMBERS: usize = 76;
const LAST_DEPTH: usize = 12;
const COUNT: usize = 13;

/// A walk between calls, as the record in which it crosses to the library.
#[derive(Clone)]
pub struct Walk {
    numbers: [u64; NUMBERS],
    buf: [u8; 256],
    bound: [u8; 256],
}

impl Walk {
    /// A walk over the keys above a cursor, up to a bound. A cursor is any key of up to 256 bytes, stored or not: placed above the last
    /// key that was handed out, a walk goes on where another stopped.
    pub fn above(image: &[u8], cursor: &[u8], bound: Bound<'_>) -> Result<Walk, Declined> {
        Walk::place(false, image, cursor, bound)
    }

    /// A walk over the keys from a cursor on, the cursor's own among them.
    pub fn from(image: &[u8], cursor: &[u8], bound: Bound<'_>) -> Result<Walk, Declined> {
        Walk::place(true, image, cursor, bound)
    }

    fn place(from: bool, image: &[u8], cursor: &[u8], bound: Bound<'_>) -> Result<Walk, Declined> {
        let (kind, key) = bound.parts();
        let mut walk = Walk { numbers: [0; NUMBERS], buf: [0; 256], bound: [0; 256] };
        let call = if from { pb_place_from } else { pb_place_above };
        // SAFETY: as in `check`; the three lent arrays are fields of one struct and do not overlap.
        taken(unsafe {
            call(
                image.as_ptr(),
                image.len(),
                cursor.as_ptr(),
                cursor.len(),
                kind,
                key.as_ptr(),
                key.len(),
                walk.numbers.as_mut_ptr(),
                walk.numbers.len(),
                walk.buf.as_mut_ptr(),
                walk.buf.len(),
                walk.bound.as_mut_ptr(),
                walk.bound.len(),
            )
        })?;
        Ok(walk)
    }

    /// One key further, over the image that the walk was placed over. A declined step leaves the walk as it was. With the key of an included
    /// bound the walk is ended at once, and over an image that [`check`] accepts the next step finds none in 0 moves.
    pub fn step(&mut self, image: &[u8]) -> Result<Step, Declined> {
        let mut out = [0u64; 6];
        // SAFETY: as in `place`.
        taken(unsafe {
            pb_step(
                self.numbers.as_mut_ptr(),
                self.numbers.len(),
                self.buf.as_mut_ptr(),
                self.buf.len(),
                self.bound.as_ptr(),
                self.bound.len(),
                image.as_ptr(),
                image.len(),
                out.as_mut_ptr(),
                out.len(),
            )
        })?;
        let [is_key, len, value, moves, depth, count] = out;
        let found = if is_key == 1 { Some(Found { len: len as usize, value }) } else { None };
        Ok(Step { found, moves, depth: depth as usize, count })
    }

    /// The layer depth at which the last key was found, 0 before the first.
    pub fn depth(&self) -> usize {
        self.numbers[LAST_DEPTH] as usize
    }

    /// How many keys have been handed out.
    pub fn count(&self) -> u64 {
        self.numbers[COUNT]
    }

    /// The bytes of the key that the last step found.
    pub fn key(&self, found: Found) -> &[u8] {
        self.buf.get(..found.len).unwrap_or(&self.buf)
    }
}
