//! The query check for Rust: a safe form of the two functions that the static library of the crate door exports.
//!
//! Any bytes and any words may be handed in: what is no image gets its own reply.

/// The five numbers of an answer. What `a` and `b` are depends on the kind; numbers that a kind does not name are 0.
#[derive(Clone, Copy, Debug, PartialEq, Eq)]
pub struct Reply {
    /// 0: nothing is wrong; 1 to 18: what is.
    pub kind: u32,
    /// In which operation, counted from 0.
    pub operation: u32,
    pub a: u32,
    pub b: u32,
    /// Units of work that were used.
    pub used: u32,
}

impl Reply {
    fn of(words: [u32; 5]) -> Reply {
        let [kind, operation, a, b, used] = words;
        Reply {
            kind,
            operation,
            a,
            b,
            used,
        }
    }
}

/// The functions as the library exports them: a slice is a pointer and its length in elements, and no pointer is null.
pub mod exported {
    extern "C" {
        /// Rattle: `check_query(image: &[u8], budget: u32, reply: &mut [u8]) -> u32`.
        pub fn check_query(
            image: *const u8,
            image_len: usize,
            budget: u32,
            reply: *mut u8,
            reply_len: usize,
        ) -> u32;

        /// Rattle: `check_query_lent(image: &[u32], budget: u32, scratch: &mut [u32], reply: &mut [u32]) -> u32`.
        pub fn check_query_lent(
            image: *const u32,
            image_len: usize,
            budget: u32,
            scratch: *mut u32,
            scratch_len: usize,
            reply: *mut u32,
            reply_len: usize,
        ) -> u32;
    }
}

/// Bytes of stack that suffice for a thread that calls [`check`].
pub const STACK: usize = 192 * 1024;

/// Bytes of stack that suffice for a thread that calls [`check_words`].
pub const STACK_LENT: usize = 96 * 1024;

/// Checks an image that is given as bytes, little-endian words, at most 32,768 bytes (else kind 18). The scratch inside bears a
/// budget of 1536 at most, and less the more rows the image has (else kind 3). Takes up to 167,104 bytes of stack on the deepest
/// images known, by measuring: [`STACK`] bytes suffice for a thread.
pub fn check(image: &[u8], budget: u32) -> Reply {
    let mut reply = [0u8; 20];
    // SAFETY: slices of Rust are never null and `&mut` overlaps nothing, which is all that the door asks.
    let written = unsafe {
        exported::check_query(
            image.as_ptr(),
            image.len(),
            budget,
            reply.as_mut_ptr(),
            reply.len(),
        )
    };
    assert_eq!(written, 1, "the door writes a reply of 20 bytes");
    let mut words = [0u32; 5];
    for (word, bytes) in words.iter_mut().zip(reply.chunks_exact(4)) {
        *word = u32::from_le_bytes([bytes[0], bytes[1], bytes[2], bytes[3]]);
    }
    Reply::of(words)
}

/// Checks an image of any length that is given as words, with scratch that the caller lends. Too little scratch is kind 3, and `a`
/// says how many words it takes; see [`scratch_needed`]. What lies in the scratch changes no answer. Afterwards it is untouched on
/// kinds 1 to 3; on others the words needed are 0 and those beyond are untouched. Takes up to 68,784 bytes of stack on the deepest
/// images known: [`STACK_LENT`] bytes suffice for a thread.
pub fn check_words(image: &[u32], budget: u32, scratch: &mut [u32]) -> Reply {
    let mut reply = [0u32; 5];
    // SAFETY: as in `check`.
    let written = unsafe {
        exported::check_query_lent(
            image.as_ptr(),
            image.len(),
            budget,
            scratch.as_mut_ptr(),
            scratch.len(),
            reply.as_mut_ptr(),
            reply.len(),
        )
    };
    assert_eq!(written, 1, "the door writes a reply of 5 words");
    Reply::of(reply)
}

/// The words of scratch that `check_words` needs for this image and budget: what it says itself when it is lent none. 0 where it
/// answers without any (kinds 1 and 2).
pub fn scratch_needed(image: &[u32], budget: u32) -> usize {
    let reply = check_words(image, budget, &mut []);
    if reply.kind == 3 {
        reply.a as usize
    } else {
        0
    }
}
