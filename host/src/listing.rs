//! A whole stream to its listing.

use crate::c::harbour_listing;

/// No listing is longer, whatever the stream.
pub const LISTING_MOST: usize = 655_360;

/// What the stream program writes for these bytes on its standard input: a line for the opening, a
/// line for each event, and how many were accepted. Every string of bytes has a listing; of more
/// than 65,536 it is `refused 8`.
pub fn listing(stream: &[u8]) -> Vec<u8> {
    let mut text = vec![0; LISTING_MOST];
    // SAFETY: the buffer is owned here alone, and the stream is a slice.
    let length =
        unsafe { harbour_listing(text.as_mut_ptr(), text.len(), stream.as_ptr(), stream.len()) };
    text.truncate(length);
    text
}
