//! A map's image that comes in pieces, through a mailbox say.

use core::fmt;

use crate::slices::{self, LentPieces};
#[cfg(feature = "alloc")]
use crate::Map;
use crate::{Refusal, PIECES};

/// A reader of a map's image that comes in pieces, of any length and cut anywhere.
///
/// However the image is cut, the end answers what [`Map::from_image`] answers to all of it, and no map is
/// handed out before. It holds the map that is being read and fewer than 16 bytes of a record, [`PIECES`]
/// bytes in all, and no image. [`Pieces::end`] takes the reader, so that nothing can come after it.
///
/// ```
/// use castribba::{Map, Pieces, Refusal};
///
/// let mut map = Map::new();
/// map.apply(&map.update(1, 5, 40, 0)?)?;
///
/// let mut reader = Pieces::new();
/// for piece in map.as_image().chunks(7) {
///     reader.take(piece);
/// }
/// assert_eq!(reader.end(), Ok(map));
///
/// // what is wrong is said at the end
/// let mut reader = Pieces::new();
/// reader.take(&[1; 15]);
/// assert_eq!(reader.end(), Err(Refusal::Malformed));
/// # Ok::<(), Refusal>(())
/// ```
///
/// A reader that ended cannot be asked again:
///
/// ```compile_fail,E0382
/// let mut reader = castribba::Pieces::new();
/// let _ = reader.end();
/// reader.take(&[1; 16]);
/// ```
///
/// Without a heap [`Pieces::end_into`] writes the image into the caller's buffer, and hands the reader back
/// where that is too short.
#[derive(Clone)]
#[must_use = "no map comes out before the end"]
pub struct Pieces(LentPieces);

impl Pieces {
    /// A reader that has taken nothing: ended now it would be the empty map.
    pub fn new() -> Pieces {
        let mut reader = LentPieces { bytes: [0; PIECES] };
        slices::pieces_begin(&mut reader).expect("a reader can always begin");
        Pieces(reader)
    }

    /// Takes the next piece. It may be empty, and more may come than any image has: both are no matter
    /// until the end.
    pub fn take(&mut self, piece: &[u8]) {
        slices::pieces_take(&mut self.0, piece).expect("a reader takes pieces until it ends");
    }

    /// The map of all pieces joined, refused with 1, 2 or 3 where they are no map's image.
    #[cfg(feature = "alloc")]
    pub fn end(mut self) -> Result<Map, Refusal> {
        Map::written(|out| slices::pieces_end(&mut self.0, out))
    }

    /// Ends into a buffer: the length of the image at its start. Where the buffer is too short, the reader
    /// comes back as it was, to be ended again, or to take more; any other refusal is for good.
    ///
    /// ```
    /// use castribba::{Pieces, Refusal};
    ///
    /// let mut reader = Pieces::new();
    /// reader.take(&[1, 0, 1, 0, 0, 0, 0, 0, 1, 0, 0, 0, 0, 0, 0, 0]);
    /// let mut out = [0; 16];
    /// let (refusal, reader) = reader.end_into(&mut out[..3]).unwrap_err();
    /// assert_eq!(refusal, Refusal::ShortBuffer);
    /// let reader = reader.expect("a short buffer leaves the reader");
    /// assert_eq!(reader.end_into(&mut out).ok(), Some(16));
    /// ```
    // what is handed back is as large as what was taken
    #[allow(clippy::result_large_err)]
    pub fn end_into(mut self, out: &mut [u8]) -> Result<usize, (Refusal, Option<Pieces>)> {
        slices::pieces_end(&mut self.0, out)
            .map_err(|refusal| (refusal, (refusal == Refusal::ShortBuffer).then_some(self)))
    }
}

impl Default for Pieces {
    fn default() -> Pieces {
        Pieces::new()
    }
}

impl fmt::Debug for Pieces {
    /// No map before the end, here either.
    fn fmt(&self, f: &mut fmt::Formatter<'_>) -> fmt::Result {
        f.write_str("Pieces(..)")
    }
}
