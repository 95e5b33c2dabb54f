//! A description that arrives in pieces.

use std::io;

use crate::raw::{self, STORE_BYTES, VERDICT_WORDS};
use crate::{Description, Refused, Tables, Verdict};

/// Takes a text in pieces of any length, and loads it at the end. However it is cut, the answer is
/// that of the whole text. Nothing is judged before the end, but that a text is too long: that is
/// told by the piece that passes the limit and by all behind it, and by the end.
///
/// It is an [`io::Write`], so that a file or a connection can be copied into it:
///
/// ```
/// use desfanuk::Pieces;
/// use std::io;
///
/// let mut arriving = &b"device d(base:bit[8] port){register r=base:bit[8];variable v=r:int(8);}"[..];
/// let mut pieces = Pieces::new();
/// io::copy(&mut arriving, &mut pieces).expect("within the limit");
/// let description = pieces.end().expect("a good description");
/// assert_eq!(description.text().len(), 71);
/// ```
#[derive(Clone, Debug)]
pub struct Pieces {
    store: Box<[u8]>,
    taken: [u64; 1],
    tables: Tables,
}

impl Default for Pieces {
    fn default() -> Pieces {
        Pieces {
            store: vec![0; STORE_BYTES].into_boxed_slice(),
            taken: [0],
            tables: Tables::new(),
        }
    }
}

impl Pieces {
    pub fn new() -> Pieces {
        Pieces::default()
    }

    /// Takes a piece; refused by 2 from the piece on that passes the limit.
    pub fn take(&mut self, piece: &[u8]) -> Result<(), Refused> {
        let mut words = [0; VERDICT_WORDS];
        raw::take_piece(
            self.tables.words(),
            &mut self.store,
            &mut self.taken,
            piece,
            &mut words,
        );
        match words {
            [2, 0, 0, 0] => Ok(()),
            words => match Verdict::of(words, &[]) {
                Verdict::Refused(refused) => Err(refused),
                Verdict::Accepted { .. } => unreachable!("a piece is not accepted: {words:?}"),
            },
        }
    }

    /// Loads what was taken. The next piece begins another text, whatever the verdict.
    pub fn end(&mut self) -> Result<Description, Refused> {
        let text = usize::try_from(self.taken[0])
            .ok()
            .and_then(|taken| self.store.get(..taken))
            .unwrap_or_default()
            .to_vec();
        match self.tables.end(&text, &self.store, &mut self.taken) {
            Verdict::Accepted { .. } => Ok(Description::of(text, self.tables.clone())),
            Verdict::Refused(refused) => Err(refused),
        }
    }
}

/// A write takes its whole buffer as one piece. Its error carries the [`Refused`].
impl io::Write for Pieces {
    fn write(&mut self, piece: &[u8]) -> io::Result<usize> {
        match self.take(piece) {
            Ok(()) => Ok(piece.len()),
            Err(refused) => Err(io::Error::other(refused)),
        }
    }

    fn flush(&mut self) -> io::Result<()> {
        Ok(())
    }
}
