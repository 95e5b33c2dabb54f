//! A text that arrives in pieces, and is judged when it has ended.
//!
//! The pieces are joined in a store that the caller lends at every call, of the longest text's size. Whatever the
//! cuts, the end call gives the verdict of the whole text and leaves its tables.

pub mod script;

use std::fmt;

use crate::load::TEXT_BYTES;
use crate::tables::{load_into, stated, Loaded};

/// How much of a text has come: so many bytes at the start of the store, or more than the limit.
#[derive(Clone, Copy, Debug, PartialEq, Eq)]
pub struct Pieces {
    held: Option<usize>,
}

/// What a call answers.
#[derive(Clone, Copy, Debug, PartialEq, Eq)]
pub enum Taken {
    /// The piece is taken, and nothing is judged yet.
    More,
    /// The end call's verdict; at a piece, refusal 1 or 2.
    Verdict(Loaded),
}

impl fmt::Display for Taken {
    fn fmt(&self, f: &mut fmt::Formatter) -> fmt::Result {
        match self {
            Taken::More => write!(f, "more"),
            Taken::Verdict(loaded) => write!(f, "{loaded}"),
        }
    }
}

const SHORT: Loaded = Loaded::Refused {
    number: 1,
    place: 0,
};

const TOO_LONG: Loaded = Loaded::Refused {
    number: 2,
    place: 0,
};

const AFRESH: Pieces = Pieces { held: Some(0) };

impl Default for Pieces {
    fn default() -> Pieces {
        AFRESH
    }
}

impl Pieces {
    /// The bytes that have come; none once they have passed the limit.
    pub fn held(&self) -> Option<usize> {
        self.held
    }

    /// Takes the next piece. A store that is too short is refusal 1, and the piece is not taken. The piece that passes
    /// the limit is refusal 2 and touches nothing, and so is every one after it until the end call.
    pub fn piece(&mut self, store: &mut [u8], piece: &[u8]) -> Taken {
        let Some(store) = store.get_mut(..TEXT_BYTES) else {
            return Taken::Verdict(SHORT);
        };
        self.held = self.held.and_then(|held| {
            let end = held.checked_add(piece.len())?;
            store.get_mut(held..end)?.copy_from_slice(piece);
            Some(end)
        });
        match self.held {
            Some(_) => Taken::More,
            None => Taken::Verdict(TOO_LONG),
        }
    }

    /// Ends the text: its verdict, with the tables as loading the whole leaves them. The next piece is the first of
    /// another text, unless the store or a table is too short: refusal 1 leaves everything as it was.
    pub fn end(
        &mut self,
        store: &[u8],
        parameters: &mut [u32],
        registers: &mut [u32],
        variables: &mut [u32],
    ) -> Loaded {
        let Some(store) = store.get(..TEXT_BYTES) else {
            return SHORT;
        };
        if stated(parameters, registers, variables).is_none() {
            return SHORT;
        }
        match std::mem::replace(self, AFRESH).held {
            Some(held) => load_into(&store[..held], parameters, registers, variables),
            None => TOO_LONG,
        }
    }
}

#[cfg(test)]
mod tests {
    use super::*;
    use crate::stored::A;
    use crate::{PARAMETER_WORDS, REGISTER_WORDS, VARIABLE_WORDS};

    /// A store and tables that hold sevens, longer than they need be by as much.
    fn lent(more: usize) -> (Vec<u8>, [Vec<u32>; 3]) {
        let words = [PARAMETER_WORDS, REGISTER_WORDS, VARIABLE_WORDS];
        (
            vec![7; TEXT_BYTES + more],
            words.map(|size| vec![7; size + more]),
        )
    }

    fn end(pieces: &mut Pieces, store: &[u8], [p, r, v]: &mut [Vec<u32>; 3]) -> String {
        pieces.end(store, p, r, v).to_string()
    }

    /// Pieces lie in the store one behind the other, and nothing else in it is touched.
    #[test]
    fn the_store_holds_what_has_come() {
        let (mut store, _) = lent(3);
        let mut pieces = Pieces::default();
        for (piece, held) in [(&b"ab"[..], 2), (b"", 2), (b"c", 3)] {
            assert_eq!(pieces.piece(&mut store, piece), Taken::More);
            assert_eq!(pieces.held(), Some(held));
        }
        assert!(store.starts_with(b"abc") && store[3..].iter().all(|byte| *byte == 7));
        let before = store.clone();
        let passing = vec![0; TEXT_BYTES - 2];
        assert_eq!(
            pieces.piece(&mut store, &passing).to_string(),
            "refused 2 0"
        );
        assert_eq!((pieces.held(), &store), (None, &before));
    }

    /// Only the end call touches the tables, and not when the limit was passed.
    #[test]
    fn what_the_end_call_leaves() {
        let (mut store, mut tables) = lent(2);
        let (_, untouched) = lent(2);
        let mut pieces = Pieces::default();
        pieces.piece(&mut store, &[b' '; TEXT_BYTES + 1]);
        assert_eq!(end(&mut pieces, &store, &mut tables), "refused 2 0");
        assert_eq!((&tables, pieces), (&untouched, AFRESH));

        pieces.piece(&mut store, A.as_bytes());
        assert_eq!(tables, untouched);
        let before = store.clone();
        assert_eq!(end(&mut pieces, &store, &mut tables), "accepted 1 1 1");
        assert_eq!((pieces, &store), (AFRESH, &before));
        let [mut p, mut r, mut v] = untouched;
        load_into(A.as_bytes(), &mut p, &mut r, &mut v);
        assert_eq!(tables, [p, r, v]);
    }

    /// Refusal 1 comes first, also where the limit was passed, and leaves everything as it was.
    #[test]
    fn too_short_at_every_call() {
        let full = vec![b' '; TEXT_BYTES + 1];
        for taken in [&b""[..], A.as_bytes(), &full] {
            let (mut store, tables) = lent(0);
            let mut pieces = Pieces::default();
            pieces.piece(&mut store, taken);
            let before = (pieces, store.clone(), tables.clone());
            for length in [0, 1, TEXT_BYTES - 1] {
                for piece in [&b""[..], b"x", &full] {
                    let mut now = before.clone();
                    let answer = now.0.piece(&mut now.1[..length], piece);
                    assert_eq!(answer.to_string(), "refused 1 0");
                    assert_eq!(now, before);
                }
                let mut now = before.clone();
                assert_eq!(end(&mut now.0, &store[..length], &mut now.2), "refused 1 0");
                assert_eq!(now, before);
            }
            for short in 0..3 {
                let mut now = before.clone();
                now.2[short].pop();
                let lent = now.clone();
                assert_eq!(end(&mut now.0, &store, &mut now.2), "refused 1 0");
                assert_eq!(now, lent);
            }
        }
    }
}
