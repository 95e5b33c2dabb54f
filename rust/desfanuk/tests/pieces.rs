//! Texts in pieces, through the crate's type.

use std::io::{self, Write};

use desfanuk::{Description, Pieces, Refusal, Refused};

/// Document 01's text A.
const A: &str = "device d(base:bit[8] port){register r=base:bit[8];variable v=r:int(8);}";

const TOO_LONG: Refused = Refused {
    refusal: Refusal::LongText,
    place: 0,
    line: 1,
    column: 1,
    cause: "the text has more than 8,192 bytes",
};

/// The description, or what refuses it, is that of the whole text, wherever it is cut; and each end
/// starts afresh.
#[test]
fn cut_at_every_byte() {
    let mut pieces = Pieces::new();
    for text in [A, &A[..70], &A.replace("int(8)", "int(7)")] {
        let whole = Description::load(text);
        for cut in 0..=text.len() {
            let (one, other) = text.as_bytes().split_at(cut);
            for piece in [one, b"", other] {
                assert_eq!(pieces.take(piece), Ok(()));
            }
            match (pieces.end(), &whole) {
                (Ok(got), Ok(whole)) => {
                    assert_eq!(got.text(), whole.text());
                    assert_eq!(got.tables(), whole.tables());
                }
                (got, whole) => assert_eq!(got.err(), whole.as_ref().err().copied()),
            }
        }
    }
}

#[test]
fn the_limit_from_both_sides() {
    let mut pieces = Pieces::new();
    assert_eq!(pieces.take(&[b' '; 8192]), Ok(()));
    assert_eq!(pieces.take(b""), Ok(()));
    assert_eq!(pieces.take(b" "), Err(TOO_LONG));
    assert_eq!(pieces.take(b""), Err(TOO_LONG));
    assert_eq!(pieces.end().err(), Some(TOO_LONG));
    assert_eq!(pieces.take(A.as_bytes()), Ok(()));
    assert!(pieces.end().is_ok());
}

/// As a writer it takes what a reader gives, and says why it takes no more.
#[test]
fn a_reader_is_copied_into_it() {
    let mut pieces = Pieces::new();
    let copied = io::copy(&mut A.as_bytes(), &mut pieces);
    assert_eq!(copied.expect("within the limit"), 71);
    let description = pieces.end().expect("text A");
    assert!(description.with(|a| a.variable("v").is_some()));

    let mut long = io::Read::take(io::repeat(b' '), 8193);
    let error = io::copy(&mut long, &mut pieces).expect_err("over the limit");
    let refused = error.get_ref().and_then(|why| why.downcast_ref());
    assert_eq!(refused, Some(&TOO_LONG));
    assert!(pieces.write(b"").is_err());
    assert!(pieces.flush().is_ok());
}
