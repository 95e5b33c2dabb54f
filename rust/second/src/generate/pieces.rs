//! Texts in pieces: any cuts, empty pieces, texts that pass the limit, and stores that are too short.

use super::{text, Random};
use crate::load::TEXT_BYTES;
use crate::pieces::script::Call;

/// A text of any kind in pieces, and its end call, in a store that is whole again by then.
///
/// Most texts come as they are. Some go on behind their end, to the limit or past it; now and then the store is short
/// at a call, which is made again once the store is whole, or the text ends before its last pieces.
pub fn pieces(random: &mut Random) -> Vec<Call> {
    let mut bytes = text(random);
    if random.one_in(12) {
        let beyond = match random.below(2) {
            0 => random.below(4),
            _ => random.below(TEXT_BYTES),
        };
        let more = TEXT_BYTES - bytes.len().min(TEXT_BYTES) + beyond;
        bytes.resize(bytes.len() + more, b' ');
    }
    let mut calls = Vec::new();
    for piece in cut(random, &bytes) {
        perhaps_short(random, Call::Piece(piece), &mut calls);
    }
    if random.one_in(20) {
        calls.truncate(random.below(calls.len() + 1));
        calls.push(Call::LendAll);
    }
    perhaps_short(random, Call::End, &mut calls);
    calls
}

/// Now and then the call is made over a short store first.
fn perhaps_short(random: &mut Random, call: Call, calls: &mut Vec<Call>) {
    if random.one_in(15) {
        calls.extend([Call::LendShort, call.clone(), Call::LendAll]);
    }
    calls.push(call);
}

/// The text in pieces: a few of any length, some of them empty, or very many short ones.
fn cut(random: &mut Random, text: &[u8]) -> Vec<Vec<u8>> {
    let longest = match random.below(6) {
        0 => 4,
        1 => 40,
        _ => text.len().max(1),
    };
    let mut pieces = Vec::new();
    let mut at = 0;
    while at < text.len() {
        if random.one_in(8) {
            pieces.push(Vec::new());
        }
        let next = text.len().min(at + random.between(1, longest));
        pieces.push(text[at..next].to_vec());
        at = next;
    }
    if random.one_in(3) {
        pieces.push(Vec::new());
    }
    pieces
}
