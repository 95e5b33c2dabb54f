//! Scripts of pieces: the limit from both sides, stores that are too short, and every stored text in pieces.

use super::{texts, Case, A};
use crate::load::{load, Verdict, TEXT_BYTES};
use crate::pieces::script::Call;

/// A script of pieces, and the lines that it writes, as the papers settle them.
#[derive(Clone, Debug)]
pub struct PieceScript {
    pub name: String,
    pub lines: Vec<u8>,
    pub expected: Vec<String>,
}

impl PieceScript {
    fn new(name: &str) -> PieceScript {
        PieceScript {
            name: name.to_string(),
            lines: Vec::new(),
            expected: Vec::new(),
        }
    }

    fn call(mut self, call: Call, answer: &str) -> PieceScript {
        call.write(&mut self.lines);
        self.expected.push(answer.to_string());
        self
    }

    fn piece(self, bytes: impl AsRef<[u8]>, answer: &str) -> PieceScript {
        self.call(Call::Piece(bytes.as_ref().to_vec()), answer)
    }

    fn end(self, answer: &str) -> PieceScript {
        self.call(Call::End, answer)
    }

    /// The call that `given` adds, over a short store, which is whole again after it.
    fn short(self, given: impl Fn(PieceScript, &str) -> PieceScript) -> PieceScript {
        given(self.call(Call::LendShort, "lent"), "refused 1 0").call(Call::LendAll, "lent")
    }

    /// A line as it stands, and what it writes; nothing, where it is skipped.
    fn line(mut self, line: &str, answer: Option<&str>) -> PieceScript {
        self.lines.extend_from_slice(line.as_bytes());
        self.lines.push(b'\n');
        self.expected.extend(answer.map(str::to_string));
        self
    }
}

/// All stored scripts of pieces.
pub fn scripts() -> Vec<PieceScript> {
    let mut scripts = vec![
        nothing(),
        nothing_but_empty_pieces(),
        one_piece(),
        a_byte_a_piece(),
        afresh(),
        bad_from_the_start(),
        ended_early(),
        lines(),
        pieces_of_lines(),
    ];
    scripts.extend(every_cut());
    scripts.extend(limits());
    scripts.extend(past_the_limit());
    scripts.extend(short());
    scripts.extend(texts().iter().enumerate().map(stored_text));
    scripts
}

fn nothing() -> PieceScript {
    PieceScript::new("end-without-a-piece")
        .end("refused 4 0")
        .end("refused 4 0")
}

fn nothing_but_empty_pieces() -> PieceScript {
    PieceScript::new("nothing-but-empty-pieces")
        .piece("", "more")
        .piece("", "more")
        .end("refused 4 0")
}

fn one_piece() -> PieceScript {
    PieceScript::new("one-piece")
        .piece(A, "more")
        .end("accepted 1 1 1")
}

fn a_byte_a_piece() -> PieceScript {
    A.bytes()
        .fold(PieceScript::new("a-byte-a-piece"), |script, byte| {
            script.piece([byte], "more")
        })
        .end("accepted 1 1 1")
}

/// The end call starts afresh: what came before it is gone, whatever it was.
fn afresh() -> PieceScript {
    PieceScript::new("afresh-after-each-end")
        .piece(A, "more")
        .end("accepted 1 1 1")
        .end("refused 4 0")
        .piece("device", "more")
        .end("refused 4 6")
        .piece(" d", "more")
        .end("refused 4 1")
        .piece("", "more")
        .piece(&A[..40], "more")
        .piece(&A[40..], "more")
        .end("accepted 1 1 1")
        .piece(A, "more")
        .piece(A, "more")
        .end("refused 4 71")
}

/// 3 to 16 wait for the end call.
fn bad_from_the_start() -> PieceScript {
    PieceScript::new("bad-from-the-start")
        .piece("$", "more")
        .piece(A, "more")
        .end("refused 3 0")
        .piece("}", "more")
        .piece("", "more")
        .end("refused 4 0")
}

fn ended_early() -> PieceScript {
    PieceScript::new("ended-before-the-last-piece")
        .piece(&A[..A.len() - 1], "more")
        .end("refused 4 70")
        .piece("}", "more")
        .end("refused 4 0")
}

/// Text A in two pieces, cut at every byte, in one script: each end call starts afresh.
fn every_cut() -> [PieceScript; 2] {
    let cut = |name: &str, text: &str, verdict: &str| {
        (0..=text.len()).fold(PieceScript::new(name), |script, at| {
            script
                .piece(&text[..at], "more")
                .piece(&text[at..], "more")
                .end(verdict)
        })
    };
    [
        cut("text-a-cut-at-every-byte", A, "accepted 1 1 1"),
        cut(
            "signs-comments-and-numbers-cut-at-every-byte",
            "device d(b:bit[8]port@{0..0x10}){/**///\nregister r=b@-(-3),mask'1..*....':bit[8];variable v=r[6..5]#r[3..0]:signed int(6);}",
            "accepted 1 1 1",
        ),
    ]
}

/// Text A, and blanks up to this length.
fn long(length: usize) -> String {
    format!("{A:<length$}")
}

/// A text of the greatest length, and one that is a byte longer, in one piece or several.
fn limits() -> Vec<PieceScript> {
    let good = "accepted 1 1 1";
    let full = long(TEXT_BYTES);
    let over = long(TEXT_BYTES + 1);
    let last = TEXT_BYTES - 1;
    vec![
        PieceScript::new("the-limit-in-one-piece")
            .piece(&full, "more")
            .end(good),
        PieceScript::new("the-limit-with-its-last-byte-apart")
            .piece(&full[..last], "more")
            .piece(&full[last..], "more")
            .end(good),
        PieceScript::new("an-empty-piece-at-the-limit")
            .piece(&full, "more")
            .piece("", "more")
            .end(good),
        PieceScript::new("a-byte-below-the-limit")
            .piece(&full[..1], "more")
            .piece(&full[1..last], "more")
            .end(good),
        PieceScript::new("a-byte-over-the-limit-in-one-piece")
            .piece(&over, "refused 2 0")
            .end("refused 2 0"),
        PieceScript::new("a-byte-over-the-limit-apart")
            .piece(&over[..TEXT_BYTES], "more")
            .piece(&over[TEXT_BYTES..], "refused 2 0")
            .end("refused 2 0"),
        PieceScript::new("a-byte-over-the-limit-behind-one-byte")
            .piece(&over[..1], "more")
            .piece(&over[1..], "refused 2 0")
            .end("refused 2 0"),
    ]
}

/// The limit once passed, 2 is repeated up to and by the end call, which starts afresh.
fn past_the_limit() -> [PieceScript; 3] {
    let long = long(TEXT_BYTES + 1);
    [
        PieceScript::new("refusal-2-is-repeated")
            .piece(&long, "refused 2 0")
            .piece("", "refused 2 0")
            .piece("x", "refused 2 0")
            .piece(&long, "refused 2 0")
            .piece("", "refused 2 0")
            .end("refused 2 0")
            .end("refused 4 0")
            .piece(A, "more")
            .end("accepted 1 1 1"),
        // Nothing of the piece that passes the limit is taken back to make room.
        PieceScript::new("a-piece-that-would-fit-after-refusal-2")
            .piece(A, "more")
            .piece(&long, "refused 2 0")
            .piece(" ", "refused 2 0")
            .end("refused 2 0")
            .piece(A, "more")
            .end("accepted 1 1 1"),
        PieceScript::new("a-bad-text-that-passes-the-limit")
            .piece("$", "more")
            .piece(&long[..TEXT_BYTES], "refused 2 0")
            .end("refused 2 0")
            .piece("$", "more")
            .end("refused 3 0"),
    ]
}

/// Refusal 1 is tested first at every call, and changes nothing.
fn short() -> Vec<PieceScript> {
    let (one, other) = A.split_at(30);
    let over = long(TEXT_BYTES + 1);
    vec![
        PieceScript::new("a-short-store-at-the-first-piece")
            .short(|script, answer| script.piece("$", answer))
            .piece(A, "more")
            .end("accepted 1 1 1"),
        PieceScript::new("a-short-store-at-a-later-piece")
            .piece(one, "more")
            .short(|script, answer| script.piece("$", answer).piece(other, answer))
            .piece(other, "more")
            .end("accepted 1 1 1"),
        PieceScript::new("a-short-store-at-an-empty-piece")
            .piece(one, "more")
            .short(|script, answer| script.piece("", answer))
            .piece(other, "more")
            .end("accepted 1 1 1"),
        PieceScript::new("a-short-store-at-the-end-call")
            .piece(A, "more")
            .short(|script, answer| script.end(answer).end(answer))
            .end("accepted 1 1 1")
            .end("refused 4 0"),
        PieceScript::new("a-short-store-at-an-end-without-a-piece")
            .short(|script, answer| script.end(answer))
            .end("refused 4 0"),
        PieceScript::new("a-short-store-between-two-pieces-and-their-end")
            .piece(one, "more")
            .short(|script, answer| script.end(answer))
            .piece(other, "more")
            .end("accepted 1 1 1"),
        PieceScript::new("a-short-store-at-the-piece-that-passes-the-limit")
            .piece(A, "more")
            .short(|script, answer| script.piece(&over, answer))
            .end("accepted 1 1 1"),
        PieceScript::new("a-short-store-after-refusal-2")
            .piece(&over, "refused 2 0")
            .short(|script, answer| script.piece("", answer).piece("x", answer))
            .piece("", "refused 2 0")
            .short(|script, answer| script.end(answer))
            .piece("x", "refused 2 0")
            .end("refused 2 0")
            .piece(A, "more")
            .end("accepted 1 1 1"),
        PieceScript::new("a-store-that-stays-short")
            .call(Call::LendShort, "lent")
            .piece(A, "refused 1 0")
            .end("refused 1 0")
            .call(Call::LendShort, "lent")
            .end("refused 1 0"),
        PieceScript::new("each-script-is-lent-the-whole-store")
            .piece(A, "more")
            .end("accepted 1 1 1")
            .call(Call::LendAll, "lent")
            .end("refused 4 0"),
    ]
}

/// What is a call, and what is skipped.
fn lines() -> PieceScript {
    let unknown = [
        "piece",
        "piece x",
        "piece -1",
        "piece 0x",
        "piece 99999999",
        "piece 18446744073709551616",
        "piece 1 1",
        "pieces 0",
        "Piece 0",
        "end 0",
        "ends",
        "END",
        "lend",
        "lend 1",
        "lend shorter",
        "lend short 1",
        "lend all all",
        "lend record 1",
        "text 0",
        "open 1",
        "state",
        ",",
    ];
    let skipped = ["", " \t", "; end", "\t;piece 0"];
    let script = PieceScript::new("lines-that-are-no-pieces").piece(A, "more");
    let script = unknown
        .iter()
        .fold(script, |script, line| script.line(line, Some("unknown")));
    let script = skipped
        .iter()
        .fold(script, |script, line| script.line(line, None));
    script
        .line(" lend\tshort ", Some("lent"))
        .line("lend  all", Some("lent"))
        .line("\tend\t", Some("accepted 1 1 1"))
        .line(" piece  0x0 \n", Some("more"))
        .line("piece 0002\n//", Some("more"))
        // A piece whose bytes do not end with a line is none, and its bytes are lines.
        .line("piece 1\n; two", Some("unknown"))
        .line("end", Some("refused 4 2"))
}

/// The bytes of a piece are not looked at: those here are lines themselves.
fn pieces_of_lines() -> PieceScript {
    PieceScript::new("pieces-that-are-lines")
        .piece("end\n", "more")
        .piece("lend short\n", "more")
        .piece("piece 3\nabc\n", "more")
        .piece("text 1\nx", "more")
        .piece([0, 10, 255], "more")
        .end("refused 4 0")
}

/// A stored text, cut where it is worth it, in one of five ways by turns.
fn stored_text((number, case): (usize, &Case)) -> PieceScript {
    let text = &case.text[..];
    // The place that a refusal names, or the middle.
    let place = match load(text) {
        Verdict::Refused { place, .. } if place > 0 => place,
        _ => text.len() / 2,
    };
    let cuts: Vec<usize> = match number % 5 {
        0 => vec![place],
        1 => vec![0, place, place, place + 1],
        2 => vec![place + 1, text.len()],
        3 => vec![1, place.saturating_sub(1)],
        _ => vec![0, 0, text.len().saturating_sub(1)],
    };
    let verdict = load(text).to_string();
    let mut script = PieceScript::new(&format!("{} (in pieces)", case.name));
    let mut from = 0;
    for cut in cuts.into_iter().chain([text.len()]) {
        let to = cut.clamp(from, text.len());
        let answer = match to > TEXT_BYTES {
            true => "refused 2 0",
            false => "more",
        };
        script = script.piece(&text[from..to], answer);
        from = to;
    }
    script.end(&verdict)
}
