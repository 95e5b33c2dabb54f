//! Scripts about the lines themselves: what is a call, what is skipped, and where a text begins.

use super::{Script, A};

pub fn scripts() -> Vec<Script> {
    vec![
        Script::answered("lines-that-are-no-calls", A, NO_CALLS),
        Script::answered("numbers-and-blanks", A, NUMBERS),
        Script::open("skipped-lines", A, SKIPPED),
        Script::open("bytes-that-are-no-text", A, BYTES),
        Script::open(
            "calls-behind-a-refused-text",
            "device",
            "open 1\nstate\nunheard\n",
        ),
        Script::open("a-line-that-heads-no-text", A, NO_FRAME),
        Script::open("an-empty-text", "", "state\n"),
        Script::open("a-text-of-lines", "text 1\nx\nopen 1\n", "state\n"),
        Script::open("nothing-behind-a-text", A, ""),
        // The last line of all has no newline; so this script is the last that is stored.
        Script::open("no-newline-at-the-end", A, "open 9\nstate"),
    ]
}

const NO_CALLS: &str = "open 4294967296 -> unknown
    open 1 2 x -> unknown
    open -0 -> unknown
    open 0x -> unknown
    opened 1 -> unknown
    OPEN 1 -> unknown
    open1 -> unknown
    read -> unknown
    read zero -> unknown
    read 0 0 -> unknown
    read -0 -> unknown
    read 18446744073709551616 -> unknown
    write -> unknown
    write 0 -> unknown
    write 0 1 2 -> unknown
    write 0 -> unknown
    write -0 1 -> unknown
    write 0 --1 -> unknown
    write 0 +1 -> unknown
    write 0 9223372036854775808 -> unknown
    write 0 -9223372036854775809 -> unknown
    confirm -> unknown
    confirm -1 -> unknown
    confirm 4294967296 -> unknown
    confirm 0 0 -> unknown
    abandon 0 -> unknown
    lookup v v -> unknown
    state 0 -> unknown
    lend -> unknown
    lend record -> unknown
    lend record 1 1 -> unknown
    lend record all all -> unknown
    lend record none -> unknown
    lend tables 1 -> unknown
    lend all record -> unknown
    hold -> unknown
    hold idle 0 -> unknown
    hold read -> unknown
    hold read 0 0 -> unknown
    hold read 0 0 0 0 -> unknown
    hold write 0 0 -1 -> unknown
    hold write 0 0 4294967296 -> unknown
    hold open -> unknown
    text -> unknown
    text 99999999 -> unknown
    text x -> unknown
    , -> unknown
    state -> record marks operation idle";

const NUMBERS: &str = "open 0x0a -> opened
    state -> record 0A marks 0 operation idle
    open 0000000000000000000000000000000000012 -> opened
    state -> record 0C marks 0 operation idle
    open 1 2 3 4 5 6 7 8 9 10 11 12 13 14 15 16 17 18 19 20 21 22 23 24 25 26 27 28 29 30 31 32 33 34 35 36 37 38 39 40 41 42 43 44 45 46 47 48 49 50 51 52 53 54 55 56 57 58 59 60 61 62 63 64 65 66 -> opened
    state -> record 01 marks 0 operation idle
    open 1 2 3 4 5 6 7 8 9 10 11 12 13 14 15 16 17 18 19 20 21 22 23 24 25 26 27 28 29 30 31 32 33 34 35 36 37 38 39 40 41 42 43 44 45 46 47 48 49 50 51 52 53 54 55 56 57 58 59 60 61 62 63 64 65 4294967296 -> unknown
    read   0x0 -> offer read 0 0 0x00
    confirm 0XFF -> unknown
    confirm\t0xfF\t -> done 255 1
    write 0 -0 -> offer write 0 0 0x00
    confirm 0 -> done 0 1
    write 0 -0x1 -> refused 27
    write 0 0x7FFFFFFFFFFFFFFF -> refused 55
    write 0 -0x8000000000000000 -> refused 27
    read 18446744073709551615 -> refused 25
    write 0xFFFFFFFFFFFFFFFF 0 -> refused 25
    lend record 18446744073709551615 -> lent
    lend marks 0xFFFFFFFFFFFFFFFF -> lent
    read 0 -> offer read 0 0 0x00
    abandon -> abandoned
    lend record 18446744073709551616 -> unknown
    hold read 18446744073709551615 18446744073709551615 4294967295 -> held
    state -> record 00 marks 0 operation read 18446744073709551615 18446744073709551615 4294967295
    confirm 0 -> refused 22
    hold write 0 0xFFFFFFFFFFFFFFFF 0xffffffff -> held
    state -> record 00 marks 0 operation write 0 18446744073709551615 4294967295
    abandon -> refused 22
    lookup v -> variable 0
    hold idle -> held";

const SKIPPED: &str =
    "\n; a comment\n ;\t another\n;state\n \t \n\t\tstate \t\nstate ; no comment here\n;\n";

const BYTES: &str =
    "state\r\n\r\nst\0ate\n\0\n\u{7f}\u{1b}[A\nlookup \u{e9}\nlookup v\u{a0}\nopen 1\u{b}\nstate\n";

/// `text 8` heads a text only where eight bytes and the end of a line follow it.
const NO_FRAME: &str = "open 7\ntext 8\nstate\ntext 8 8\nopen 8\ntext 7\nstate\nstate\n";
