//! The proved calls as they are: numbers and slices alone. docs/ABI.md says how words stand for a
//! verdict, an operation and an answer; what each call does is its contract in crates/abi, whose
//! declarations those below are held to by a test.

/// Words of the table of parameters: the count, and 16 entries of 36.
pub const PARAMETERS_WORDS: usize = 577;

/// Words of the table of registers: the count, and 64 entries of 15.
pub const REGISTERS_WORDS: usize = 961;

/// Words of the table of variables: the count, and 128 entries of 59.
pub const VARIABLES_WORDS: usize = 7553;

/// Bytes of the store of a text in pieces: the longest text.
pub const STORE_BYTES: usize = 8192;

/// Words of a verdict: 0, a refusal's number and place; or 1 and the three counts.
pub const VERDICT_WORDS: usize = 4;

/// Words of an operation in hand: kind, variable, step, bits.
pub const OPERATION_WORDS: usize = 4;

/// Words of an answer: kind, then what it gives.
pub const ANSWER_WORDS: usize = 5;

/// Three lent tables: of the stated sizes, longer or shorter.
#[derive(Clone, Copy, Debug)]
pub struct Tables<'t> {
    pub parameters: &'t [u32],
    pub registers: &'t [u32],
    pub variables: &'t [u32],
}

// For each declaration a function of Rust, which calls the one of C: to that a slice passes as a
// pointer and a length. The three tables are taken as one.
//
// The parameters go one by one from the first list to three others: what the function takes, what
// the one of C takes, and what is passed to it.
macro_rules! calls {
    ($($(#[$doc:meta])* $seen:vis $call:ident: fn $c:ident($($declared:tt)*) -> $result:ty;)*) => {
        $(calls! { @($(#[$doc])* $seen $call $c $result) [$($declared)*] [] [] [] })*
    };
    (@$call:tt [parameters: &[u32], registers: &[u32], variables: &[u32], $($more:tt)*]
        [] [] []) => {
        calls! {
            @$call [$($more)*]
            [tables: Tables<'_>,]
            [_: *const u32, _: usize, _: *const u32, _: usize, _: *const u32, _: usize,]
            [
                tables.parameters.as_ptr(), tables.parameters.len(),
                tables.registers.as_ptr(), tables.registers.len(),
                tables.variables.as_ptr(), tables.variables.len(),
            ]
        }
    };
    (@$call:tt [$slice:ident: &mut [$word:ty], $($more:tt)*]
        [$($taken:tt)*] [$($c:tt)*] [$($passed:tt)*]) => {
        calls! {
            @$call [$($more)*]
            [$($taken)* $slice: &mut [$word],]
            [$($c)* _: *mut $word, _: usize,]
            [$($passed)* $slice.as_mut_ptr(), $slice.len(),]
        }
    };
    (@$call:tt [$slice:ident: &[$word:ty], $($more:tt)*]
        [$($taken:tt)*] [$($c:tt)*] [$($passed:tt)*]) => {
        calls! {
            @$call [$($more)*]
            [$($taken)* $slice: &[$word],]
            [$($c)* _: *const $word, _: usize,]
            [$($passed)* $slice.as_ptr(), $slice.len(),]
        }
    };
    (@$call:tt [$number:ident: $kind:ty, $($more:tt)*]
        [$($taken:tt)*] [$($c:tt)*] [$($passed:tt)*]) => {
        calls! {
            @$call [$($more)*]
            [$($taken)* $number: $kind,]
            [$($c)* _: $kind,]
            [$($passed)* $number,]
        }
    };
    (@($(#[$doc:meta])* $seen:vis $call:ident $name:ident $result:ty) []
        [$($taken:tt)*] [$($c:tt)*] [$($passed:tt)*]) => {
        $(#[$doc])*
        $seen fn $call($($taken)*) -> $result {
            extern "C" {
                fn $name($($c)*) -> $result;
            }
            unsafe { $name($($passed)*) }
        }
    };
}

// The declarations are those of crates/abi. They have no `requires`: any slices and any numbers may
// be passed. They write inside the slices that are lent as `&mut` alone, and keep none of the
// pointers.
calls! {
    /// Loads a text into the tables; the verdict is told in the words of `answer`, as far as they
    /// go. Gives the refusal's number, or 0.
    pub load: fn desfanuk_load(
        text: &[u8],
        parameters: &mut [u32],
        registers: &mut [u32],
        variables: &mut [u32],
        answer: &mut [u64],
    ) -> u32;

    /// Takes a piece of a text into `store`, behind the bytes that the word of `taken` counts; the
    /// answer is told in the words of `answer`. Gives the refusal's number, or 0.
    pub take_piece: fn desfanuk_take_piece(
        parameters: &[u32],
        registers: &[u32],
        variables: &[u32],
        store: &mut [u8],
        taken: &mut [u64],
        piece: &[u8],
        answer: &mut [u64],
    ) -> u32;

    /// Ends a text in pieces and loads it, as `load` does.
    pub end_pieces: fn desfanuk_end_pieces(
        store: &[u8],
        taken: &mut [u64],
        parameters: &mut [u32],
        registers: &mut [u32],
        variables: &mut [u32],
        answer: &mut [u64],
    ) -> u32;

    /// The index of the variable of this name, or -1.
    index: fn desfanuk_lookup(
        text: &[u8],
        variables: &[u32],
        name: &[u8],
    ) -> i64;

    /// 1 where no call of the station refuses these tables by 20, and 0 where every call does.
    soundness: fn desfanuk_sound(
        parameters: &[u32],
        registers: &[u32],
        variables: &[u32],
    ) -> u32;

    /// An opening. As every call of the station it tells its answer in the words of `answer`, as far
    /// as they go, and gives the refusal's number, or 0.
    pub open: fn desfanuk_open(
        parameters: &[u32],
        registers: &[u32],
        variables: &[u32],
        power: &[u32],
        held: &mut [u32],
        marks: &mut [u8],
        operation: &mut [u64],
        answer: &mut [i64],
    ) -> u64;

    /// Begins the read of a variable.
    pub begin_read: fn desfanuk_begin_read(
        parameters: &[u32],
        registers: &[u32],
        variables: &[u32],
        held: &[u32],
        marks: &[u8],
        operation: &mut [u64],
        variable: usize,
        answer: &mut [i64],
    ) -> u64;

    /// Begins the write of a variable.
    pub begin_write: fn desfanuk_begin_write(
        parameters: &[u32],
        registers: &[u32],
        variables: &[u32],
        held: &[u32],
        marks: &[u8],
        operation: &mut [u64],
        variable: usize,
        value: i64,
        answer: &mut [i64],
    ) -> u64;

    /// Confirms the access on offer; the number is what was read, and for a write it is ignored.
    pub confirm: fn desfanuk_confirm(
        parameters: &[u32],
        registers: &[u32],
        variables: &[u32],
        held: &mut [u32],
        marks: &mut [u8],
        operation: &mut [u64],
        number: u32,
        answer: &mut [i64],
    ) -> u64;

    /// Abandons the operation in hand.
    pub abandon: fn desfanuk_abandon(
        parameters: &[u32],
        registers: &[u32],
        variables: &[u32],
        held: &[u32],
        marks: &mut [u8],
        operation: &mut [u64],
        answer: &mut [i64],
    ) -> u64;

    /// Begins the read of a variable in units; gain and offset are the 64 bits of two doubles.
    pub begin_read_in_units: fn desfanuk_begin_read_in_units(
        parameters: &[u32],
        registers: &[u32],
        variables: &[u32],
        held: &[u32],
        marks: &[u8],
        operation: &mut [u64],
        variable: usize,
        gain: u64,
        offset: u64,
        answer: &mut [i64],
    ) -> u64;

    /// Confirms the access on offer; a read that is done gives its reading in units: 6, the high and
    /// the low half of a double's bits, the accesses and 0. Refused by 54 (5, 54, 0, 0, 0) it is over.
    pub confirm_in_units: fn desfanuk_confirm_in_units(
        parameters: &[u32],
        registers: &[u32],
        variables: &[u32],
        held: &mut [u32],
        marks: &mut [u8],
        operation: &mut [u64],
        number: u32,
        gain: u64,
        offset: u64,
        answer: &mut [i64],
    ) -> u64;
}

/// The index of the variable of this name.
pub fn lookup(text: &[u8], variables: &[u32], name: &[u8]) -> Option<usize> {
    match index(text, variables, name) {
        -1 => None,
        index => Some(usize::try_from(index).expect("an index")),
    }
}

/// Whether no call of the station refuses these tables by 20.
pub fn sound(tables: Tables<'_>) -> bool {
    match soundness(tables) {
        0 => false,
        1 => true,
        other => panic!("desfanuk_sound answered {other}"),
    }
}
