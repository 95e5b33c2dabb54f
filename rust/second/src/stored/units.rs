//! Scripts of reads in units: refusals 53 and 54, and how they stand to the others.

use super::Script;

/// A signed variable and a bool.
const SIGNED: &str =
    "device d(b:bit[8] port){register r=b:bit[8];variable v=r[7..1]:signed int(7);\
    variable w=r[0]:bool;}";

/// A variable with both parts, one without a read part, one whose register has fixed bits, and a bool there.
const PARTS: &str =
    "device d(b:bit[8] port@{0..2}){register r=b@0:bit[8];register s=write b@1:bit[8];\
    register t=read b@2,mask '1......0':bit[8];variable v=r:int(8);variable w=s:int(8);\
    variable x=t[6..2]:int(5);variable y=t[1]:bool;}";

/// The widest variables, unsigned and signed, over four registers each, and one of a single bit.
const WIDE: &str =
    "device d(b:bit[8] port@{0..8}){register r0=read b@0:bit[8];register r1=read b@1:bit[8];\
    register r2=read b@2:bit[8];register r3=read b@3:bit[8];register s0=read b@4:bit[8];\
    register s1=read b@5:bit[8];register s2=read b@6:bit[8];register s3=read b@7:bit[8];\
    register t=read b@8,mask '*******.':bit[8];variable u=r0#r1#r2#r3:int(32);\
    variable s=s0#s1#s2#s3:signed int(32);variable o=t[0]:int(1);}";

pub fn scripts() -> Vec<Script> {
    vec![
        Script::answered("units", SIGNED, UNITS),
        Script::answered("units-last", PARTS, LAST),
        Script::answered("units-contradicted", PARTS, CONTRADICTED),
        Script::answered("units-not-finite", PARTS, NOT_FINITE),
        Script::answered("units-of-the-widest", WIDE, WIDEST),
        Script::answered("units-of-signed-readings", SIGNED, OF_SIGNED),
        Script::answered("units-and-zeros", SIGNED, ZEROS),
        Script::answered("units-rounded-twice", PARTS, ROUNDED_TWICE),
        Script::answered("units-abandoned", WIDE, ABANDONED),
        Script::answered("units-of-the-read-in-hand-alone", PARTS, IN_HAND),
        Script::answered("units-and-short-buffers", PARTS, SHORT),
        Script::answered("units-that-are-no-calls", SIGNED, NO_CALLS),
    ]
}

const UNITS: &str = "open 0 -> opened
    calibrated 0 3FF0000000000000 0000000000000000 -> offer read 0 0 0x00
    confirm 0xFE -> done BFF0000000000000 1
    calibrated 1 3FF0000000000000 0000000000000000 -> refused 53
    calibrated 0 7FF0000000000000 0000000000000000 -> refused 53
    calibrated 0 7FEFFFFFFFFFFFFF 0000000000000000 -> offer read 0 0 0x00
    confirm 6 -> refused 54
    state -> record 00 marks 0 0 operation idle";

/// 53 comes after every lower number that a begin can give.
const LAST: &str = "calibrated 3 7FF0000000000000 0000000000000000 -> refused 21
    open 0 0 0 -> opened
    hold write 0 0 256 -> held
    calibrated 3 7FF0000000000000 0000000000000000 -> refused 22
    hold write 0 0 255 -> held
    calibrated 3 7FF0000000000000 0000000000000000 -> refused 23
    abandon -> abandoned
    calibrated 4 7FF0000000000000 0000000000000000 -> refused 25
    calibrated 18446744073709551615 7FF0000000000000 0000000000000000 -> refused 25
    calibrated 1 7FF0000000000000 0000000000000000 -> refused 26
    calibrated 1 3FF0000000000000 0000000000000000 -> refused 26
    calibrated 0 7FF0000000000000 0000000000000000 -> refused 28
    calibrated 0 3FF0000000000000 0000000000000000 -> refused 28
    state -> record 00 00 00 marks 1 0 0 0 operation idle
    calibrated 3 3FF0000000000000 0000000000000000 -> refused 53
    calibrated 3 7FF0000000000000 0000000000000000 -> refused 53
    calibrated 2 7FF0000000000000 0000000000000000 -> refused 53
    read 3 -> offer read 0 2 0x00
    calibrated 3 7FF0000000000000 0000000000000000 -> refused 23
    confirm 0x82 -> done 1 1
    state -> record 00 00 00 marks 1 0 0 0 operation idle";

/// 52 comes before 54: there is no done.
const CONTRADICTED: &str = "open 0 0 0 -> opened
    calibrated 2 3FF0000000000000 3FF0000000000000 -> offer read 0 2 0x00
    confirm 0xFF -> refused 52 2
    confirm 0x80 -> refused 24
    calibrated 2 7FEFFFFFFFFFFFFF 7FEFFFFFFFFFFFFF -> offer read 0 2 0x00
    confirm 0x7C -> refused 52 2
    calibrated 2 7FEFFFFFFFFFFFFF 7FEFFFFFFFFFFFFF -> offer read 0 2 0x00
    confirm 0xFC -> refused 54
    state -> record 00 00 00 marks 0 0 0 0 operation idle
    calibrated 2 3FF0000000000000 3FF0000000000000 -> offer read 0 2 0x00
    confirm 0xFC -> done 4040000000000000 1";

/// The patterns on both sides of what is finite, and the results on both sides; 54 ends the read and leaves all else.
const NOT_FINITE: &str = "open 7 8 9 -> opened
    write 1 3 -> offer write 0 1 0x03
    abandon -> abandoned
    calibrated 0 7FEFFFFFFFFFFFFF 7FF0000000000000 -> refused 53
    calibrated 0 0000000000000000 7FF0000000000001 -> refused 53
    calibrated 0 7FF8000000000000 0000000000000000 -> refused 53
    calibrated 0 FFF0000000000000 FFEFFFFFFFFFFFFF -> refused 53
    calibrated 0 FFFFFFFFFFFFFFFF 0000000000000000 -> refused 53
    state -> record 07 08 09 marks 0 1 0 0 operation idle
    calibrated 0 7FEFFFFFFFFFFFFF FFEFFFFFFFFFFFFF -> offer read 0 0 0x00
    confirm 0 -> done FFEFFFFFFFFFFFFF 1
    calibrated 0 7FEFFFFFFFFFFFFF FFEFFFFFFFFFFFFF -> offer read 0 0 0x00
    confirm 1 -> done 0000000000000000 1
    calibrated 0 7FEFFFFFFFFFFFFF FFEFFFFFFFFFFFFF -> offer read 0 0 0x00
    confirm 2 -> refused 54
    state -> record 07 08 09 marks 0 1 0 0 operation idle
    confirm 2 -> refused 24
    calibrated 0 7FEFFFFFFFFFFFFF 7C90000000000000 -> offer read 0 0 0x00
    confirm 1 -> refused 54
    calibrated 0 7FEFFFFFFFFFFFFF 7C8FFFFFFFFFFFFF -> offer read 0 0 0x00
    confirm 1 -> done 7FEFFFFFFFFFFFFF 1
    read 0 -> offer read 0 0 0x00
    confirm 2 -> done 2 1";

const WIDEST: &str = "open 0 0 0 0 0 0 0 0 0 -> opened
    calibrated 0 3FF0000000000000 0000000000000000 -> offer read 0 0 0x00
    confirm 0xFF -> offer read 0 1 0x00
    confirm 0xFF -> offer read 0 2 0x00
    confirm 0xFF -> offer read 0 3 0x00
    state -> record 00 00 00 00 00 00 00 00 00 marks 0 0 0 operation read 0 3 4294967040
    confirm 0xFF -> done 41EFFFFFFFE00000 4
    calibrated 1 3FF0000000000000 0000000000000000 -> offer read 0 4 0x00
    confirm 0xFF -> offer read 0 5 0x00
    confirm 0xFF -> offer read 0 6 0x00
    confirm 0xFF -> offer read 0 7 0x00
    confirm 0xFF -> done BFF0000000000000 4
    calibrated 0 3FF0000000000000 0000000000000000 -> offer read 0 0 0x00
    confirm 0x80 -> offer read 0 1 0x00
    confirm 0 -> offer read 0 2 0x00
    confirm 0 -> offer read 0 3 0x00
    confirm 0 -> done 41E0000000000000 4
    calibrated 1 3FF0000000000000 0000000000000000 -> offer read 0 4 0x00
    confirm 0x80 -> offer read 0 5 0x00
    confirm 0 -> offer read 0 6 0x00
    confirm 0 -> offer read 0 7 0x00
    confirm 0 -> done C1E0000000000000 4
    calibrated 1 3FF0000000000000 0000000000000000 -> offer read 0 4 0x00
    confirm 1 -> offer read 0 5 0x00
    confirm 0 -> offer read 0 6 0x00
    confirm 0 -> offer read 0 7 0x00
    confirm 1 -> done 4170000010000000 4
    calibrated 2 4008000000000000 3FF0000000000000 -> offer read 0 8 0x00
    confirm 1 -> done 4010000000000000 1";

const OF_SIGNED: &str = "open 0 -> opened
    calibrated 0 3FF0000000000000 0000000000000000 -> offer read 0 0 0x00
    confirm 0x80 -> done C050000000000000 1
    calibrated 0 3FF0000000000000 0000000000000000 -> offer read 0 0 0x00
    confirm 0x7E -> done 404F800000000000 1
    calibrated 0 BFF0000000000000 C050000000000000 -> offer read 0 0 0x00
    confirm 0x80 -> done 0000000000000000 1
    calibrated 0 FFEFFFFFFFFFFFFF 0000000000000000 -> offer read 0 0 0x00
    confirm 0xFE -> done 7FEFFFFFFFFFFFFF 1
    calibrated 0 7FEFFFFFFFFFFFFF 0000000000000000 -> offer read 0 0 0x00
    confirm 0xFC -> refused 54
    calibrated 0 0000000000000001 8000000000000001 -> offer read 0 0 0x00
    confirm 0xFE -> done 8000000000000002 1";

const ZEROS: &str = "open 0 -> opened
    calibrated 0 BFF0000000000000 0000000000000000 -> offer read 0 0 0x00
    confirm 0 -> done 0000000000000000 1
    calibrated 0 BFF0000000000000 8000000000000000 -> offer read 0 0 0x00
    confirm 0 -> done 8000000000000000 1
    calibrated 0 3FF0000000000000 8000000000000000 -> offer read 0 0 0x00
    confirm 0 -> done 0000000000000000 1
    calibrated 0 0000000000000000 8000000000000000 -> offer read 0 0 0x00
    confirm 0xFE -> done 8000000000000000 1
    calibrated 0 8000000000000000 8000000000000000 -> offer read 0 0 0x00
    confirm 0xFE -> done 0000000000000000 1
    calibrated 0 8000000000000000 8000000000000000 -> offer read 0 0 0x00
    confirm 2 -> done 8000000000000000 1";

/// Ten tenths are one, and three tenths a bit more than 0.3: what the product lost is not there in the sum.
const ROUNDED_TWICE: &str = "open 0 0 0 -> opened
    calibrated 0 3FB999999999999A BFF0000000000000 -> offer read 0 0 0x00
    confirm 10 -> done 0000000000000000 1
    calibrated 0 3FB999999999999A BFD3333333333333 -> offer read 0 0 0x00
    confirm 3 -> done 3C90000000000000 1
    calibrated 0 3FF0000000000000 4340000000000000 -> offer read 0 0 0x00
    confirm 1 -> done 4340000000000000 1
    calibrated 0 3FF0000000000000 4340000000000000 -> offer read 0 0 0x00
    confirm 3 -> done 4340000000000002 1
    calibrated 0 3FF0000000000003 0000000000000000 -> offer read 0 0 0x00
    confirm 3 -> done 4008000000000004 1";

/// Abandoned at each step, a read in units changes nothing; nor does a begin or an opening later know of it.
const ABANDONED: &str = "open 1 2 3 4 5 6 7 8 9 -> opened
    calibrated 0 4000000000000000 0000000000000000 -> offer read 0 0 0x00
    abandon -> abandoned
    calibrated 0 4000000000000000 0000000000000000 -> offer read 0 0 0x00
    confirm 1 -> offer read 0 1 0x00
    abandon -> abandoned
    confirm 1 -> refused 24
    state -> record 01 02 03 04 05 06 07 08 09 marks 0 0 0 operation idle
    read 2 -> offer read 0 8 0x00
    confirm 1 -> done 1 1
    calibrated 0 4000000000000000 0000000000000000 -> offer read 0 0 0x00
    open 0 0 0 0 0 0 0 0 0 -> opened
    confirm 1 -> refused 24
    read 2 -> offer read 0 8 0x00
    confirm 1 -> done 1 1
    calibrated 2 4000000000000000 0000000000000000 -> offer read 0 8 0x00
    confirm 1 -> done 4000000000000000 1";

/// A confirmation is in units while the read that `calibrated` began is in hand.
const IN_HAND: &str = "open 0 0 0 -> opened
    calibrated 0 4000000000000000 0000000000000000 -> offer read 0 0 0x00
    read 0 -> refused 23
    calibrated 0 3FF0000000000000 0000000000000000 -> refused 23
    calibrated 3 7FF0000000000000 0000000000000000 -> refused 23
    write 0 1 -> refused 23
    lookup v -> variable 0
    state -> record 00 00 00 marks 0 0 0 0 operation read 0 0 0
    confirm 3 -> done 4018000000000000 1
    read 0 -> offer read 0 0 0x00
    confirm 3 -> done 3 1
    calibrated 0 4000000000000000 0000000000000000 -> offer read 0 0 0x00
    hold read 0 0 0 -> held
    confirm 3 -> done 3 1
    calibrated 0 4000000000000000 0000000000000000 -> offer read 0 0 0x00
    hold write 3 0 1 -> held
    confirm 3 -> refused 22
    hold idle -> held
    hold read 0 0 0 -> held
    calibrated 0 4000000000000000 0000000000000000 -> refused 23
    confirm 3 -> done 3 1
    write 0 3 -> offer write 0 0 0x03
    calibrated 0 4000000000000000 0000000000000000 -> refused 23
    confirm 0 -> done 3 1";

/// A refused confirmation leaves the read in hand, in units.
const SHORT: &str = "open 0 0 0 -> opened
    calibrated 0 4000000000000000 0000000000000000 -> offer read 0 0 0x00
    lend record 2 -> lent
    confirm 3 -> refused 21
    abandon -> refused 21
    lend record all -> lent
    lend marks 3 -> lent
    confirm 3 -> refused 21
    calibrated 3 7FF0000000000000 0000000000000000 -> refused 21
    lend marks all -> lent
    confirm 3 -> done 4018000000000000 1";

const NO_CALLS: &str = "open 0 -> opened
    calibrated -> unknown
    calibrated 0 -> unknown
    calibrated 0 3FF0000000000000 -> unknown
    calibrated 3FF0000000000000 0000000000000000 -> unknown
    calibrated 0 3FF0000000000000 0000000000000000 0 -> unknown
    calibrated 0 1 0 -> unknown
    calibrated 0 3FF000000000000 0000000000000000 -> unknown
    calibrated 0 3FF0000000000000 000000000000000 -> unknown
    calibrated 0 03FF0000000000000 0000000000000000 -> unknown
    calibrated 0 0x3FF00000000000 0000000000000000 -> unknown
    calibrated 0 3FF000000000000G 0000000000000000 -> unknown
    calibrated 0 +FF0000000000000 0000000000000000 -> unknown
    calibrated 0 -FF0000000000000 0000000000000000 -> unknown
    calibrated -0 3FF0000000000000 0000000000000000 -> unknown
    calibrated v 3FF0000000000000 0000000000000000 -> unknown
    calibrated 18446744073709551616 3FF0000000000000 0000000000000000 -> unknown
    Calibrated 0 3FF0000000000000 0000000000000000 -> unknown
    state -> record 00 marks 0 0 operation idle
    \tcalibrated  0x0\t3fF8000000000000 bfe0000000000000 -> offer read 0 0 0x00
    confirm 4 -> done 4004000000000000 1";
