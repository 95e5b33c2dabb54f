//! Scripts for the station, each with the lines that it writes.

use super::{Script, A};

const BUSMOUSE: &str =
    "device d(b:bit[8] port@{0..3}){register r=write b@2,mask '1..00000':bit[8];\
    variable v=r[6..5]:int(2);}";

const SIGNED: &str = "device d(b:bit[8] port@{0..3}){register hi=b@1,mask '****....':bit[8];\
    register lo=b@2,mask '****....':bit[8];variable x=hi[3..0]#lo[3..0]:signed int(8);}";

const NIBBLES: &str =
    "device d(b:bit[8] port){register r=b:bit[8];variable hi=r[7..4]:int(4);variable lo=r[3..0]:int(4);}";

/// One variable that is only read, one that is only written, and one with a list for each part.
const PARTS: &str = "device d(a:bit[8] port,b:bit[8] port@{0..9}){\
    register p=read a:bit[8];register q=write a:bit[8];register r=b@3:bit[8];register s=b@4:bit[8];\
    variable u=p:int(8);variable v=q:int(8);variable w=read r#s,write s#r:int(16);}";

const KINDS: &str = "device d(b:bit[8] port@{0..9}){register r0=b@0:bit[8];register r1=b@1:bit[8];\
    register r2=b@2:bit[8];register r3=b@3:bit[8];register r4=b@4:bit[8];register r5=b@5:bit[8];\
    register r6=b@6:bit[8];register r7=b@7:bit[8];register r8=b@8:bit[8];\
    variable wide=r0#r1#r2#r3:int(32);variable deep=r4#r5#r6#r7:signed int(32);\
    variable flag=r8[0]:bool;variable one=r8[1]:signed int(1);variable single=r8[2]:int(1);\
    variable rest=r8[7..3]:signed int(5);}";

/// Eight registers of two bits each, mentioned twice.
const EIGHT: &str = "device d(b:bit[8] port@{0..9}){\
    register r0=b@0,mask '*0*1*0*.':bit[8];register r1=b@1,mask '*0*1*0*.':bit[8];\
    register r2=b@2,mask '*0*1*0*.':bit[8];register r3=b@3,mask '*0*1*0*.':bit[8];\
    register r4=b@4,mask '*0*1*0*.':bit[8];register r5=b@5,mask '*0*1*0*.':bit[8];\
    register r6=b@6,mask '*0*1*0*.':bit[8];register r7=b@7,mask '*0*1*0*.':bit[8];\
    variable v=r7[0]#r6[0]#r5[0]#r4[0]#r0[0]#r1[0]#r2[0]#r3[0]:int(8);}";

/// Pieces that come back to a register.
const BACK: &str =
    "device d(b:bit[8] port@{0..9}){register p=b@1:bit[8];register q=b@2,mask '....*01.':bit[8];\
    variable v=q[7..6]#p[3..0]#q[0,5..4]:int(9);variable w=p[7..4]:int(4);}";

pub fn scripts() -> Vec<Script> {
    let script = Script::answered;
    vec![
        script(
            "marked-mask",
            BUSMOUSE,
            "open 0xFF -> opened
             write 0 2 -> offer write 0 2 0xC0
             confirm 0 -> done 2 1
             write 0 4 -> refused 55
             read 0 -> refused 26
             state -> record C0 marks 0 operation idle",
        ),
        script(
            "marked-signed",
            SIGNED,
            "open 0 0 -> opened
             write 0 -2 -> offer write 0 1 0x0F
             confirm 0 -> offer write 0 2 0x0E
             confirm 0 -> done -2 2
             read 0 -> offer read 0 1 0x00
             confirm 0xAF -> offer read 0 2 0x00
             confirm 0x5E -> done -2 2",
        ),
        script(
            "marked-neighbour",
            NIBBLES,
            "open 0xA5 -> opened
             write 1 3 -> offer write 0 0 0xA3
             confirm 0 -> done 3 1
             read 0 -> offer read 0 0 0x00
             confirm 0xA3 -> done 10 1
             state -> record A3 marks 0 0 operation idle",
        ),
        script(
            "opening-ends-the-operation",
            A,
            "open 1 -> opened
             write 0 5 -> offer write 0 0 0x05
             open 2 -> opened
             confirm 0 -> refused 24
             state -> record 02 marks 0 operation idle",
        ),
        script(
            "before-the-first-opening",
            A,
            "state -> record marks operation idle
             read 0 -> refused 21
             read 7 -> refused 21
             write 0 999 -> refused 21
             confirm 0 -> refused 21
             abandon -> refused 21
             lookup v -> variable 0
             open -> refused 21
             read 0 -> refused 21
             open 9 -> opened
             state -> record 09 marks 0 operation idle",
        ),
        script(
            "short-and-long-lists",
            PARTS,
            "open 1 2 3 -> refused 21
             open 1 2 3 4 -> opened
             state -> record 01 02 03 04 marks 0 0 0 operation idle
             open 5 6 7 -> refused 21
             state -> record 01 02 03 04 marks 0 0 0 operation idle
             open 5 6 7 8 9 10 -> opened
             state -> record 05 06 07 08 marks 0 0 0 operation idle",
        ),
        script(
            "short-record-and-marks",
            PARTS,
            "lend record 3 -> lent
             open 1 2 3 4 -> refused 21
             lend record 4 -> lent
             lend marks 2 -> lent
             open 1 2 3 4 -> refused 21
             lend marks 3 -> lent
             open 1 2 3 4 -> opened
             write 2 0x1234 -> offer write 1 4 0x12
             lend record 3 -> lent
             confirm 0 -> refused 21
             abandon -> refused 21
             read 0 -> refused 21
             lend record all -> lent
             lend marks 0 -> lent
             confirm 0 -> refused 21
             abandon -> refused 21
             write 9 9 -> refused 21
             lend marks all -> lent
             state -> record 01 02 03 04 marks 0 0 0 operation write 2 0 4660
             confirm 0 -> offer write 1 3 0x34
             confirm 0 -> done 4660 2
             state -> record 01 02 34 12 marks 0 0 0 operation idle",
        ),
        script(
            "short-before-bad-operation",
            A,
            "open 7 -> opened
             hold read 9 9 9 -> held
             lend record 0 -> lent
             confirm 0 -> refused 21
             lend record all -> lent
             confirm 0 -> refused 22
             abandon -> refused 22
             read 0 -> refused 22
             write 0 1 -> refused 22
             state -> record 07 marks 0 operation read 9 9 9
             open 8 -> opened
             state -> record 08 marks 0 operation idle",
        ),
        script(
            "a-refused-opening-keeps-the-operation",
            PARTS,
            "open 0 0 0 0 -> opened
             write 2 0x1234 -> offer write 1 4 0x12
             open 1 2 3 -> refused 21
             state -> record 00 00 00 00 marks 0 0 0 operation write 2 0 4660
             confirm 0 -> offer write 1 3 0x34
             lend marks 2 -> lent
             open 1 2 3 4 -> refused 21
             lend marks all -> lent
             confirm 0 -> done 4660 2
             open 1 2 3 4 -> opened
             state -> record 01 02 03 04 marks 0 0 0 operation idle",
        ),
        script(
            "the-lowest-number",
            PARTS,
            "open 0 0 0 0 -> opened
             confirm 0 -> refused 24
             abandon -> refused 24
             read 3 -> refused 25
             write 3 0 -> refused 25
             write 3 -1 -> refused 25
             read 1 -> refused 26
             write 0 0 -> refused 26
             write 0 999 -> refused 26
             write 1 256 -> refused 55
             write 1 -1 -> refused 27
             read 0 -> offer read 0 0 0x00
             read 0 -> refused 23
             read 1 -> refused 23
             read 9 -> refused 23
             write 0 999 -> refused 23
             write 1 1 -> refused 23
             confirm 0x5A -> done 90 1
             confirm 0x5A -> refused 24
             write 1 7 -> offer write 0 0 0x07
             abandon -> abandoned
             abandon -> refused 24
             read 1 -> refused 26
             state -> record 00 00 00 00 marks 0 1 0 operation idle",
        ),
        script(
            "orders-of-two-parts",
            PARTS,
            "open 0 0 0x11 0x22 -> opened
             read 2 -> offer read 1 3 0x00
             state -> record 00 00 11 22 marks 0 0 0 operation read 2 0 0
             confirm 0xAB -> offer read 1 4 0x00
             state -> record 00 00 11 22 marks 0 0 0 operation read 2 1 43776
             confirm 0xCD -> done 43981 2
             write 2 0xABCD -> offer write 1 4 0xAB
             confirm 0x77 -> offer write 1 3 0xCD
             confirm 0x88 -> done 43981 2
             state -> record 00 00 CD AB marks 0 0 0 operation idle",
        ),
        script(
            "half-written",
            SIGNED,
            "open 0x5A 0xA5 -> opened
             write 0 0x12 -> offer write 0 1 0x01
             abandon -> abandoned
             state -> record 5A A5 marks 1 operation idle
             read 0 -> refused 28
             write 0 0x34 -> offer write 0 1 0x03
             read 0 -> refused 23
             confirm 0 -> offer write 0 2 0x04
             state -> record 03 A5 marks 1 operation write 0 1 52
             abandon -> abandoned
             state -> record 03 A5 marks 1 operation idle
             read 0 -> refused 28
             write 0 -1 -> offer write 0 1 0x0F
             confirm 0 -> offer write 0 2 0x0F
             confirm 0 -> done -1 2
             state -> record 0F 0F marks 0 operation idle
             read 0 -> offer read 0 1 0x00
             abandon -> abandoned
             read 0 -> offer read 0 1 0x00
             confirm 0x0F -> offer read 0 2 0x00
             abandon -> abandoned
             state -> record 0F 0F marks 0 operation idle
             write 0 1 -> offer write 0 1 0x00
             abandon -> abandoned
             open 1 2 -> opened
             state -> record 01 02 marks 0 operation idle
             read 0 -> offer read 0 1 0x00",
        ),
        script(
            "marks-are-each-variable's-own",
            NIBBLES,
            "open 0xA5 -> opened
             write 0 1 -> offer write 0 0 0x15
             abandon -> abandoned
             read 0 -> refused 28
             read 1 -> offer read 0 0 0x00
             confirm 0x15 -> done 5 1
             write 1 6 -> offer write 0 0 0xA6
             confirm 0 -> done 6 1
             read 0 -> refused 28
             state -> record A6 marks 1 0 operation idle
             write 0 1 -> offer write 0 0 0x16
             confirm 0 -> done 1 1
             state -> record 16 marks 0 0 operation idle",
        ),
        script(
            "a-refused-begin-clears-no-mark",
            NIBBLES,
            "open 0xA5 -> opened
             write 0 1 -> offer write 0 0 0x15
             abandon -> abandoned
             write 0 16 -> refused 55
             read 0 -> refused 28
             write 0 -1 -> refused 27
             read 0 -> refused 28
             state -> record A5 marks 1 0 operation idle",
        ),
        script(
            "the-byte-offered-last-is-not-recorded",
            BACK,
            "open 0 0 -> opened
             write 0 0x155 -> offer write 0 2 0x93
             confirm 0 -> offer write 0 1 0x0A
             abandon -> abandoned
             state -> record 00 93 marks 1 0 operation idle
             write 1 15 -> offer write 0 1 0xF0
             confirm 0 -> done 15 1
             read 0 -> refused 28",
        ),
        script(
            "reading-leaves-the-record",
            NIBBLES,
            "open 0xA5 -> opened
             read 0 -> offer read 0 0 0x00
             confirm 0xFF -> done 15 1
             state -> record A5 marks 0 0 operation idle
             write 1 0 -> offer write 0 0 0xA0
             confirm 0xFF -> done 0 1
             state -> record A0 marks 0 0 operation idle",
        ),
        script(
            "values-and-types",
            KINDS,
            "open 0 0 0 0 0 0 0 0 0 -> opened
             write 0 4294967296 -> refused 55
             write 0 -1 -> refused 27
             write 1 2147483648 -> refused 55
             write 1 -2147483649 -> refused 27
             write 2 2 -> refused 55
             write 2 -1 -> refused 27
             write 3 1 -> refused 55
             write 3 -2 -> refused 27
             write 4 2 -> refused 55
             write 4 -1 -> refused 27
             write 5 16 -> refused 55
             write 5 -17 -> refused 27
             write 5 -9223372036854775808 -> refused 27
             write 5 9223372036854775807 -> refused 55
             write 0 4294967295 -> offer write 0 0 0xFF
             confirm 0 -> offer write 0 1 0xFF
             confirm 0 -> offer write 0 2 0xFF
             state -> record FF FF 00 00 00 00 00 00 00 marks 0 0 0 0 0 0 operation write 0 2 4294967295
             confirm 0 -> offer write 0 3 0xFF
             confirm 0 -> done 4294967295 4
             write 1 -2147483648 -> offer write 0 4 0x80
             state -> record FF FF FF FF 00 00 00 00 00 marks 0 0 0 0 0 0 operation write 1 0 2147483648
             confirm 0 -> offer write 0 5 0x00
             confirm 0 -> offer write 0 6 0x00
             confirm 0 -> offer write 0 7 0x00
             confirm 0 -> done -2147483648 4
             write 1 2147483647 -> offer write 0 4 0x7F
             abandon -> abandoned
             read 0 -> offer read 0 0 0x00
             confirm 0x80 -> offer read 0 1 0x00
             confirm 0 -> offer read 0 2 0x00
             confirm 0 -> offer read 0 3 0x00
             confirm 1 -> done 2147483649 4
             write 2 1 -> offer write 0 8 0x01
             confirm 0 -> done 1 1
             write 3 -1 -> offer write 0 8 0x03
             confirm 0 -> done -1 1
             write 4 1 -> offer write 0 8 0x07
             confirm 0 -> done 1 1
             write 5 -16 -> offer write 0 8 0x87
             confirm 0 -> done -16 1
             write 3 0 -> offer write 0 8 0x85
             confirm 0 -> done 0 1
             read 3 -> offer read 0 8 0x00
             confirm 0x02 -> done -1 1
             read 2 -> offer read 0 8 0x00
             confirm 0xFE -> done 0 1
             read 5 -> offer read 0 8 0x00
             confirm 0x7F -> done 15 1
             state -> record FF FF FF FF 80 00 00 00 85 marks 0 1 0 0 0 0 operation idle",
        ),
        script(
            "eight-accesses",
            EIGHT,
            "open 255 255 255 255 255 255 255 255 -> opened
             write 0 0xA5 -> offer write 0 7 0x11
             confirm 0 -> offer write 0 6 0x10
             confirm 0 -> offer write 0 5 0x11
             confirm 0 -> offer write 0 4 0x10
             confirm 0 -> offer write 0 0 0x10
             confirm 0 -> offer write 0 1 0x11
             confirm 0 -> offer write 0 2 0x10
             state -> record 10 11 FF FF 10 11 10 11 marks 0 operation write 0 6 165
             confirm 0 -> offer write 0 3 0x11
             confirm 0 -> done 165 8
             state -> record 10 11 10 11 10 11 10 11 marks 0 operation idle
             read 0 -> offer read 0 7 0x00
             confirm 0xBB -> offer read 0 6 0x00
             confirm 0x10 -> offer read 0 5 0x00
             confirm 0xBB -> offer read 0 4 0x00
             confirm 0x10 -> offer read 0 0 0x00
             confirm 0xBA -> offer read 0 1 0x00
             confirm 0x11 -> offer read 0 2 0x00
             state -> record 10 11 10 11 10 11 10 11 marks 0 operation read 0 6 164
             confirm 0xBA -> offer read 0 3 0x00
             confirm 0x11 -> done 165 8",
        ),
        script(
            "pieces-that-come-back",
            BACK,
            "open 0xFF 0xFF -> opened
             write 0 0x155 -> offer write 0 2 0x93
             confirm 0 -> offer write 0 1 0xFA
             confirm 0 -> done 341 2
             read 0 -> offer read 0 2 0x00
             state -> record FA 93 marks 0 0 operation read 0 0 0
             confirm 0xA3 -> offer read 0 1 0x00
             state -> record FA 93 marks 0 0 operation read 0 1 262
             confirm 0x0F -> done 382 2
             write 1 0 -> offer write 0 1 0x0A
             confirm 0 -> done 0 1",
        ),
        script(
            "operations-that-the-tables-forbid",
            PARTS,
            "open 1 2 3 4 -> opened
             hold read 3 0 0 -> held
             confirm 0 -> refused 22
             hold read 1 0 0 -> held
             confirm 0 -> refused 22
             hold read 0 1 0 -> held
             abandon -> refused 22
             hold read 0 0 1 -> held
             confirm 0 -> refused 22
             hold read 2 0 1 -> held
             confirm 0 -> refused 22
             hold read 2 1 255 -> held
             confirm 0 -> refused 22
             hold read 2 1 0x10000 -> held
             confirm 0 -> refused 22
             hold read 2 2 0 -> held
             confirm 0 -> refused 22
             hold read 2 1 0xFF00 -> held
             confirm 1 -> done 65281 2
             hold write 3 0 0 -> held
             confirm 0 -> refused 22
             hold write 0 0 0 -> held
             confirm 0 -> refused 22
             hold write 1 1 0 -> held
             confirm 0 -> refused 22
             hold write 1 0 256 -> held
             confirm 0 -> refused 22
             read 0 -> refused 22
             write 1 300 -> refused 22
             hold write 2 2 0 -> held
             abandon -> refused 22
             hold write 2 1 0xFFFF -> held
             read 9 -> refused 23
             confirm 0 -> done 65535 2
             state -> record 01 02 FF 04 marks 0 0 0 operation idle
             hold write 1 0 255 -> held
             abandon -> abandoned
             hold idle -> held
             confirm 0 -> refused 24
             state -> record 01 02 FF 04 marks 0 1 0 operation idle",
        ),
        script(
            "a-held-read-of-a-marked-variable",
            NIBBLES,
            "open 0xA5 -> opened
             write 0 1 -> offer write 0 0 0x15
             abandon -> abandoned
             read 0 -> refused 28
             hold read 0 0 0 -> held
             confirm 0x70 -> done 7 1
             state -> record A5 marks 1 0 operation idle",
        ),
        script(
            "held-patterns-of-a-signed-variable",
            SIGNED,
            "open 0 0 -> opened
             hold write 0 1 255 -> held
             confirm 0 -> done -1 2
             hold write 0 0 256 -> held
             confirm 0 -> refused 22
             hold read 0 1 240 -> held
             confirm 0x0E -> done -2 2
             hold read 0 1 248 -> held
             confirm 0x0E -> refused 22",
        ),
        script(
            "lookups",
            PARTS,
            "lookup u -> variable 0
             lookup v -> variable 1
             lookup w -> variable 2
             lookup W -> none
             lookup p -> none
             lookup a -> none
             lookup d -> none
             lookup -> none
             lookup uu -> none
             lookup register -> none",
        ),
        script(
            "no-variables",
            "device d(b:bit[8] port){register r=b,mask '********':bit[8];}",
            "open -> refused 21
             open 0xFF -> opened
             state -> record FF marks operation idle
             lend marks 0 -> lent
             read 0 -> refused 25
             write 0 0 -> refused 25
             confirm 0 -> refused 24",
        ),
    ]
}
