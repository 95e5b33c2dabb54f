//! What the tables say of each bit, through the crate's types.

use desfanuk::{Description, Direction, Kind, Piece, RegisterPart, VariablePart};

/// Registers of three widths, one without a mask, one that is only read, one only written.
const TEXT: &str = "device d(b:bit[8] port@{0..2,7},w:bit[16] port,l:bit[32] port@{4}){
    register r=b@2,read mask '0*1.....',write mask '.......1':bit[8];
    variable x=read r[4..0],volatile:signed int(5);variable y=write r[7..1],write trigger:int(7);
    register s=read w:bit[16];register t=write l@4,mask '*******************************.':bit[32];
    variable z=s[15..8]#s[0]#s[7..1],read trigger:int(16);variable f=t[0]:bool;}";

fn description() -> Description {
    Description::load(TEXT).expect("a good description")
}

#[test]
fn registers_lie_where_the_text_has_them() {
    let description = description();
    assert_eq!(description.offsets(0), Some(vec![0..=2, 7..=7]));
    assert_eq!(description.offsets(1), Some(vec![0..=0]));
    assert_eq!(description.offsets(3), None);
    let part = |parameter, offset, [dots, fixed, ones]: [u32; 3]| {
        Some(RegisterPart {
            parameter,
            offset,
            dots,
            fixed,
            ones,
        })
    };
    for (register, read, write) in [
        (
            0,
            part(0, 2, [0x1F, 0xA0, 0x20]),
            part(0, 2, [0xFE, 0x01, 0x01]),
        ),
        (1, part(1, 0, [0xFFFF, 0, 0]), None),
        (2, None, part(2, 4, [1, 0, 0])),
        (3, None, None),
    ] {
        assert_eq!(description.register_part(register, Direction::Read), read);
        assert_eq!(description.register_part(register, Direction::Write), write);
    }
}

#[test]
fn variables_have_the_bits_that_the_text_gives_them() {
    let part = |is_trigger, pieces: &[(usize, usize, usize)]| {
        let piece = |&(register, high, low): &(usize, usize, usize)| Piece {
            register,
            high,
            low,
        };
        Some(VariablePart {
            is_trigger,
            pieces: pieces.iter().map(piece).collect(),
        })
    };
    let parts = [
        ("x", part(false, &[(0, 4, 0)]), None),
        ("y", None, part(true, &[(0, 7, 1)])),
        ("z", part(true, &[(1, 15, 8), (1, 0, 0), (1, 7, 1)]), None),
        ("f", None, part(false, &[(2, 0, 0)])),
    ];
    description().with(|described| {
        let of_text: Vec<&str> = described.each_variable().map(|v| v.name()).collect();
        assert_eq!(of_text, parts.each_ref().map(|(name, _, _)| *name));
        for (name, read, write) in parts {
            let variable = described.variable(name).expect("a variable");
            assert_eq!(variable.part(Direction::Read), read, "{name}");
            assert_eq!(variable.part(Direction::Write), write, "{name}");
        }
    });
}

#[test]
fn variables_have_their_types() {
    description().with(|described| {
        for (name, kind, width, is_volatile) in [
            ("x", Kind::SignedInt, 5, true),
            ("y", Kind::Int, 7, false),
            ("z", Kind::Int, 16, false),
            ("f", Kind::Bool, 1, false),
        ] {
            let variable = described.variable(name).expect("a variable");
            assert_eq!(variable.kind(), kind, "{name}");
            assert_eq!(variable.width(), width, "{name}");
            assert_eq!(variable.is_volatile(), is_volatile, "{name}");
        }
    });
}
