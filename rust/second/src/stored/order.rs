//! The order of refusals.

use super::{device, over_r, List};

pub(super) fn cases(list: &mut List) {
    list.line(
        "each parameter is a declaration: 12 before a later 8",
        "device d(a:bit[9] port,b:bit[8] port@{256}){register r=b:bit[8];variable v=r:int(8);}",
        "refused 12 9",
    );
    list.line(
        "each parameter is a declaration: 12 before a later 6",
        "device d(a:bit[9] port,a:bit[8] port){register r=a:bit[8];variable v=r:int(8);}",
        "refused 12 9",
    );
    list.line(
        "7 in the second port before 8 in the first",
        "device d(b:bit[8] port){register r=read b@9,write q:bit[8];}",
        "refused 7 50",
    );
    list.line(
        "8 in the earlier port, though the later one's place is earlier",
        "device d(a:bit[8] port,b:bit[8] port@{1}){register r=read a@4,write b:bit[8];}",
        "refused 8 59",
    );
    list.refused(
        "8 in the earlier port, with its offset left out",
        8,
        "device d(a:bit[8] port,b:bit[8] port@{1}){register ^r=read b,write a@4:bit[8];}",
    );
    list.line(
        "3 at the end before 6 at the second token",
        "device d(d:bit[8] port){register r=d:bit[8];variable v=r:int(8);}$",
        "refused 3 65",
    );
    list.line(
        "8 before 9",
        "device d(b:bit[8] port){register r=b,b@7/0:bit[8];}",
        "refused 8 38",
    );
    list.refused(
        "16 waits for the last declaration",
        13,
        device("register q=b@1:bit[8];register r=b:bit[8];variable ^v=r,volatile,volatile:int(8);"),
    );
    list.refused(
        "4 at the end before 6",
        4,
        "device d(d:bit[8] port){register r=d:bit[8];}^}",
    );
    list.refused(
        "5 at the end before 7",
        5,
        over_r(&format!(
            "variable v=q:int(8);variable ^{}=r:int(8);",
            "n".repeat(65)
        )),
    );
    list.refused("4 before a later 3", 4, "device ^8 $");
    list.refused("3 before a later 4", 3, "device ^$ 8");
    list.refused(
        "5 before a later 3",
        5,
        format!("device ^{} $", "n".repeat(65)),
    );
    list.refused(
        "5 before a later 4",
        5,
        format!("device ^{} {{", "n".repeat(65)),
    );
    list.refused(
        "4 before a later 5",
        4,
        format!("device ^( {}", "n".repeat(65)),
    );
    list.refused(
        "an offset on an undeclared parameter",
        7,
        over_r("register s=^q@7/0:bit[8];"),
    );
    list.refused(
        "the first of two undeclared ports",
        7,
        device("register r=read ^p,write q:bit[8];"),
    );
    list.refused(
        "the first of two undeclared registers",
        7,
        over_r("variable v=r#^p#q:int(8);"),
    );
    list.refused(
        "undeclared in the second list",
        7,
        over_r("variable v=read r,write ^q:int(8);"),
    );
    list.refused("6 before 7", 6, over_r("register ^r=q:bit[8];"));
    list.refused("6 before 8", 6, over_r("register ^r=b@7/0:bit[8];"));
    list.refused(
        "6 of a variable before 7",
        6,
        over_r("variable ^r=q:int(8);"),
    );
    list.refused(
        "6 of a parameter before 8 and 12",
        6,
        "device d(^d:bit[9] port@{256}){register r=d:bit[8];}",
    );
    list.refused(
        "8 of a parameter before 12",
        8,
        "device d(^b:bit[9] port@{256}){register r=b:bit[8];}",
    );
    list.refused("7 before 9", 7, device("register r=b,^q:bit[8];"));
    list.refused(
        "8 before 10",
        8,
        over_r("register s=read b@0,write b^@256:bit[8];"),
    );
    list.refused("8 before 12", 8, device("register r=b^@256:bit[9];"));
    list.refused("9 before 10", 9, over_r("register ^s=b,mask '0':bit[8];"));
    list.refused("9 before 12", 9, device("register ^r=b,b:bit[9];"));
    list.refused("10 before 12", 10, over_r("register ^s=b:bit[7];"));
    list.refused("7 before 11", 7, over_r("variable v=r[8],^q:int(8);"));
    list.refused("11 before 12", 11, over_r("variable ^v=r[0..7]:int(7);"));
    list.refused(
        "12 before 13",
        12,
        over_r("variable ^v=r,trigger,trigger:int(7);"),
    );
    list.refused(
        "13 before 14",
        13,
        over_r("variable v=r:int(8);variable ^w=r,trigger,trigger:int(8);"),
    );
    list.refused(
        "14 before 15",
        14,
        over_r("variable v=r[7..1]:int(7);variable ^w=r[1..0],trigger:int(2);"),
    );
    list.refused(
        "11 before 14",
        11,
        over_r("variable v=r:int(8);variable ^w=r[7,7]:int(2);"),
    );
    list.refused(
        "12 before 14",
        12,
        over_r("variable v=r:int(8);variable ^w=r:int(7);"),
    );
    list.refused(
        "15 before 16",
        15,
        over_r("variable v=r[7]:bool;variable ^w=r[6],trigger:bool;"),
    );
    list.refused(
        "14 before 16 of an earlier register",
        14,
        device(
            "register q=b@1:bit[8];register r=b:bit[8];variable v=r:int(8);variable ^w=r[0]:bool;",
        ),
    );
    list.refused(
        "the earlier declaration, whatever the number",
        12,
        over_r("variable ^v=r:int(7);variable v=q:int(8);"),
    );
    list.refused(
        "the earlier register",
        10,
        over_r("register ^s=b:bit[8];register r=b@7/0:bit[8];"),
    );
    list.refused(
        "the first register of rule 16",
        16,
        device("register ^q=b@1:bit[8];register r=b:bit[8];"),
    );
    list.refused(
        "the first such register, not the first",
        16,
        device(
            "register q=b@1:bit[8];register ^r=b:bit[8];register s=b@2:bit[8];variable v=q:int(8);",
        ),
    );
}
