//! The descriptions of boards/, each accepted.

use super::List;

pub fn cases(list: &mut List) {
    macro_rules! board {
        ($name:literal, $counts:literal) => {
            list.accepted(
                concat!("boards/", $name),
                include_bytes!(concat!("../../../../boards/", $name)),
                $counts,
            );
        };
    }
    board!("scoring.devil", "1 5 6");
    board!("feeder.devil", "1 5 6");
    board!("lamp.devil", "2 3 3");
    board!("busmouse.devil", "1 5 7");
    board!("i8259a.devil", "1 4 4");
    board!("i8254.devil", "1 4 7");
    board!("uart16550.devil", "1 10 19");
    board!("mc146818.devil", "1 2 3");
    board!("parallel.devil", "1 3 12");
    board!("ne2000.devil", "2 29 28");
    board!("ide.devil", "3 12 19");
    board!("pci.devil", "1 3 20");
}
