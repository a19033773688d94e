//! Very long texts: nothing bounds a relation's length, its words, its strings, its chains or its NOTs.

use super::RelationScene;

impl RelationScene {
    pub(super) fn long_relation(&mut self) -> Vec<u8> {
        let count = self.random.pick(&[255, 256, 257, 4_000, 70_000]);
        let many = |part: &str| part.repeat(count);
        let mut text = match self.random.below(9) {
            0 => format!("$VARCOND='A' IF {}A=A OR 1=1", many("NOT ")),
            1 => format!("$VARCOND='A' IF {}1=1", many("1=2 OR ")),
            2 => format!("$VARCOND='A' IF {}(1=1)", many("(A IN (1))OR 1=1 AND ")),
            3 => format!("$VARCOND='A' IF A IN ({}'OAK', 5)", many("'x', 7,")),
            4 => format!("{}$VARCOND='A'{}", many(" \n"), many("\t\r")),
            5 => format!("{}$VARCOND='A'", many("$VARCOND='' IF 1=2,")),
            6 => format!("$VARCOND='A' IF '{}'<'{}A'", many("A"), many("A")),
            7 => format!("$VARCOND='A' IF {}<>1 OR 1=1", many("AND")),
            _ => format!("$VARCOND='{}'", many("N")),
        }
        .into_bytes();
        if self.random.percent(40) {
            self.spoil_text(&mut text);
        }
        text
    }
}
