//! Identifiers of one Verilog module. Names from an image are written escaped;
//! no two identifiers are equal, where an escaped and a plain one with the same
//! letters count as equal.

use std::collections::BTreeSet;

/// The identifiers given out so far.
#[derive(Default)]
pub struct Names {
    taken: BTreeSet<String>,
}

impl Names {
    /// An escaped identifier for a name from an image; it ends in its space.
    /// Icarus expands macros even there and takes a lone `#` for a class, so
    /// backquotes become `_` and names of one sign get one.
    pub fn escaped(&mut self, name: &str) -> String {
        let mut name = name.replace('`', "_");
        if name == "#" || name == "@" {
            name.push('_');
        }
        format!("\\{} ", self.free(&name))
    }

    /// A plain identifier; `name` is one of ours, a letter first, no keyword.
    pub fn plain(&mut self, name: &str) -> String {
        self.free(name)
    }

    /// The name, with as many `_` behind it as are needed.
    fn free(&mut self, name: &str) -> String {
        let mut name = name.to_string();
        while !self.taken.insert(name.clone()) {
            name.push('_');
        }
        name
    }
}

#[cfg(test)]
mod tests {
    use super::Names;

    #[test]
    fn an_escaped_and_a_plain_name_do_not_meet() {
        let mut names = Names::default();
        assert_eq!(names.escaped("e0"), "\\e0 ");
        assert_eq!(names.plain("e0"), "e0_");
        assert_eq!(names.escaped("a[0]"), "\\a[0] ");
        assert_eq!(names.escaped("a[0]"), "\\a[0]_ ");
    }

    #[test]
    fn signs_that_icarus_takes_for_something_else() {
        let mut names = Names::default();
        assert_eq!(names.escaped("a`b"), "\\a_b ");
        assert_eq!(names.escaped("a_b"), "\\a_b_ ");
        assert_eq!(names.escaped("#"), "\\#_ ");
    }
}
