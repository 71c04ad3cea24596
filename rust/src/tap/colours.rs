// SPDX-License-Identifier: Apache-2.0
//! The colours by which a page tells descriptors apart: what has the same name has the same colour.

/// How many colours page.css has. The names behind the last one share another, so that a peer can't have the page remember any number.
const COLOURS: usize = 10;
/// The class of those that share one.
const SHARED: &str = "cx";

/// The names that have a colour, in the order in which they came.
#[derive(Default)]
pub(super) struct Colours {
    names: Vec<String>,
    is_shared: bool,
}

impl Colours {
    /// The class of a descriptor's name.
    pub(super) fn class_of(&mut self, name: &str) -> String {
        let known = self.names.iter().position(|it| it == name);
        match known {
            Some(at) => class(at),
            None if self.names.len() < COLOURS => {
                self.names.push(name.to_string());
                class(self.names.len() - 1)
            }
            None => {
                self.is_shared = true;
                SHARED.to_string()
            }
        }
    }

    /// Each class that was given, and which names have it.
    pub(super) fn legend(&self) -> Vec<(String, String)> {
        let named = self.names.iter().enumerate().map(|(at, name)| (class(at), name.clone()));
        named.chain(self.is_shared.then(|| (SHARED.to_string(), "others".to_string()))).collect()
    }
}

fn class(at: usize) -> String {
    format!("c{at}")
}

#[cfg(test)]
mod tests {
    use super::*;

    #[test]
    fn the_same_name_keeps_its_colour() {
        let mut colours = Colours::default();
        let classes: Vec<String> = ["eventfd", "socket", "eventfd"].iter().map(|name| colours.class_of(name)).collect();
        assert_eq!(["c0", "c1", "c0"], classes.as_slice());
        let legend = [("c0", "eventfd"), ("c1", "socket")].map(|(class, name)| (class.to_string(), name.to_string()));
        assert_eq!(legend.as_slice(), colours.legend().as_slice());
    }

    #[test]
    fn names_behind_the_last_colour_share_one() {
        let mut colours = Colours::default();
        let classes: Vec<String> = (0..1000).map(|at| colours.class_of(&format!("memfd:{at}"))).collect();
        assert_eq!(("c9", "cx", "cx"), (classes[9].as_str(), classes[10].as_str(), classes[999].as_str()));
        assert_eq!(COLOURS + 1, colours.legend().len());
        assert_eq!(COLOURS, colours.names.len());
    }

    /// A colour that has no rule would be none.
    #[test]
    fn each_class_has_a_rule() {
        let style = include_str!("page.css");
        for at in 0..COLOURS {
            assert!(style.contains(&format!(".{} {{", class(at))), "{at}");
        }
        assert!(style.contains(&format!(".{SHARED} {{")));
    }
}
