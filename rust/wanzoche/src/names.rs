//! What operations and paths are called, for those who are told in words.

use std::ops::Range;

use crate::memory::space;
use crate::Error;

/// Some of the operations, of which there are at most 256.
#[derive(Clone, Copy, Debug, PartialEq, Eq, Default)]
pub(crate) struct Operations([u64; 4]);

impl Operations {
    pub(crate) fn insert(&mut self, operation: u32) {
        if let Some(word) = self.0.get_mut(operation as usize / 64) {
            *word |= 1 << (operation % 64);
        }
    }

    pub(crate) fn contains(&self, operation: u32) -> bool {
        self.0.get(operation as usize / 64).map_or(false, |word| word >> (operation % 64) & 1 == 1)
    }

    /// Those of them that this holds of.
    pub(crate) fn filter(&self, mut is_one: impl FnMut(u32) -> bool) -> Operations {
        let mut some = Operations::default();
        self.iter().filter(|operation| is_one(*operation)).for_each(|operation| some.insert(operation));
        some
    }

    /// Their numbers, upwards.
    pub(crate) fn iter(&self) -> impl Iterator<Item = u32> + '_ {
        (0..).step_by(64).zip(self.0).flat_map(|(first, word)| bits(word).map(move |bit| first + bit))
    }
}

/// The places of the bits of a word that are set, upwards.
fn bits(word: u64) -> impl Iterator<Item = u32> {
    let left = std::iter::successors(Some(word), |left| left.checked_sub(1).map(|below| left & below));
    left.take_while(|left| *left != 0).map(u64::trailing_zeros)
}

/// Where a name or a path stands in the declaration.
type Place = Range<usize>;

struct Path {
    resource: Place,
    text: Place,
    operations: Operations,
}

/// A declaration with the places of its names.
pub(crate) struct Names {
    text: String,
    operations: Vec<Place>,
    paths: Vec<Path>,
}

impl Names {
    /// Those of a declaration as the library writes it. `number` says which operation has a name. Costs a look-up for each name.
    pub(crate) fn of(text: String, number: impl FnMut(&str) -> Option<u32>) -> Result<Names, Error> {
        let mut reader = Reader { operations: Vec::new(), paths: Vec::new(), resource: 0..0, part: Part::Law, number };
        words(&text).try_for_each(|place| reader.take(&text, place))?;
        let Reader { operations, paths, .. } = reader;
        Ok(Names { text, operations, paths })
    }

    /// The name of an operation; empty if there is none with this number.
    pub(crate) fn operation(&self, operation: u32) -> &str {
        self.operations.get(operation as usize).map_or("", |place| &self.text[place.clone()])
    }

    /// The text of a path, if there is one with this number.
    pub(crate) fn path(&self, path: u32) -> Option<&str> {
        self.paths.get(path as usize).map(|path| &self.text[path.text.clone()])
    }

    /// The resource of a path; empty if there is none with this number.
    pub(crate) fn resource(&self, path: u32) -> &str {
        self.paths.get(path as usize).map_or("", |path| &self.text[path.resource.clone()])
    }

    /// The operations that a path names.
    pub(crate) fn operations_of(&self, path: u32) -> Operations {
        self.paths.get(path as usize).map_or(Operations::default(), |path| path.operations)
    }

    /// The first path that names both of these operations; 0 if none does.
    pub(crate) fn common(&self, one: u32, other: u32) -> u64 {
        let names_both = |path: &Path| path.operations.contains(one) && path.operations.contains(other);
        self.paths.iter().position(names_both).unwrap_or(0) as u64
    }

    /// The whole declaration.
    pub(crate) fn declaration(&self) -> &str {
        &self.text
    }
}

/// The places of the words and the numbers of a text.
fn words(text: &str) -> impl Iterator<Item = Place> + '_ {
    let ends = text.char_indices().chain([(text.len(), ' ')]).filter(|(_, sign)| !sign.is_ascii_alphanumeric() && *sign != '_');
    let mut begin = 0;
    ends.filter_map(move |(end, sign)| {
        let place = begin..end;
        begin = end + sign.len_utf8();
        (!place.is_empty()).then_some(place)
    })
}

/// What a word is part of.
#[derive(Clone, Copy, PartialEq, Eq)]
enum Part {
    Resource,
    Law,
    Operations,
    Path,
}

/// Reads a declaration word by word. The library has written it, so nothing in it is out of place.
struct Reader<F> {
    operations: Vec<Place>,
    paths: Vec<Path>,
    resource: Place,
    part: Part,
    number: F,
}

impl<F: FnMut(&str) -> Option<u32>> Reader<F> {
    fn take(&mut self, text: &str, place: Place) -> Result<(), Error> {
        match (&text[place.clone()], self.part) {
            ("resource", _) => self.part = Part::Resource,
            ("operation", _) => self.part = Part::Operations,
            ("path", _) => {
                self.part = Part::Path;
                space(&mut self.paths, 1)?;
                // A space follows the word.
                let text = place.end + 1..place.end + 1;
                self.paths.push(Path { resource: self.resource.clone(), text, operations: Operations::default() });
            }
            // A space comes before the word.
            ("end", Part::Path) => {
                self.part = Part::Law;
                self.paths.iter_mut().rev().take(1).for_each(|path| path.text.end = place.start - 1);
            }
            ("end", _) => {}
            (_, Part::Resource) => (self.resource, self.part) = (place, Part::Law),
            (_, Part::Operations) => {
                space(&mut self.operations, 1)?;
                self.operations.push(place);
            }
            (name, Part::Path) => {
                if let (Some(operation), Some(path)) = ((self.number)(name), self.paths.last_mut()) {
                    path.operations.insert(operation);
                }
            }
            (_, Part::Law) => {}
        }
        Ok(())
    }
}

#[cfg(test)]
mod tests {
    use super::{Names, Operations};

    const TEXT: &str = "resource one cell operation pathfinder, endless path { pathfinder: 3 }, endless end end \
                        resource two queue 2 operation a, b path a; b end path b end end resource three tally operation c end\n";

    #[test]
    fn names_of_a_declaration() {
        let all = ["pathfinder", "endless", "a", "b", "c"];
        let number = |name: &str| all.iter().position(|each| *each == name).map(|at| at as u32);
        let names = Names::of(TEXT.to_string(), number).unwrap_or_else(|_| panic!("there is memory"));
        (0..).zip(all).for_each(|(number, name)| assert_eq!(names.operation(number), name));
        assert_eq!(names.operation(5), "");
        let paths: Vec<_> = (0..4).map(|path| (names.resource(path), names.path(path))).collect();
        let both = [("one", Some("{ pathfinder: 3 }, endless")), ("two", Some("a; b")), ("two", Some("b")), ("", None)];
        assert_eq!(paths, both);
        let operations: Vec<Vec<u32>> = (0..4).map(|path| names.operations_of(path).iter().collect()).collect();
        assert_eq!(operations, [vec![0, 1], vec![2, 3], vec![3], vec![]]);
        assert_eq!([names.common(0, 1), names.common(3, 3), names.common(3, 2), names.common(0, 4)], [0, 1, 1, 0]);
    }

    #[test]
    fn sets_of_operations() {
        let mut some = Operations::default();
        [0, 63, 64, 200, 255, 256, u32::MAX].iter().for_each(|operation| some.insert(*operation));
        assert_eq!(some.iter().collect::<Vec<_>>(), [0, 63, 64, 200, 255]);
        assert_eq!(some.filter(|operation| operation > 64).iter().collect::<Vec<_>>(), [200, 255]);
        assert!(!some.contains(256) && !some.contains(1));
    }
}
