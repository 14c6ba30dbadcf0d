//! Truth values, keys and shapes, and when one shape is covered by another.

use std::collections::{BTreeMap, BTreeSet};

/// A truth value: 0, 1 or 1/2, written 2 in the file.
#[derive(Clone, Copy, Debug, PartialEq, Eq, PartialOrd, Ord)]
pub enum Truth {
    Zero,
    One,
    Half,
}

impl Truth {
    /// Two values join to the common value, or to 1/2 when they differ.
    pub fn join(self, other: Truth) -> Truth {
        if self == other {
            self
        } else {
            Truth::Half
        }
    }

    /// A value lies under itself and under 1/2.
    pub fn under(self, other: Truth) -> bool {
        self == other || other == Truth::Half
    }

    /// The value that a byte of the file stands for.
    pub fn from_byte(byte: u8) -> Option<Truth> {
        match byte {
            0 => Some(Truth::Zero),
            1 => Some(Truth::One),
            2 => Some(Truth::Half),
            _ => None,
        }
    }

    /// The byte that stands for this value in the file.
    pub fn byte(self) -> u8 {
        match self {
            Truth::Zero => 0,
            Truth::One => 1,
            Truth::Half => 2,
        }
    }
}

/// The key of an individual: 256 times its shared bit plus its variable mask.
#[derive(Clone, Copy, Debug, PartialEq, Eq, PartialOrd, Ord)]
pub struct Key(pub u16);

impl Key {
    pub fn new(variables: &BTreeSet<u8>, shared: bool) -> Key {
        let mask: u16 = variables.iter().map(|&variable| 1 << variable).sum();
        Key(if shared { 256 + mask } else { mask })
    }

    pub fn shared(self) -> bool {
        self.0 >= 256
    }

    pub fn mask(self) -> u8 {
        (self.0 % 256) as u8
    }

    pub fn holds(self, variable: u8) -> bool {
        self.mask() & (1 << variable) != 0
    }

    pub fn variables(self) -> BTreeSet<u8> {
        (0..8).filter(|&variable| self.holds(variable)).collect()
    }
}

/// A shape whose individuals are known by their keys. Links that aren't in the map are 0.
#[derive(Clone, Debug, Default, PartialEq, Eq, PartialOrd, Ord)]
pub struct Shape {
    summary: BTreeMap<Key, bool>,
    links: BTreeMap<(Key, Key), Truth>,
}

impl Shape {
    pub fn empty() -> Shape {
        Shape::default()
    }

    pub fn add(&mut self, key: Key, summary: bool) {
        self.summary.insert(key, summary);
    }

    pub fn set_link(&mut self, from: Key, to: Key, value: Truth) {
        if value == Truth::Zero {
            self.links.remove(&(from, to));
        } else {
            self.links.insert((from, to), value);
        }
    }

    /// The keys, ascending.
    pub fn keys(&self) -> Vec<Key> {
        self.summary.keys().copied().collect()
    }

    pub fn has_key(&self, key: Key) -> bool {
        self.summary.contains_key(&key)
    }

    pub fn is_summary(&self, key: Key) -> bool {
        self.summary[&key]
    }

    pub fn link(&self, from: Key, to: Key) -> Truth {
        self.links.get(&(from, to)).copied().unwrap_or(Truth::Zero)
    }

    /// The key of the individual that holds the variable; none if the variable is null.
    pub fn holder(&self, variable: u8) -> Option<Key> {
        self.summary.keys().copied().find(|key| key.holds(variable))
    }

    pub fn has_shared(&self) -> bool {
        self.summary.keys().any(|key| key.shared())
    }

    /// The same keys, a summary here is one there, and each link value here lies under the one there.
    pub fn covered_by(&self, other: &Shape) -> bool {
        let keys = self.keys();
        keys == other.keys()
            && keys
                .iter()
                .all(|&key| !self.is_summary(key) || other.is_summary(key))
            && keys.iter().all(|&from| {
                keys.iter()
                    .all(|&to| self.link(from, to).under(other.link(from, to)))
            })
    }
}

#[cfg(test)]
mod tests {
    use super::Truth::{Half, One, Zero};
    use super::*;

    #[test]
    fn join_and_under_by_their_tables() {
        for value in [Zero, One, Half] {
            assert_eq!(value.join(value), value);
            assert_eq!(Truth::from_byte(value.byte()), Some(value));
            assert!(value.under(value) && value.under(Half));
        }
        assert_eq!((Zero.join(One), One.join(Zero)), (Half, Half));
        assert!(!Zero.under(One) && !One.under(Zero));
        assert!(!Half.under(Zero) && !Half.under(One));
        assert_eq!(Truth::from_byte(3), None);
    }

    #[test]
    fn key_is_256_times_the_shared_bit_plus_the_mask() {
        let key = Key::new(&BTreeSet::from([0, 3]), true);
        assert_eq!(key, Key(265));
        assert!(key.shared() && key.holds(0) && key.holds(3) && !key.holds(1));
        assert_eq!(key.variables(), BTreeSet::from([0, 3]));
    }

    #[test]
    fn covering_wants_the_same_keys() {
        let mut small = Shape::empty();
        small.add(Key(1), false);
        let mut large = small.clone();
        large.add(Key(0), true);
        assert!(!small.covered_by(&large) && !large.covered_by(&small));
        let mut half = small.clone();
        half.set_link(Key(1), Key(1), Half);
        assert!(small.covered_by(&half) && !half.covered_by(&small));
    }
}
