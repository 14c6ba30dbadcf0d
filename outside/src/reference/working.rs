//! A shape in the middle of a step: individuals known by ids, so that two may have the same key until the fold.

use super::shapes::{Key, Shape, Truth};
use std::collections::{BTreeMap, BTreeSet};

pub type Id = u32;

/// An individual: its variables, its shared bit and its summary bit.
#[derive(Clone, Debug, PartialEq, Eq)]
pub struct Individual {
    pub variables: BTreeSet<u8>,
    pub shared: bool,
    pub summary: bool,
}

/// A working shape. Links that aren't in the map are 0.
#[derive(Clone, Debug, Default, PartialEq, Eq)]
pub struct Working {
    pub individuals: BTreeMap<Id, Individual>,
    links: BTreeMap<(Id, Id), Truth>,
}

impl Working {
    /// The shape with ids that ascend as its keys do.
    pub fn from_shape(shape: &Shape) -> Working {
        let mut working = Working::default();
        let keys = shape.keys();
        for &key in &keys {
            working.add(Individual {
                variables: key.variables(),
                shared: key.shared(),
                summary: shape.is_summary(key),
            });
        }
        for (from, &from_key) in keys.iter().enumerate() {
            for (to, &to_key) in keys.iter().enumerate() {
                working.set_link(from as Id, to as Id, shape.link(from_key, to_key));
            }
        }
        working
    }

    /// Adds an individual with no links and gives its id.
    pub fn add(&mut self, individual: Individual) -> Id {
        let id = self.individuals.len() as Id;
        self.individuals.insert(id, individual);
        id
    }

    pub fn ids(&self) -> Vec<Id> {
        self.individuals.keys().copied().collect()
    }

    pub fn get(&self, id: Id) -> &Individual {
        &self.individuals[&id]
    }

    pub fn get_mut(&mut self, id: Id) -> &mut Individual {
        self.individuals
            .get_mut(&id)
            .expect("an id of this working shape")
    }

    pub fn link(&self, from: Id, to: Id) -> Truth {
        self.links.get(&(from, to)).copied().unwrap_or(Truth::Zero)
    }

    pub fn set_link(&mut self, from: Id, to: Id, value: Truth) {
        self.links.insert((from, to), value);
    }

    /// The individual that holds the variable; none if the variable is null.
    pub fn holder(&self, variable: u8) -> Option<Id> {
        self.ids()
            .into_iter()
            .find(|&id| self.get(id).variables.contains(&variable))
    }

    /// The variable leaves its holder, if it has one, and moves to the place given, if there is one.
    pub fn move_variable(&mut self, variable: u8, to: Option<Id>) {
        for individual in self.individuals.values_mut() {
            individual.variables.remove(&variable);
        }
        if let Some(id) = to {
            self.get_mut(id).variables.insert(variable);
        }
    }

    fn key(&self, id: Id) -> Key {
        Key::new(&self.get(id).variables, self.get(id).shared)
    }

    /// Individuals of equal key become one; it is a summary if more than one went in or one was; its link values are the
    /// join over all pairs.
    pub fn fold(&self) -> Shape {
        let mut groups: BTreeMap<Key, Vec<Id>> = BTreeMap::new();
        for id in self.ids() {
            groups.entry(self.key(id)).or_default().push(id);
        }
        let mut shape = Shape::empty();
        for (&key, group) in &groups {
            let summary = group.len() > 1 || group.iter().any(|&id| self.get(id).summary);
            shape.add(key, summary);
        }
        for (&from_key, from_group) in &groups {
            for (&to_key, to_group) in &groups {
                let value = from_group
                    .iter()
                    .flat_map(|&from| to_group.iter().map(move |&to| self.link(from, to)))
                    .reduce(Truth::join)
                    .expect("a group isn't empty");
                shape.set_link(from_key, to_key, value);
            }
        }
        shape
    }
}
