//! Concrete stores, one step of a run, and when a store fits a shape.

use super::program::Statement;
use super::shapes::{Key, Shape, Truth};
use std::collections::{BTreeMap, BTreeSet};

pub type Cell = usize;

/// A store: each variable is null or a cell, each cell's link is null or a cell.
#[derive(Clone, Debug, PartialEq, Eq)]
pub struct Store {
    pub variables: Vec<Option<Cell>>,
    pub links: BTreeMap<Cell, Option<Cell>>,
}

/// What comes after a step of a run.
#[derive(Clone, Debug, PartialEq, Eq)]
pub enum Next {
    Stopped,
    ThroughNull,
    At(u8, Store),
}

impl Store {
    pub fn cells(&self) -> Vec<Cell> {
        self.links.keys().copied().collect()
    }

    fn get(&self, variable: u8) -> Option<Cell> {
        self.variables[variable as usize]
    }

    fn set(&mut self, variable: u8, value: Option<Cell>) {
        self.variables[variable as usize] = value;
    }

    /// Whether two different cells link to this cell.
    pub fn is_shared(&self, cell: Cell) -> bool {
        self.links
            .values()
            .filter(|&&link| link == Some(cell))
            .count()
            >= 2
    }

    /// The cell's own key: the variables on it, and whether it is shared.
    pub fn key(&self, cell: Cell) -> Key {
        let variables: BTreeSet<u8> = (0..self.variables.len() as u8)
            .filter(|&variable| self.get(variable) == Some(cell))
            .collect();
        Key::new(&variables, self.is_shared(cell))
    }

    /// Whether the store fits the shape.
    pub fn fits(&self, shape: &Shape) -> bool {
        let mut cells_of: BTreeMap<Key, Vec<Cell>> = BTreeMap::new();
        for cell in self.cells() {
            cells_of.entry(self.key(cell)).or_default().push(cell);
        }
        if cells_of.keys().any(|&key| !shape.has_key(key)) {
            return false;
        }
        for key in shape.keys() {
            match cells_of.get(&key).map_or(0, Vec::len) {
                0 => return false,
                1 => {}
                _ if shape.is_summary(key) => {}
                _ => return false,
            }
        }
        for (&from_key, from_cells) in &cells_of {
            for (&to_key, to_cells) in &cells_of {
                let mut pairs = from_cells
                    .iter()
                    .flat_map(|from| to_cells.iter().map(move |to| (from, to)))
                    .map(|(from, &to)| self.links[from] == Some(to));
                let holds = match shape.link(from_key, to_key) {
                    Truth::One => pairs.all(|linked| linked),
                    Truth::Zero => !pairs.any(|linked| linked),
                    Truth::Half => true,
                };
                if !holds {
                    return false;
                }
            }
        }
        true
    }

    /// The least shape that the store fits: cells of equal key fold into one individual.
    pub fn shape(&self) -> Shape {
        let mut working = super::working::Working::default();
        let cells = self.cells();
        for &cell in &cells {
            let key = self.key(cell);
            working.add(super::working::Individual {
                variables: key.variables(),
                shared: key.shared(),
                summary: false,
            });
        }
        for (from, cell) in cells.iter().enumerate() {
            let target = self.links[cell].and_then(|link| cells.iter().position(|&to| to == link));
            if let Some(to) = target {
                working.set_link(from as u32, to as u32, Truth::One);
            }
        }
        working.fold()
    }
}

/// One step of a run.
pub fn run_step(store: &Store, statement: Statement) -> Next {
    let mut after = store.clone();
    match statement {
        Statement::Stop => Next::Stopped,
        Statement::GoOn { next } => Next::At(next, after),
        Statement::SetNull { x, next } => {
            after.set(x, None);
            Next::At(next, after)
        }
        Statement::Copy { x, y, next } => {
            after.set(x, store.get(y));
            Next::At(next, after)
        }
        Statement::New { x, next } => {
            let new = store.cells().last().map_or(0, |last| last + 1);
            after.links.insert(new, None);
            after.set(x, Some(new));
            Next::At(next, after)
        }
        Statement::Follow { x, y, next } => {
            let Some(cell) = store.get(y) else {
                return Next::ThroughNull;
            };
            after.set(x, store.links[&cell]);
            Next::At(next, after)
        }
        Statement::ClearLink { x, next } => {
            let Some(cell) = store.get(x) else {
                return Next::ThroughNull;
            };
            after.links.insert(cell, None);
            Next::At(next, after)
        }
        Statement::SetLink { x, y, next } => {
            let Some(cell) = store.get(x) else {
                return Next::ThroughNull;
            };
            after.links.insert(cell, store.get(y));
            Next::At(next, after)
        }
        Statement::IsNull { x, yes, no } => {
            let successor = if store.get(x).is_none() { yes } else { no };
            Next::At(successor, after)
        }
        Statement::Same { x, y, yes, no } => {
            let successor = if store.get(x) == store.get(y) {
                yes
            } else {
                no
            };
            Next::At(successor, after)
        }
    }
}

#[cfg(test)]
mod tests {
    use super::*;

    fn list(length: usize) -> Store {
        Store {
            variables: vec![(length > 0).then_some(0)],
            links: (0..length)
                .map(|cell| (cell, (cell + 1 < length).then_some(cell + 1)))
                .collect(),
        }
    }

    #[test]
    fn the_empty_store_fits_the_empty_shape_only() {
        assert!(list(0).fits(&Shape::empty()));
        assert!(!list(1).fits(&Shape::empty()));
        assert!(!list(0).fits(&list(1).shape()));
    }

    #[test]
    fn long_lists_fit_the_list_shape() {
        let mut shape = Shape::empty();
        shape.add(Key(0), true);
        shape.add(Key(1), false);
        shape.set_link(Key(1), Key(0), Truth::Half);
        shape.set_link(Key(0), Key(0), Truth::Half);
        for length in 0..6 {
            assert_eq!(list(length).fits(&shape), length >= 2);
            assert!(list(length).fits(&list(length).shape()));
        }
        shape.set_link(Key(1), Key(0), Truth::One);
        assert!(list(2).fits(&shape) && !list(3).fits(&shape));
        shape.set_link(Key(1), Key(0), Truth::Zero);
        assert!(!list(2).fits(&shape));
    }

    #[test]
    fn a_self_link_and_another_make_a_cell_shared() {
        let mut store = list(2);
        store.links.insert(1, Some(1));
        assert!(store.is_shared(1) && !store.is_shared(0));
        assert_eq!((store.key(0), store.key(1)), (Key(1), Key(256)));
    }

    #[test]
    fn following_takes_the_variable_by_its_value_before() {
        let follow = Statement::Follow {
            x: 0,
            y: 0,
            next: 3,
        };
        let mut after = list(2);
        after.variables[0] = Some(1);
        assert_eq!(run_step(&list(2), follow), Next::At(3, after));
        assert_eq!(run_step(&list(0), follow), Next::ThroughNull);
        assert_eq!(run_step(&list(0), Statement::Stop), Next::Stopped);
    }
}
