//! One step of a shape: opening, clearing and the steps, with results in the document's order.

use super::program::Statement;
use super::shapes::{Shape, Truth};
use super::working::{Id, Individual, Working};
use std::collections::BTreeSet;

/// A result of opening or clearing: the working shape, and the target if there is one.
type Opened = (Working, Option<Id>);

/// Opening u, which holds a variable.
pub fn open(start: &Working, u: Id) -> Vec<Opened> {
    let mut results = Vec::new();
    let ones = |but: Option<Id>| {
        start
            .ids()
            .into_iter()
            .filter(|&id| Some(id) != but)
            .any(|id| start.link(u, id) == Truth::One)
    };
    if !ones(None) {
        let mut result = start.clone();
        unlink(&mut result, u);
        results.push((result, None));
    }
    for v in start.ids() {
        if start.link(u, v) == Truth::Zero || ones(Some(v)) {
            continue;
        }
        let whole = open_whole(start, u, v);
        results.extend(settle(whole, u, v).map(|result| (result, Some(v))));
        if start.get(v).summary && start.link(u, v) == Truth::Half {
            let divided = open_divided(start, u, v);
            results.extend(settle(divided, u, v).map(|result| (result, Some(v))));
        }
    }
    results
}

/// All links of u become 0.
fn unlink(working: &mut Working, u: Id) {
    for id in working.ids() {
        working.set_link(u, id, Truth::Zero);
    }
}

/// v is no summary now, its link from u is 1, other links of u are 0.
fn open_whole(start: &Working, u: Id, v: Id) -> Working {
    let mut result = start.clone();
    result.get_mut(v).summary = false;
    unlink(&mut result, u);
    result.set_link(u, v, Truth::One);
    result
}

/// v becomes the target, and a rest is added: a summary with link 0 from u that copies v's key and other link values.
fn open_divided(start: &Working, u: Id, v: Id) -> Working {
    let mut result = open_whole(start, u, v);
    let rest = result.add(Individual {
        summary: true,
        ..start.get(v).clone()
    });
    for id in start.ids() {
        if id != v {
            result.set_link(id, rest, start.link(id, v));
            result.set_link(rest, id, start.link(v, id));
        }
    }
    let to_itself = start.link(v, v);
    result.set_link(v, rest, to_itself);
    result.set_link(rest, v, to_itself);
    result.set_link(rest, rest, to_itself);
    result.set_link(u, rest, Truth::Zero);
    result
}

/// Settles the target t; none if the result is dropped.
fn settle(mut result: Working, u: Id, t: Id) -> Option<Working> {
    let others: Vec<Id> = result.ids().into_iter().filter(|&id| id != u).collect();
    if result.get(t).shared {
        if others.iter().all(|&id| result.link(id, t) == Truth::Zero) {
            return None;
        }
    } else {
        if others.iter().any(|&id| result.link(id, t) == Truth::One) {
            return None;
        }
        // What is left is 0 or 1/2, and every 1/2 becomes 0.
        for id in others {
            result.set_link(id, t, Truth::Zero);
        }
    }
    Some(result)
}

/// Clearing u, which holds a variable.
pub fn clear(start: &Working, u: Id) -> Vec<Working> {
    let mut results = Vec::new();
    for (mut opened, target) in open(start, u) {
        let Some(t) = target else {
            results.push(opened);
            continue;
        };
        opened.set_link(u, t, Truth::Zero);
        if opened.get(t).shared {
            results.extend(clear_unshared(&opened, t));
            results.extend(clear_shared(&opened, t));
        } else {
            results.push(opened);
        }
    }
    results
}

/// t was shared and no longer is: at most one individual has 1 into t; if one has, every 1/2 into t becomes 0.
fn clear_unshared(opened: &Working, t: Id) -> Option<Working> {
    let ids = opened.ids();
    let ones = ids
        .iter()
        .filter(|&&id| opened.link(id, t) == Truth::One)
        .count();
    if ones > 1 {
        return None;
    }
    let mut result = opened.clone();
    result.get_mut(t).shared = false;
    if ones == 1 {
        for id in ids {
            if result.link(id, t) == Truth::Half {
                result.set_link(id, t, Truth::Zero);
            }
        }
    }
    Some(result)
}

/// t stays shared: two individuals or a summary have nonzero links into t.
fn clear_shared(opened: &Working, t: Id) -> Option<Working> {
    let linking: Vec<Id> = opened
        .ids()
        .into_iter()
        .filter(|&id| opened.link(id, t) != Truth::Zero)
        .collect();
    let stays = linking.len() >= 2 || linking.iter().any(|&id| opened.get(id).summary);
    stays.then(|| opened.clone())
}

/// u, whose links are all 0, gets a link to w.
fn link(start: &Working, u: Id, w: Id) -> Vec<Working> {
    let ids = start.ids();
    let mut results = Vec::new();
    if start.get(w).shared {
        results.push(start.clone());
    } else {
        if ids.iter().all(|&id| start.link(id, w) != Truth::One) {
            let mut result = start.clone();
            for &id in &ids {
                result.set_link(id, w, Truth::Zero);
            }
            results.push(result);
        }
        if ids.iter().any(|&id| start.link(id, w) != Truth::Zero) {
            let mut result = start.clone();
            result.get_mut(w).shared = true;
            results.push(result);
        }
    }
    for result in &mut results {
        result.set_link(u, w, Truth::One);
    }
    results
}

/// The results of a step before they are folded, each with its successor.
fn unfolded(start: &Working, statement: Statement) -> Vec<(u8, Working)> {
    let mut same = start.clone();
    match statement {
        Statement::Stop => Vec::new(),
        Statement::GoOn { next } => vec![(next, same)],
        Statement::SetNull { x, next } => {
            same.move_variable(x, None);
            vec![(next, same)]
        }
        Statement::Copy { x, y, next } => {
            same.move_variable(x, start.holder(y));
            vec![(next, same)]
        }
        Statement::New { x, next } => {
            let new = same.add(Individual {
                variables: BTreeSet::new(),
                shared: false,
                summary: false,
            });
            same.move_variable(x, Some(new));
            vec![(next, same)]
        }
        Statement::Follow { x, y, next } => {
            let Some(u) = start.holder(y) else {
                return Vec::new();
            };
            let mut results = Vec::new();
            for (mut opened, target) in open(start, u) {
                opened.move_variable(x, target);
                results.push((next, opened));
            }
            results
        }
        Statement::ClearLink { x, next } => {
            let Some(u) = start.holder(x) else {
                return Vec::new();
            };
            clear(start, u).into_iter().map(|r| (next, r)).collect()
        }
        Statement::SetLink { x, y, next } => {
            let Some(u) = start.holder(x) else {
                return Vec::new();
            };
            let mut results = Vec::new();
            for cleared in clear(start, u) {
                match cleared.holder(y) {
                    None => results.push((next, cleared)),
                    Some(w) => results.extend(link(&cleared, u, w).into_iter().map(|r| (next, r))),
                }
            }
            results
        }
        Statement::IsNull { x, yes, no } => {
            let successor = if start.holder(x).is_none() { yes } else { no };
            vec![(successor, same)]
        }
        Statement::Same { x, y, yes, no } => {
            let successor = if start.holder(x) == start.holder(y) {
                yes
            } else {
                no
            };
            vec![(successor, same)]
        }
    }
}

/// The results of one step in order, folded, each with its successor.
pub fn step(shape: &Shape, statement: Statement) -> Vec<(u8, Shape)> {
    unfolded(&Working::from_shape(shape), statement)
        .into_iter()
        .map(|(successor, result)| (successor, result.fold()))
        .collect()
}
