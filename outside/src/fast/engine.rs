//! Opening, clearing and linking on arrays. Results go to a sink that says whether to go on.

/// Room for the individuals of a working shape: 11, rounded up so that a row is one word of 16 bytes.
pub const MOST: usize = 11;
pub const ROW: usize = 16;

pub const SHARED: u8 = 1;
pub const SUMMARY: u8 = 2;

/// A working shape. What stands at or above `count` is of no account: adding an individual sets its row and column.
#[derive(Clone, Copy)]
pub struct Working {
    pub count: usize,
    pub masks: [u8; ROW],
    pub flags: [u8; ROW],
    pub links: [[u8; ROW]; MOST],
}

/// What a column says of the links into an individual.
struct Into {
    ones: usize,
    nonzero: usize,
    from_summary: bool,
}

impl Working {
    pub fn new() -> Working {
        Working {
            count: 0,
            masks: [0; ROW],
            flags: [0; ROW],
            links: [[0; ROW]; MOST],
        }
    }

    /// Takes the shape of a record, from its k on.
    pub fn load(&mut self, record: &[u8]) {
        let count = record[0] as usize;
        self.count = count;
        let (header, links) = record[1..].split_at(2 * count);
        for (id, pair) in header.chunks_exact(2).enumerate() {
            self.masks[id] = pair[0];
            self.flags[id] = pair[1];
        }
        if count > 0 {
            for (row, values) in self.links.iter_mut().zip(links.chunks_exact(count)) {
                row[..count].copy_from_slice(values);
                row[count..].fill(0);
            }
        }
    }

    fn holder(&self, variable: u8) -> Option<usize> {
        self.masks[..self.count]
            .iter()
            .position(|mask| mask >> variable & 1 == 1)
    }

    fn move_variable(&mut self, variable: u8, to: Option<usize>) {
        let bit = 1 << variable;
        for mask in &mut self.masks[..self.count] {
            *mask &= !bit;
        }
        if let Some(id) = to {
            self.masks[id] |= bit;
        }
    }

    /// Adds an individual; its row and column are 0.
    fn add(&mut self, mask: u8, flags: u8) -> usize {
        let id = self.count;
        self.count += 1;
        self.masks[id] = mask;
        self.flags[id] = flags;
        self.links[id] = [0; ROW];
        for row in &mut self.links[..id] {
            row[id] = 0;
        }
        id
    }

    /// The links into t from individuals other than `but`.
    fn links_into(&self, t: usize, but: usize) -> Into {
        let mut into = Into {
            ones: 0,
            nonzero: 0,
            from_summary: false,
        };
        for (id, row) in self.links[..self.count].iter().enumerate() {
            let value = row[t];
            if id != but && value != 0 {
                into.nonzero += 1;
                into.ones += usize::from(value == 1);
                into.from_summary |= self.flags[id] & SUMMARY != 0;
            }
        }
        into
    }

    /// Sets every link into t that is 1/2 to 0.
    fn no_half_into(&mut self, t: usize) {
        for row in &mut self.links[..self.count] {
            if row[t] == 2 {
                row[t] = 0;
            }
        }
    }
}

/// Opens u; the sink gets each result and its target.
fn open(
    start: &Working,
    u: usize,
    sink: &mut impl FnMut(&mut Working, Option<usize>) -> bool,
) -> bool {
    let row = &start.links[u][..start.count];
    let ones = row.iter().filter(|&&value| value == 1).count();
    if ones > 1 {
        return true;
    }
    let mut scratch;
    if ones == 0 {
        scratch = *start;
        scratch.links[u] = [0; ROW];
        if !sink(&mut scratch, None) {
            return false;
        }
    }
    for (v, &value) in row.iter().enumerate() {
        if value == 0 || (ones == 1 && value != 1) {
            continue;
        }
        // Whether the target is dropped, before anything is copied: the rest adds only v's own value to itself.
        let into = start.links_into(v, u);
        let shared = start.flags[v] & SHARED != 0;
        if (shared && into.nonzero == 0) || (!shared && into.ones > 0) {
            continue;
        }
        scratch = *start;
        scratch.flags[v] &= !SUMMARY;
        settle(&mut scratch, u, v, shared);
        if !sink(&mut scratch, Some(v)) {
            return false;
        }
        if value == 2 && start.flags[v] & SUMMARY != 0 {
            scratch = *start;
            divide(&mut scratch, v);
            settle(&mut scratch, u, v, shared);
            if !sink(&mut scratch, Some(v)) {
                return false;
            }
        }
    }
    true
}

/// v becomes the target; a rest is added that copies its key and links.
fn divide(working: &mut Working, v: usize) {
    let rest = working.add(working.masks[v], working.flags[v]);
    working.flags[v] &= !SUMMARY;
    for row in &mut working.links[..rest] {
        row[rest] = row[v];
    }
    working.links[rest] = working.links[v];
}

/// The only link of u goes to t, and if t is unshared, no other link does.
fn settle(working: &mut Working, u: usize, t: usize, shared: bool) {
    if !shared {
        for row in &mut working.links[..working.count] {
            row[t] = 0;
        }
    }
    working.links[u] = [0; ROW];
    working.links[u][t] = 1;
}

/// Clears u.
fn clear(start: &Working, u: usize, sink: &mut impl FnMut(&mut Working) -> bool) -> bool {
    open(start, u, &mut |opened, target| {
        let Some(t) = target else {
            return sink(opened);
        };
        opened.links[u][t] = 0;
        if opened.flags[t] & SHARED == 0 {
            return sink(opened);
        }
        let into = opened.links_into(t, u);
        let stays = into.nonzero >= 2 || into.from_summary;
        if into.ones <= 1 {
            let kept = *opened;
            opened.flags[t] &= !SHARED;
            if into.ones == 1 {
                opened.no_half_into(t);
            }
            if !sink(opened) {
                return false;
            }
            if !stays {
                return true;
            }
            *opened = kept;
        }
        !stays || sink(opened)
    })
}

/// Links u, whose links are 0, to w.
fn link(
    cleared: &mut Working,
    u: usize,
    w: usize,
    sink: &mut impl FnMut(&Working) -> bool,
) -> bool {
    if cleared.flags[w] & SHARED == 0 {
        let into = cleared.links_into(w, u);
        if into.ones == 0 {
            let kept = *cleared;
            for row in &mut cleared.links[..kept.count] {
                row[w] = 0;
            }
            cleared.links[u][w] = 1;
            if !sink(cleared) {
                return false;
            }
            if into.nonzero == 0 {
                return true;
            }
            *cleared = kept;
        }
        cleared.flags[w] |= SHARED;
    }
    cleared.links[u][w] = 1;
    sink(cleared)
}

/// Hands each result of ops 2 to 7 to the sink, in order and not yet folded; false if the sink said to leave off.
pub fn each_result(
    start: &Working,
    statement: &[u8; 5],
    sink: &mut impl FnMut(&Working) -> bool,
) -> bool {
    let [op, x, y, _, _] = *statement;
    match op {
        2 | 3 => {
            let mut moved = *start;
            let to = if op == 3 { start.holder(y) } else { None };
            moved.move_variable(x, to);
            sink(&moved)
        }
        4 => {
            let mut moved = *start;
            let new = moved.add(0, 0);
            moved.move_variable(x, Some(new));
            sink(&moved)
        }
        5 => {
            let Some(u) = start.holder(y) else {
                return true;
            };
            open(start, u, &mut |opened, target| {
                opened.move_variable(x, target);
                sink(opened)
            })
        }
        6 => {
            let Some(u) = start.holder(x) else {
                return true;
            };
            clear(start, u, &mut |cleared| sink(cleared))
        }
        7 => {
            let Some(u) = start.holder(x) else {
                return true;
            };
            match start.holder(y) {
                None => clear(start, u, &mut |cleared| sink(cleared)),
                Some(w) => clear(start, u, &mut |cleared| link(cleared, u, w, sink)),
            }
        }
        _ => unreachable!("op {op} has no results of its own"),
    }
}
