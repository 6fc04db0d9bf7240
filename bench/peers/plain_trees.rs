//! The calls over a plain model of the program's trees, with nothing proved and nothing merged: B+ nodes behind boxes that move
//! in and out of slots, a word for each node that tells who has it, one fetch-and-add a call; callers wait as the program's do.
//! What it takes is what the design takes.
//!
//! usage: plain_trees coupling|giveup|link NODES [times] CALLERS CALLS FIRST
//!        plain_trees coupling|giveup|link NODES script WORKERS

mod serving;

use serving::Served;
use std::cell::UnsafeCell;
use std::collections::BTreeMap;
use std::hint::spin_loop;
use std::mem;
use std::sync::atomic::{AtomicU32, AtomicU64, Ordering::SeqCst};
use std::thread;
use std::time::Duration;

type Op = serving::Op<u128>;
type Answer = serving::Answer<u128>;

/// The most pairs of a leaf, and children of an inner node.
const ROOM: usize = 16;
const ROOT: u32 = 0;
/// The word of a node that nobody has; who has one writes a greater number.
const GIVEN: u64 = 1;

/// What stands beside the keys of a node.
#[derive(Clone, Copy)]
enum Body {
    Leaf([u128; ROOM]),
    Inner([u32; ROOM]),
}

struct Node {
    level: u32,
    low: u64,
    last: u64,
    link: Option<u32>,
    count: usize,
    keys: [u64; ROOM],
    body: Body,
}

fn insert<T: Copy>(items: &mut [T; ROOM], count: usize, at: usize, item: T) {
    items.copy_within(at..count, at + 1);
    items[at] = item;
}

impl Node {
    fn blank() -> Node {
        Node { level: 0, low: 0, last: u64::MAX, link: None, count: 0, keys: [0; ROOM], body: Body::Leaf([0; ROOM]) }
    }

    /// How many keys lie below this one.
    fn rank(&self, key: u64) -> usize {
        self.keys[..self.count].iter().position(|other| key <= *other).unwrap_or(self.count)
    }

    fn has_at(&self, at: usize, key: u64) -> bool {
        at < self.count && self.keys[at] == key
    }

    /// The child that leads to the key, of an inner node.
    fn child(&self, key: u64) -> Option<u32> {
        let Body::Inner(children) = &self.body else { return None };
        let at = self.rank(key);
        Some(children[if self.has_at(at, key) { at } else { at - 1 }])
    }

    fn covers(&self, key: u64) -> bool {
        self.low <= key && key <= self.last
    }

    /// Whether the call has no room here, or, at an inner node, one child more would have none.
    fn is_full_for(&self, op: Op) -> bool {
        let Op::Put(key, _) = op else { return false };
        let is_there = matches!(self.body, Body::Leaf(_)) && self.has_at(self.rank(key), key);
        self.count == ROOM && !is_there
    }

    /// Makes the call in a leaf, and answers what was there.
    fn act(&mut self, op: Op) -> Option<u128> {
        let at = self.rank(key_of(op));
        let is_there = self.has_at(at, key_of(op));
        let Body::Leaf(values) = &mut self.body else { unreachable!("a call at an inner node") };
        let found = is_there.then(|| values[at]);
        match op {
            Op::Get(_) => {}
            Op::Put(_, value) if is_there => values[at] = value,
            Op::Put(key, value) => {
                insert(values, self.count, at, value);
                insert(&mut self.keys, self.count, at, key);
                self.count += 1;
            }
            Op::Del(_) if is_there => {
                values.copy_within(at + 1..self.count, at);
                self.keys.copy_within(at + 1..self.count, at);
                self.count -= 1;
            }
            Op::Del(_) => {}
        }
        found
    }

    /// Takes a child more, which begins at the cut.
    fn adopt(&mut self, cut: u64, child: u32) {
        let at = self.rank(cut);
        let Body::Inner(children) = &mut self.body else { unreachable!("a child of a leaf") };
        insert(children, self.count, at, child);
        insert(&mut self.keys, self.count, at, cut);
        self.count += 1;
    }

    /// Moves the upper half to a blank node, and answers where that begins.
    fn split_to(&mut self, right: &mut Held) -> u64 {
        let half = ROOM / 2;
        let new = &mut right.node;
        new.level = self.level;
        new.count = self.count - half;
        new.keys[..new.count].copy_from_slice(&self.keys[half..self.count]);
        new.body = match self.body {
            Body::Leaf(mut values) => {
                values.copy_within(half.., 0);
                Body::Leaf(values)
            }
            Body::Inner(mut children) => {
                children.copy_within(half.., 0);
                Body::Inner(children)
            }
        };
        (new.low, new.last, new.link) = (new.keys[0], self.last, self.link);
        (self.count, self.last, self.link) = (half, new.low - 1, Some(right.id));
        new.low
    }

    /// Makes of a full root one with two children, which share what it had, and answers where the second begins.
    fn grow(&mut self, left: &mut Held, right: &mut Held) -> u64 {
        mem::swap(self, &mut left.node);
        self.level = left.node.level + 1;
        self.body = Body::Inner([0; ROOM]);
        let cut = left.node.split_to(right);
        self.adopt(0, left.id);
        self.adopt(cut, right.id);
        cut
    }
}

fn key_of(op: Op) -> u64 {
    match op {
        Op::Get(key) | Op::Put(key, _) | Op::Del(key) => key,
    }
}

struct Held {
    id: u32,
    node: Box<Node>,
}

enum Technique {
    Coupling,
    GiveUp,
    Link,
}

#[repr(align(64))]
struct Turn(AtomicU64);

struct Tree {
    technique: Technique,
    turns: Vec<Turn>,
    /// Who has the node of a slot has the slot.
    slots: Vec<UnsafeCell<Option<Box<Node>>>>,
    claimed: AtomicU32,
    calls: AtomicU64,
}

unsafe impl Sync for Tree {}

impl Tree {
    fn new(technique: Technique, nodes: usize) -> Tree {
        Tree {
            technique,
            turns: (0..nodes).map(|_| Turn(AtomicU64::new(GIVEN))).collect(),
            slots: (0..nodes).map(|_| UnsafeCell::new(Some(Box::new(Node::blank())))).collect(),
            claimed: AtomicU32::new(1),
            calls: AtomicU64::new(0),
        }
    }

    fn is_given(&self, id: u32) -> bool {
        self.turns[id as usize].0.load(SeqCst) == GIVEN
    }

    /// Looks so many times, ever more seldom, and tells whether nobody had the node at one of them.
    fn comes_free(&self, id: u32, looks: u32) -> bool {
        (0..looks).any(|look| {
            let is_given = self.is_given(id);
            if !is_given {
                (0..32 << look).for_each(|_| spin_loop());
            }
            is_given
        })
    }

    #[cold]
    fn watch(&self, id: u32) {
        if self.comes_free(id, if id == ROOT { 2 } else { 7 }) {
            return;
        }
        for turn in 0.. {
            if self.is_given(id) {
                return;
            }
            if id == ROOT && turn >= 3 {
                thread::sleep(Duration::from_micros(1_000));
            } else {
                thread::yield_now();
            }
        }
    }

    fn take(&self, caller: usize, id: u32) -> Held {
        let turn = &self.turns[id as usize].0;
        while turn.compare_exchange(GIVEN, caller as u64 + 2, SeqCst, SeqCst).is_err() {
            self.watch(id);
        }
        Held { id, node: unsafe { (*self.slots[id as usize].get()).take() }.expect("the node of a slot") }
    }

    fn give(&self, held: Held) {
        unsafe { *self.slots[held.id as usize].get() = Some(held.node) };
        self.turns[held.id as usize].0.store(GIVEN, SeqCst);
    }

    /// A node that was never used.
    fn claim(&self, caller: usize) -> Held {
        let id = self.claimed.fetch_add(1, SeqCst);
        assert!((id as usize) < self.slots.len(), "no node is free");
        self.take(caller, id)
    }

    fn decide(&self, mut held: Held, op: Op) -> Answer {
        let found = held.node.act(op);
        let number = self.calls.fetch_add(1, SeqCst);
        self.give(held);
        Answer { number, found }
    }

    /// Gives the half that has not the key, and keeps the other.
    fn half_of(&self, left: Held, right: Held, cut: u64, key: u64) -> Held {
        let (kept, other) = if key < cut { (left, right) } else { (right, left) };
        self.give(other);
        kept
    }

    /// Splits the root in hand, which keeps its place: the half for the key.
    fn grow(&self, caller: usize, root: &mut Held, key: u64) -> Held {
        let (mut left, mut right) = (self.claim(caller), self.claim(caller));
        let cut = root.node.grow(&mut left, &mut right);
        self.half_of(left, right, cut, key)
    }

    fn by_coupling(&self, caller: usize, op: Op) -> Answer {
        let mut held = self.take(caller, ROOT);
        while let Some(child) = held.node.child(key_of(op)) {
            let next = self.take(caller, child);
            self.give(held);
            held = next;
        }
        self.decide(held, op)
    }

    /// A put that holds the parent of its node, and splits full nodes on its way.
    fn put_by_coupling(&self, caller: usize, op: Op) -> Answer {
        let key = key_of(op);
        let mut parent: Option<Held> = None;
        let mut held = self.take(caller, ROOT);
        loop {
            if held.node.is_full_for(op) {
                if let Some(above) = &mut parent {
                    let mut right = self.claim(caller);
                    let cut = held.node.split_to(&mut right);
                    above.node.adopt(cut, right.id);
                    held = self.half_of(held, right, cut, key);
                } else {
                    let half = self.grow(caller, &mut held, key);
                    parent = Some(mem::replace(&mut held, half));
                }
            }
            if let Some(above) = parent.take() {
                self.give(above);
            }
            let Some(child) = held.node.child(key) else { return self.decide(held, op) };
            let next = self.take(caller, child);
            parent = Some(mem::replace(&mut held, next));
        }
    }

    fn by_giving_up(&self, caller: usize, op: Op) -> Answer {
        let mut held = self.take(caller, ROOT);
        loop {
            let to = if held.node.covers(key_of(op)) { held.node.child(key_of(op)) } else { Some(ROOT) };
            match to {
                Some(id) => {
                    self.give(held);
                    held = self.take(caller, id);
                }
                None if held.node.is_full_for(op) => {
                    self.give(held);
                    return self.put_by_coupling(caller, op);
                }
                None => return self.decide(held, op),
            }
        }
    }

    /// Takes the node of the level that has the key, one node at a time.
    fn along_links(&self, caller: usize, key: u64, level: u32) -> Held {
        let mut held = self.take(caller, ROOT);
        loop {
            let to = if key > held.node.last { held.node.link } else { held.node.child(key) };
            match to {
                Some(id) if key > held.node.last || held.node.level > level => {
                    self.give(held);
                    held = self.take(caller, id);
                }
                _ => return held,
            }
        }
    }

    /// Takes the node of the level that has the key, with room for a pair or child more: where it is full it is split, and
    /// the cut, the new node and its level are told.
    fn with_room(&self, caller: usize, key: u64, level: u32, op: Op) -> (Held, Option<(u64, u32)>) {
        let mut held = self.along_links(caller, key, level);
        if !held.node.is_full_for(op) {
            return (held, None);
        }
        if held.id == ROOT {
            let half = self.grow(caller, &mut held, key);
            self.give(held);
            return (half, None);
        }
        let mut right = self.claim(caller);
        let cut = held.node.split_to(&mut right);
        let new = right.id;
        (self.half_of(held, right, cut, key), Some((cut, new)))
    }

    fn by_links(&self, caller: usize, op: Op) -> Answer {
        let (held, mut split) = self.with_room(caller, key_of(op), 0, op);
        let answer = self.decide(held, op);
        let mut level = 1;
        while let Some((cut, child)) = split {
            let (mut held, more) = self.with_room(caller, cut, level, Op::Put(cut, 0));
            held.node.adopt(cut, child);
            self.give(held);
            (split, level) = (more, level + 1);
        }
        answer
    }
}

impl Served for Tree {
    type Value = u128;

    fn call(&self, caller: usize, op: Op) -> Answer {
        match (&self.technique, op) {
            (Technique::Coupling, Op::Put(..)) => self.put_by_coupling(caller, op),
            (Technique::Coupling, _) => self.by_coupling(caller, op),
            (Technique::GiveUp, _) => self.by_giving_up(caller, op),
            (Technique::Link, _) => self.by_links(caller, op),
        }
    }

    fn into_pairs(self) -> BTreeMap<u64, u128> {
        let mut pairs = BTreeMap::new();
        for node in self.slots.into_iter().filter_map(UnsafeCell::into_inner) {
            if let Body::Leaf(values) = node.body {
                pairs.extend((0..node.count).map(|at| (node.keys[at], values[at])));
            }
        }
        pairs
    }
}

fn main() {
    let words: Vec<String> = std::env::args().skip(1).collect();
    let words: Vec<&str> = words.iter().map(String::as_str).collect();
    let is_served = match words[..] {
        [technique, nodes, ref calls @ ..] => {
            let technique = match technique {
                "coupling" => Technique::Coupling,
                "giveup" => Technique::GiveUp,
                _ => Technique::Link,
            };
            serving::run(Tree::new(technique, nodes.parse().expect("a number")), calls)
        }
        _ => false,
    };
    assert!(is_served, "usage: plain_trees coupling|giveup|link NODES [times] CALLERS CALLS FIRST, or .. NODES script WORKERS");
}
