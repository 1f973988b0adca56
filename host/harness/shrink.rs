//! Makes an input that shows a difference smaller, as long as it still shows one.

use crate::forms::{is_old, marked};
use crate::input::Input;
use crate::limits;
use crate::second;
use crate::tree::{Node, Payload, Value};
use std::time::{Duration, Instant};

/// The smallest input that greedy steps find in a few seconds. `shows` says whether an input shows a difference.
pub fn shrink(input: &Input, shows: &mut dyn FnMut(&Input) -> bool) -> Input {
    let mut search = Search { best: input.clone(), shows, end: Instant::now() + Duration::from_secs(5) };
    loop {
        let before = search.best.clone();
        search.plain_form();
        search.plain_numbers();
        search.fields();
        search.units();
        search.strings();
        if search.best == before || search.is_over() {
            return search.best;
        }
    }
}

struct Search<'a> {
    best: Input,
    shows: &'a mut dyn FnMut(&Input) -> bool,
    end: Instant,
}

/// Fields below a field that are tried in its place.
const BELOW: usize = 6;

impl Search<'_> {
    fn is_over(&self) -> bool {
        Instant::now() > self.end
    }

    fn take(&mut self, tried: Input) -> bool {
        if tried == self.best || !(self.shows)(&tried) {
            return false;
        }
        self.best = tried;
        true
    }

    /// The form with the marker, if d1 is in the old one.
    fn plain_form(&mut self) {
        if is_old(&self.best.d1) {
            if let Ok(bytes) = second::decode(&self.best.d1) {
                let d1 = marked(&bytes);
                self.take(Input { d1, ..self.best.clone() });
            }
        }
    }

    /// The version and k of the specification's example, or a class.
    fn plain_numbers(&mut self) {
        self.take(Input { mv: [1, 9, 0], ..self.best.clone() });
        for k in [1, 2] {
            if self.best.k < 1 || self.best.k > 2 {
                self.take(Input { k, ..self.best.clone() });
            }
        }
    }

    /// Takes fields away and makes numbers small, with the lengths around them kept right.
    fn fields(&mut self) {
        let Some(mut payload) = Payload::of(&self.best.d1) else {
            return;
        };
        let mut number = 0;
        while number < payload.count() && !self.is_over() {
            let better = (0..4 + BELOW).find_map(|way| self.field(&payload, number, way));
            match better {
                Some(better) => payload = better,
                None => number += 1,
            }
        }
    }

    fn field(&mut self, payload: &Payload, number: usize, way: usize) -> Option<Payload> {
        let mut tried = payload.clone();
        tried.change(number, &mut |nodes, place| change(nodes, place, way));
        let d1 = tried.d1();
        let smaller = (d1.len(), &d1) < (self.best.d1.len(), &self.best.d1);
        let shows = smaller && self.take(Input { d1, ..self.best.clone() });
        shows.then_some(tried)
    }

    /// Takes runs of units away, long ones first, and then lowers single units.
    fn units(&mut self) {
        let mut length = self.best.d1.len() / 2;
        while length > 0 {
            let mut at = 0;
            while at + length <= self.best.d1.len() && !self.is_over() {
                let mut tried = self.best.clone();
                tried.d1.drain(at..at + length);
                if !self.take(tried) {
                    at += length;
                }
            }
            length /= 2;
        }
        for at in 0..self.best.d1.len() {
            for unit in [0, 1] {
                let mut tried = self.best.clone();
                if tried.d1[at] > unit && !self.is_over() {
                    tried.d1[at] = unit;
                    self.take(tried);
                }
            }
        }
    }

    /// Takes strings of d2 away from the end, empties them and cuts them short.
    fn strings(&mut self) {
        if limits::before_reading(&self.best).is_some_and(|number| number < 4) {
            return;
        }
        let mut strings: Vec<Vec<u16>> = self.best.strings().map(<[u16]>::to_vec).collect();
        for place in (0..strings.len()).rev() {
            if place + 1 == strings.len() && self.with_strings(&strings[..place]) {
                strings.pop();
                continue;
            }
            while !self.is_over() && self.string(&mut strings, place) {}
        }
    }

    /// One step that makes a string shorter or plainer.
    fn string(&mut self, strings: &mut [Vec<u16>], place: usize) -> bool {
        let old = strings[place].clone();
        let half = old[..old.len() / 2].to_vec();
        let without_first = old.iter().skip(1).copied().collect();
        let without_last = old.split_last().map_or(Vec::new(), |(_, rest)| rest.to_vec());
        for new in [Vec::new(), vec![0x61], half, without_first, without_last] {
            if (new.len(), &new) < (old.len(), &old) {
                strings[place] = new;
                if self.with_strings(strings) {
                    return true;
                }
            }
        }
        strings[place] = old;
        false
    }

    fn with_strings(&mut self, strings: &[Vec<u16>]) -> bool {
        let mut tried = self.best.clone();
        tried.set_strings(strings);
        self.take(tried)
    }
}

/// One way to make a field smaller, if it fits this field.
fn change(nodes: &mut Vec<Node>, place: usize, way: usize) {
    match (way, &mut nodes[place].value) {
        (0, _) => drop(nodes.remove(place)),
        (1, Value::Raw(raw)) if ![4, 8].contains(&raw.len()) => *raw = vec![0],
        (1, Value::Raw(raw)) => raw.fill(0),
        (1, value) => *value = Value::Bytes(Vec::new()),
        (2, Value::Raw(raw)) if ![4, 8].contains(&raw.len()) => *raw = vec![1],
        (3, Value::Bytes(bytes)) => drop(bytes.pop()),
        (4.., Value::Message(below)) => {
            let below = std::mem::take(below);
            let mut same = Vec::new();
            with_tag(&below, nodes[place].tag, &mut same);
            if way - 4 < same.len() {
                nodes[place] = same.swap_remove(way - 4);
            }
        }
        _ => {}
    }
}

/// The first fields below that have this tag.
fn with_tag(nodes: &[Node], tag: u64, found: &mut Vec<Node>) {
    for node in nodes {
        if found.len() == BELOW {
            return;
        }
        if node.tag == tag {
            found.push(node.clone());
        }
        if let Value::Message(below) = &node.value {
            with_tag(below, tag, found);
        }
    }
}
