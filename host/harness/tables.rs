//! Type tables of every shape, in payloads that enter their entries from everywhere: chains, cycles, look-ups that fail at each depth, types inline by
//! tens, stars, broken arguments in entries that are entered or not, and between all that fields that no reading asks for, in runs around five bytes.

use crate::input::{units, Input};
use crate::limits::UNITS;
use crate::random::Random;
use crate::shapes::{function_with, number, payload};
use crate::tree::put_varint;

const STRINGS: &[&str] =
    &["f", "kotlin/Array", "kotlin/Int", "p", "kotlin/Unit", "kotlin/collections/List", "a/B.C", ""];

/// Wire types.
const BODY: u64 = 2;

/// What a message begins with, or ends with, that is refused: a wire type, a number cut short, a field number, a body past the end, a varint too long.
const BROKEN: &[&[u8]] = &[
    &[0x0b],
    &[0x80],
    &[0x00, 0x00],
    &[0x7a, 0x09, 0x00],
    &[0xff; 11],
    &[0x0d, 0x01],
    &[0xf8, 0xff, 0xff, 0xff, 0xff, 0x7f, 0x00],
];

struct Maker<'r> {
    random: &'r mut Random,
    /// The entries of the table. Indices lead to them, mostly.
    entries: usize,
    /// One message in so many is broken; none if it is 0.
    broken: usize,
    /// One field in so many is followed by a run of fields that nothing asks for.
    runs: usize,
    stars: bool,
    /// Lengths and tags may be longer than they need to be.
    long: bool,
    /// Types that may still be made.
    types: usize,
}

/// One input. Most are short: the Rust copies what it enters.
pub fn input(random: &mut Random) -> Input {
    let most = if random.once_in(100) { UNITS } else { SHORT };
    loop {
        let input = any(random);
        if input.d1.len() <= most {
            return input;
        }
    }
}

const SHORT: usize = 700;

fn any(random: &mut Random) -> Input {
    let entries = *random.pick(&[0, 1, 1, 2, 2, 3, 4, 6, 10, 33, 34, 64, 70]);
    let broken = *random.pick(&[0, 0, 0, 60, 15]);
    let runs = *random.pick(&[1, 2, 4, 20, 100]);
    let (stars, long) = (random.once_in(4), random.once_in(3));
    let types = *random.pick(&[4, 10, 30, 100]);
    let mut maker = Maker { random, entries, broken, runs, stars, long, types };
    maker.input()
}

impl Maker<'_> {
    fn input(&mut self) -> Input {
        let (k, function, property, alias) =
            *self.random.pick(&[(1, 9, 10, 11), (2, 3, 4, 5), (2, 3, 4, 5), (5, 3, 4, 5)]);
        let mut body = Vec::new();
        for _ in 0..1 + self.random.below(5) {
            let member = match self.random.below(6) {
                0 => self.owner(property, &[(3, 9), (5, 10)]),
                1 => self.owner(alias, &[(4, 5), (6, 7)]),
                _ => self.function(function),
            };
            body.push(member);
        }
        let table = self.table();
        let at = self.random.below(body.len() + 1);
        match self.random.below(20) {
            // No body first: then there is no table.
            0 => body.insert(at, [number(30, 1), table].concat()),
            1 => {
                let other = self.table();
                body.insert(at, [table, other].concat());
            }
            2 => {}
            _ => body.insert(at, table),
        }
        let body = self.with_runs(body);
        let body = self.whole(body);
        let strings: Vec<Vec<u16>> = STRINGS.iter().map(|string| units(string)).collect();
        Input::new(k, payload(&[], &body), &strings)
    }

    fn function(&mut self, field: u64) -> Vec<u8> {
        let mut fields = vec![number(2, 0)];
        for _ in 0..self.random.below(3) {
            let parameter = self.owner(6, &[(3, 5), (4, 6)]);
            fields.push(parameter);
        }
        if self.random.once_in(5) {
            fields.push(number(9, 8192 + 6));
        }
        self.types_of(&mut fields, &[(3, 7), (5, 8)]);
        let fields = fields.concat();
        self.body(field, &fields)
    }

    /// A member or a parameter with types, inline in one field or by index in another.
    fn owner(&mut self, field: u64, places: &[(u64, u64)]) -> Vec<u8> {
        let mut fields = vec![function_with(*self.random.pick(&[0, 3]), &[])];
        self.types_of(&mut fields, places);
        let fields = fields.concat();
        self.body(field, &fields)
    }

    fn types_of(&mut self, fields: &mut Vec<Vec<u8>>, places: &[(u64, u64)]) {
        for (place, (inline, index)) in places.iter().enumerate() {
            match self.random.below(if place == 0 { 8 } else { 20 }) {
                0 => {
                    let ty = self.deep();
                    let ty = self.body(*inline, &ty);
                    fields.push(ty);
                }
                1..=6 => {
                    let entry = self.index();
                    fields.push(number(*index, entry));
                }
                _ => {}
            }
        }
    }

    /// Types inline one in another, so many that the innermost stands around depth 64, around 32, or not deep; it holds entries by index.
    fn deep(&mut self) -> Vec<u8> {
        let levels = self.levels();
        let count = 1 + self.random.below(3);
        let last = self.holding(count);
        self.chain(levels, last)
    }

    fn levels(&mut self) -> usize {
        let around = |random: &mut Random, middle: usize| middle - 3 + random.below(6);
        match self.random.below(12) {
            0 => around(self.random, 32),
            1 => around(self.random, 64),
            2 => 1 + self.random.below(70),
            _ => 1 + self.random.below(4),
        }
    }

    fn chain(&mut self, levels: usize, last: Vec<u8>) -> Vec<u8> {
        let mut ty = last;
        for _ in 1..levels {
            let inline = self.body(2, &ty);
            let argument = self.argument_with(vec![inline]);
            let mut fields = vec![argument];
            if self.random.once_in(2) {
                fields.push(number(6, 1));
            }
            ty = self.message(fields);
        }
        ty
    }

    /// A type that holds so many entries.
    fn holding(&mut self, count: usize) -> Vec<u8> {
        let mut fields = self.head();
        for _ in 0..count {
            let entry = self.index();
            let argument = self.argument_with(vec![number(3, entry)]);
            fields.push(argument);
        }
        self.message(fields)
    }

    fn table(&mut self) -> Vec<u8> {
        let shape = self.random.below(6);
        let mut fields = Vec::new();
        for place in 0..self.entries {
            let entry = self.entry(shape, place);
            let entry = self.body(1, &entry);
            fields.push(entry);
            if self.random.once_in(15) {
                fields.push(number(1, 0));
            }
        }
        if self.random.once_in(3) {
            let first = self.index();
            let at = self.random.below(fields.len() + 1);
            fields.insert(at, number(2, first));
        }
        let table = self.with_runs(fields);
        let table = self.whole(table);
        self.body(30, &table)
    }

    /// The entry in a place of a table of some shape: a chain, a cycle, a chain whose steps are types inline, a fan, or any type.
    fn entry(&mut self, shape: usize, place: usize) -> Vec<u8> {
        let last = place + 1 == self.entries;
        let next = match shape {
            0 if last => 0,
            _ => place as u64 + 1,
        };
        match shape {
            0 | 1 => {
                let mut fields = self.head();
                let argument = self.argument_with(vec![number(3, next)]);
                fields.push(argument);
                if self.random.once_in(6) {
                    let argument = self.argument(2);
                    fields.push(argument);
                }
                self.message(fields)
            }
            2 => {
                let argument = self.argument_with(vec![number(3, next)]);
                let ty = self.message(vec![number(6, 1), argument]);
                let levels = 1 + self.random.below(3);
                self.chain(levels, ty)
            }
            3 if self.entries < 11 => {
                let mut fields = self.head();
                for _ in 0..1 + self.random.below(3) {
                    let argument = self.argument_with(vec![number(3, next)]);
                    fields.push(argument);
                }
                self.message(fields)
            }
            4 => self.deep(),
            _ => self.ty(4),
        }
    }

    /// A type's own fields, but for its arguments.
    fn head(&mut self) -> Vec<Vec<u8>> {
        let mut fields = Vec::new();
        if !self.random.once_in(8) {
            let name = *self.random.pick(&[0, 1, 1, 1, 2, 2, 4, 5, 6, 7, 99, 1 << 32]);
            fields.push(number(6, name));
        }
        if self.random.once_in(3) {
            let flag = *self.random.pick(&[0, 1, 1, 2, 1 << 40]);
            fields.push(number(3, flag));
        }
        if self.random.once_in(8) {
            // Of another wire type, where it is the first.
            let odd =
                self.random.pick::<&[u8]>(&[&[0x32, 0x00], &[0x1a, 0x00], &[0x35, 1, 0, 0, 0], &[0x1a, 0x01, 0x05]]);
            fields.insert(0, odd.to_vec());
        }
        fields
    }

    fn ty(&mut self, depth: usize) -> Vec<u8> {
        let mut fields = self.head();
        self.types = self.types.saturating_sub(1);
        if self.types > 0 && depth > 0 {
            for _ in 0..*self.random.pick(&[0, 1, 1, 2, 3]) {
                let argument = self.argument(depth);
                fields.push(argument);
            }
        }
        self.message(fields)
    }

    fn argument(&mut self, depth: usize) -> Vec<u8> {
        let mut fields = Vec::new();
        let ways = self.random.below(16);
        if ways < 8 {
            let ty = self.ty(depth - 1);
            let ty = self.body(2, &ty);
            fields.push(ty);
        }
        if (7..12).contains(&ways) {
            let index = self.index();
            fields.push(number(3, index));
        }
        match ways {
            // The first occurrence is no body, or no number.
            12 => fields.extend([number(2, 0), vec![0x12, 0x02, 0x30, 0x02]]),
            13 => fields.extend([vec![0x1a, 0x00], number(3, 0)]),
            14 => fields.extend([vec![0x12, 0x00], vec![0x12, 0x02, 0x30, 0x02]]),
            _ => {}
        }
        self.argument_with(fields)
    }

    /// An argument with these fields and, sometimes, a projection.
    fn argument_with(&mut self, mut fields: Vec<Vec<u8>>) -> Vec<u8> {
        match self.random.below(12) {
            0..=2 => fields.push(number(1, self.random.below(3) as u64)),
            3 if self.stars => fields.push(number(1, 3)),
            4 => fields.push(number(1, *self.random.pick(&[4, 1 << 32, u64::MAX]))),
            5 if self.random.once_in(4) => fields.insert(0, vec![0x0a, 0x00]),
            _ => {}
        }
        let argument = self.message(fields);
        self.body(2, &argument)
    }

    /// Mostly an entry's; the last, the first past them, far past them, and what is no index.
    fn index(&mut self) -> u64 {
        let entries = self.entries as u64;
        match self.random.below(12) {
            0 => entries,
            1 => *self.random.pick(&[entries + 1, 127, 128, 1 << 31, (1 << 32) - 1, 1 << 32, u64::MAX]),
            2 => entries.saturating_sub(1),
            3..=6 => 0,
            _ => self.random.below(self.entries.max(1)) as u64,
        }
    }

    /// Fields of a type or of an argument, in order or not, with runs before, between and behind, and seldom broken.
    fn message(&mut self, mut fields: Vec<Vec<u8>>) -> Vec<u8> {
        if self.random.once_in(3) {
            self.random.shuffle(&mut fields);
        }
        if !fields.is_empty() && self.random.once_in(12) {
            let again = self.random.pick(&fields).clone();
            // A long one would be doubled again at each level.
            if again.len() < 40 {
                fields.push(again);
            }
        }
        let message = self.with_runs(fields);
        self.whole(message)
    }

    fn with_runs(&mut self, fields: Vec<Vec<u8>>) -> Vec<u8> {
        let mut message = Vec::new();
        for field in fields {
            if self.random.once_in(self.runs) {
                self.run(&mut message);
            }
            message.extend(field);
        }
        if self.random.once_in(self.runs) {
            self.run(&mut message);
        }
        message
    }

    /// Fields of two to eleven bytes together, seldom many more.
    fn run(&mut self, message: &mut Vec<u8>) {
        let length = match self.random.below(30) {
            0 => *self.random.pick(&[127, 128, 129, 130, 131, 132, 133, 134, 260]),
            1 if self.random.once_in(30) => *self.random.pick(&[16_386, 16_387, 16_388, 16_389, 16_390, 17_000]),
            _ => 2 + self.random.below(9),
        };
        let end = message.len() + length;
        while message.len() + 2 <= end {
            let left = end - message.len();
            let field = self.stranger(left);
            message.extend(field);
        }
    }

    /// A field that no reading asks for, of so many bytes at most, which are two or more. In a member or in the body it may be asked for.
    fn stranger(&mut self, most: usize) -> Vec<u8> {
        let tag = *self.random.pick(&[15, 15, 4, 5, 7, 8, 10, 12, 13]) * 8;
        match self.random.below(12) {
            0..=2 => vec![tag, self.random.below(128) as u8],
            3 if most >= 3 => vec![tag, 0x80, 0x01],
            4 if most >= 5 => vec![tag + 5, 1, 2, 3, 4],
            5 if most >= 9 => vec![tag + 1, 1, 2, 3, 4, 5, 6, 7, 8],
            6 => vec![0x12, 0x00],
            7 if most >= 4 => vec![0x12, 0x02, 0x18, self.random.below(128) as u8],
            8 => vec![*self.random.pick(&[0x30, 0x18, 0x10, 0x08]), self.random.below(4) as u8],
            9 if most >= 4 => vec![0x12, 0x02, *self.random.pick(&[0x10, 0x08]), self.random.below(3) as u8],
            10 if most >= 5 => vec![tag + 2, 0x82, 0x00, 0x01, 0x02],
            _ => {
                let size = (most - 2).min(*self.random.pick(&[0, 1, 2, 3, 7, 127]));
                [vec![tag + 2, size as u8], vec![0x0b; size]].concat()
            }
        }
    }

    /// A message as it is, or broken somewhere.
    fn whole(&mut self, mut message: Vec<u8>) -> Vec<u8> {
        if self.broken > 0 && self.random.once_in(self.broken) {
            let piece = *self.random.pick(BROKEN);
            match self.random.below(4) {
                0 => message.truncate(message.len().saturating_sub(1 + self.random.below(3))),
                1 => drop(message.splice(0..0, piece.iter().copied())),
                _ => message.extend(piece),
            }
        }
        message
    }

    /// A body with a tag and a length of one to five bytes.
    fn body(&mut self, field: u64, content: &[u8]) -> Vec<u8> {
        let mut out = Vec::new();
        self.put(&mut out, field * 8 + BODY);
        self.put(&mut out, content.len() as u64);
        out.extend(content);
        out
    }

    fn put(&mut self, out: &mut Vec<u8>, value: u64) {
        let start = out.len();
        put_varint(out, value);
        let length = out.len() - start;
        let longer = length + self.random.below(5);
        if self.long && self.random.once_in(8) && length < longer && longer <= 5 {
            out[start + length - 1] |= 0x80;
            out.resize(start + longer - 1, 0x80);
            out.push(0);
        }
    }
}
