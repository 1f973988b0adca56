//! Made inputs over the whole grammar that the original reads: every field, every wire type, well and ill formed.

mod fields;
mod members;
mod names;
mod types;

use crate::forms::{marked, packed};
use crate::input::{units, Input};
use crate::random::Random;

/// Names that mean something to the reader, and some that nearly do.
#[rustfmt::skip]
const NAMES: &[&str] = &[
    "kotlin/Any", "kotlin/Nothing", "kotlin/Unit", "kotlin/Throwable", "kotlin/Number", "kotlin/Byte", "kotlin/Double",
    "kotlin/Float", "kotlin/Int", "kotlin/Long", "kotlin/Short", "kotlin/Boolean", "kotlin/Char", "kotlin/CharSequence",
    "kotlin/String", "kotlin/Comparable", "kotlin/Enum", "kotlin/Array", "kotlin/Array", "kotlin/Array",
    "kotlin/ByteArray", "kotlin/DoubleArray", "kotlin/FloatArray", "kotlin/IntArray", "kotlin/LongArray",
    "kotlin/ShortArray", "kotlin/BooleanArray", "kotlin/CharArray", "kotlin/Cloneable", "kotlin/Annotation",
    "kotlin/collections/Iterable", "kotlin/collections/MutableIterable", "kotlin/collections/Collection",
    "kotlin/collections/MutableCollection", "kotlin/collections/List", "kotlin/collections/MutableList",
    "kotlin/collections/Set", "kotlin/collections/MutableSet", "kotlin/collections/Map", "kotlin/collections/MutableMap",
    "kotlin/collections/Map.Entry", "kotlin/collections/Iterator", "kotlin/Function0", "kotlin.Int", "kotlin$Unit",
    "Lkotlin/Int;", "Lkotlin/Array;", "kotlin/int", "kotlin/Ints", "kotlin/In", "otlin/Int", "kotlin/UnitArray",
    "kotlin/ArrayArray", "kotlin/Array/", "", "L;", "L", ";", "LL;;", "La", "a;", "a;Lb", "a", "b", "f", "g", "x$y/z.w",
    "()V", "<init>", "getX", "I", "\u{e9}\u{2020}\u{1f600}", "[", "La/B$C;", "\u{0}", "\u{ffff}", "a..b", "(", ")",
];

pub struct Maker<'r> {
    random: &'r mut Random,
    /// One message in so many is broken; none if it is 0.
    broken: usize,
    /// Indices below this lead somewhere, mostly.
    indices: usize,
    entries: usize,
    /// Whether a parameter's name may be missing or lead nowhere: in one input of three, so that the original can be held to the others.
    nameless: bool,
    /// Types that may still be made, so that a payload stays short.
    types: usize,
    /// Whether arguments may be stars: an input that enters one isn't held to the original.
    stars: bool,
}

/// An input, well or ill formed.
pub fn input(random: &mut Random) -> Input {
    let broken = *random.pick(&[0, 0, 0, 0, 40, 15, 8]);
    let types = *random.pick(&[10, 30, 30, 100, 400]);
    let stars = random.once_in(3);
    let nameless = random.once_in(3);
    let mut maker = Maker { random, broken, indices: 1, entries: 0, nameless, types, stars };
    maker.input()
}

impl Maker<'_> {
    fn input(&mut self) -> Input {
        let count = *self.random.pick(&[0, 1, 2, 4, 8, 8, 16]);
        let strings: Vec<Vec<u16>> = (0..count).map(|_| self.string()).collect();
        self.indices = count + 1;
        self.entries = *self.random.pick(&[0, 0, 1, 2, 3, 6]);
        let odd = self.random.once_in(8);
        let k = *self.random.pick(if odd { &[3, 4, 0, 6, -1, i32::MIN, i32::MAX] } else { &[1, 1, 2, 5] as &[i32] });
        let table = self.name_table();
        let body = if k == 2 || k == 5 { self.package() } else { self.class() };
        let mut payload = Vec::new();
        self.put_length(&mut payload, table.len());
        payload.extend(table);
        payload.extend(body);
        let mut input = Input::new(k, self.units_of(&payload), &strings);
        if self.random.once_in(12) {
            input.mv = [*self.random.pick(&[0, 1, 2, 3, -1, i32::MIN, i32::MAX]), 4, 1];
        }
        input
    }

    /// d1 in the form with the marker, sometimes in the old one, seldom with a unit that is no byte.
    fn units_of(&mut self, payload: &[u8]) -> Vec<u16> {
        let mut units = if self.random.once_in(12) { self.old_form(payload) } else { marked(payload) };
        if self.random.once_in(80) {
            let at = self.random.below(units.len());
            units[at] = *self.random.pick(&[256, 257, 0x1234, 0xff00, 0xffff]);
        }
        units
    }

    fn old_form(&mut self, payload: &[u8]) -> Vec<u16> {
        let mut units = packed(payload);
        for unit in &mut units {
            if self.random.once_in(6) {
                *unit |= 0x80;
            }
        }
        // A first unit 0 would be the marker; 128 is the same group.
        if let Some(first) = units.first_mut() {
            *first |= if *first == 0 { 0x80 } else { 0 };
        }
        units
    }

    fn string(&mut self) -> Vec<u16> {
        match self.random.below(12) {
            0 => (0..self.random.below(6)).map(|_| *self.random.pick(&LETTERS)).collect(),
            1 => (0..self.random.below(5)).map(|_| *self.random.pick(&SURROGATES)).collect(),
            2 => {
                let name = *self.random.pick::<&str>(NAMES);
                [units("L"), units(name), units(";")].concat()
            }
            _ => units(*self.random.pick::<&str>(NAMES)),
        }
    }
}

const LETTERS: [u16; 10] = [0x4c, 0x3b, 0x2f, 0x24, 0x2e, 0x61, 0x5b, 0x28, 0xe9, 0x2020];
const SURROGATES: [u16; 8] = [0xd800, 0xdbff, 0xdc00, 0xdfff, 0xd83d, 0xde00, 0x61, 0xffff];
