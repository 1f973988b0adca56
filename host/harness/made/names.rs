//! The name table and its records.

use super::fields::Fields;
use super::Maker;

/// Bytes that are UTF-8, and many that aren't.
#[rustfmt::skip]
const BYTES: &[&[u8]] = &[
    b"a", b"$", b"/", b"L", b";", b".", b"kotlin/Int", b"kotlin/Array", b"\xc3\xa9", b"\xe2\x80\xa0", b"\xf0\x9f\x98\x80",
    b"\xff", b"\x80", b"\xc0", b"\xc1\x80", b"\xc3", b"\xe0\x9f", b"\xe0\xa0", b"\xed\xa0\x80", b"\xef\xbf", b"\xf0\x8f",
    b"\xf0\x90\x80", b"\xf1\x80", b"\xf4\x8f\xbf", b"\xf4\x90\x80\x80", b"\xf5", b"\xe1\x80a", b"\xef\xbf\xbd", b"\x7f", b"\x00",
];

impl Maker<'_> {
    pub(super) fn name_table(&mut self) -> Vec<u8> {
        let mut fields = Fields::new();
        for _ in 0..*self.random.pick(&[0, 0, 1, 2, 3, 6]) {
            let record = self.record();
            self.bytes(&mut fields, 1, &record);
        }
        if self.random.once_in(6) {
            self.run(&mut fields, 5, 3);
        }
        self.joined(fields)
    }

    pub(super) fn record(&mut self) -> Vec<u8> {
        let mut fields = Fields::new();
        let mut range = 1;
        if self.random.once_in(2) {
            range = *self.random.pick(&[0, 1, 2, 3, 5, 1 << 32, (1 << 32) + 2]);
            range = if self.random.once_in(40) { *self.random.pick(&[300, 60_000, 65_536]) } else { range };
            self.number(&mut fields, 1, range);
        }
        self.indices += (range as usize).clamp(1, 5);
        if self.random.once_in(2) {
            let predefined = if self.random.once_in(10) { self.edge() } else { self.random.below(46) as u64 };
            self.number(&mut fields, 2, predefined);
        }
        if self.random.once_in(2) {
            let operation = *self.random.pick(&[0, 1, 1, 2, 2, 3, (1 << 32) + 1, (1 << 32) + 2]);
            self.number(&mut fields, 3, operation);
        }
        if self.random.once_in(3) {
            self.run(&mut fields, 4, 14);
        }
        if self.random.once_in(3) {
            self.characters(&mut fields);
        }
        if self.random.once_in(2) {
            let text: Vec<u8> = (0..self.random.below(5)).flat_map(|_| self.random.pick(BYTES).to_vec()).collect();
            self.bytes(&mut fields, 6, &text);
        }
        self.joined(fields)
    }

    /// Some numbers of a repeated field, packed or single, mostly two and mostly small.
    pub(super) fn run(&mut self, fields: &mut Fields, field: u32, below: usize) {
        let first = self.random.below(below) as u64;
        let mut values = vec![first, first + self.random.below(below) as u64];
        match self.random.below(10) {
            0 => values.truncate(1),
            1 => values.push(self.edge()),
            2 => values = vec![self.edge(), self.edge()],
            3 => values.iter_mut().for_each(|value| *value += 1 << 32),
            4 => values.reverse(),
            _ => {}
        }
        self.repeated(fields, field, &values);
    }

    pub(super) fn characters(&mut self, fields: &mut Fields) {
        let mut character = || match self.random.below(5) {
            0 => *self.random.pick(&[0xd7ff, 0xd800, 0xdfff, 0xe000, 0x10ffff, 0x110000, 0xfffd, 0xffff_ffff]),
            1 => *self.random.pick(&[0, 0xe9, 0x2020, 0x1f600, (1 << 32) + 0x61]),
            _ => u64::from(*self.random.pick(b"a$/.L;Kot")),
        };
        let values = [character(), character()];
        self.repeated(fields, 5, &values);
    }

    pub(super) fn repeated(&mut self, fields: &mut Fields, field: u32, values: &[u64]) {
        let split = if self.random.once_in(4) { self.random.below(values.len() + 1) } else { 0 };
        let (single, packed) =
            if self.random.once_in(3) { values.split_at(values.len()) } else { values.split_at(split) };
        for value in single {
            self.number(fields, field, *value);
        }
        if packed.is_empty() && !self.random.once_in(8) {
            return;
        }
        let mut out = Vec::new();
        for value in packed {
            self.put(&mut out, *value);
        }
        if self.random.once_in(25) {
            let rest = *self.random.pick(&[1, 10, 11]);
            out.extend(vec![0x80; rest]);
        }
        self.bytes(fields, field, &out);
    }
}
