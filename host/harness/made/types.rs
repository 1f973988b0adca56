//! Types, inline and by index, and the type table.

use super::fields::Fields;
use super::Maker;

/// The projection of a star.
const STAR: u64 = 3;

impl Maker<'_> {
    pub(super) fn ty(&mut self, depth: usize) -> Vec<u8> {
        let mut fields = Fields::new();
        self.types = self.types.saturating_sub(1);
        if self.types > 0 && depth < 12 {
            let count = *self.random.pick(&[0, 0, 0, 0, 1, 1, 2, 3]);
            for _ in 0..count {
                let argument = self.argument(depth);
                self.bytes(&mut fields, 2, &argument);
            }
        }
        if self.random.once_in(4) {
            let nullable = *self.random.pick(&[1, 1, 0, 2, 1 << 40]);
            self.number(&mut fields, 3, nullable);
        }
        if !self.random.once_in(10) {
            let name = self.name_index();
            self.number(&mut fields, 6, name);
        }
        if self.random.once_in(10) {
            let field = *self.random.pick(&[1, 4, 5, 7, 8, 9, 10, 11, 12, 13, 14]);
            let other = self.any_field(field);
            fields.push(other);
        }
        self.joined(fields)
    }

    pub(super) fn argument(&mut self, depth: usize) -> Vec<u8> {
        let mut fields = Fields::new();
        let projection = self.projection();
        if let Some(projection) = projection {
            self.number(&mut fields, 1, projection);
        }
        match projection {
            Some(STAR) if !self.random.once_in(4) => self.not_read(&mut fields),
            _ => self.declared(&mut fields, 2, 3, depth + 1),
        }
        self.joined(fields)
    }

    /// A projection, or none; seldom a number that is none, some of which are 3 when they are cut.
    fn projection(&mut self) -> Option<u64> {
        match self.random.below(12) {
            0..=2 => Some(self.random.below(3) as u64),
            3 | 4 if self.stars => Some(STAR),
            5 if self.random.once_in(3) => Some(*self.random.pick(&[4, 7, 1 << 32, (1 << 32) + 1, (1 << 32) + STAR])),
            6 if self.random.once_in(20) => Some(self.edge()),
            _ => None,
        }
    }

    /// What a star may hold, mostly nothing: a broken type, an index, both, or fields of another wire type.
    fn not_read(&mut self, fields: &mut Fields) {
        match self.random.below(10) {
            0 | 1 => {
                let broken = *self.random.pick::<&[u8]>(&[&[0x0b], &[0x12, 5], &[0x80], &[0x00], &[0xff; 11]]);
                self.bytes(fields, 2, broken);
            }
            2 => {
                let entry = self.index(self.entries);
                self.number(fields, 3, entry);
            }
            3 => self.declared(fields, 3, 2, 12),
            _ => {}
        }
    }

    /// A type inline, by index, both or neither.
    pub(super) fn declared(&mut self, fields: &mut Fields, inline: u32, index: u32, depth: usize) {
        let way = self.random.below(12);
        if way < 7 {
            let ty = self.ty(depth);
            self.bytes(fields, inline, &ty);
        }
        if (6..11).contains(&way) {
            let entry = self.index(self.entries);
            self.number(fields, index, entry);
        }
    }

    pub(super) fn type_table(&mut self, fields: &mut Fields) {
        if self.entries == 0 && !self.random.once_in(20) {
            return;
        }
        let mut table = Fields::new();
        for _ in 0..self.entries {
            // Entries are short: one that holds itself twice is entered by thousands.
            let depth = if self.random.once_in(30) { 6 } else { 11 };
            let entry = self.ty(depth);
            self.bytes(&mut table, 1, &entry);
        }
        if self.random.once_in(2) {
            let first = self.index(self.entries);
            self.number(&mut table, 2, first);
        }
        let table = self.joined(table);
        self.bytes(fields, 30, &table);
    }
}
