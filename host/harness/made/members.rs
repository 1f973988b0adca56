//! Constructors, functions, properties, type aliases, classes and packages.

use super::fields::Fields;
use super::Maker;

impl Maker<'_> {
    pub(super) fn flags(&mut self, fields: &mut Fields, field: u32) {
        if self.random.once_in(2) {
            let flags = match self.random.below(4) {
                0 => self.edge(),
                1 => 8192 + self.random.below(64) as u64,
                _ => self.random.below(256) as u64,
            };
            self.number(fields, field, flags);
        }
    }

    pub(super) fn name(&mut self, fields: &mut Fields, field: u32) {
        if !self.random.once_in(15) {
            let name = self.name_index();
            self.number(fields, field, name);
        }
    }

    pub(super) fn signature(&mut self) -> Vec<u8> {
        let mut fields = Fields::new();
        for field in [1, 2] {
            if !self.random.once_in(4) {
                let index = self.name_index();
                self.number(&mut fields, field, index);
            }
        }
        self.joined(fields)
    }

    pub(super) fn recorded(&mut self, fields: &mut Fields) {
        if self.random.once_in(3) {
            let signature = self.signature();
            self.bytes(fields, 100, &signature);
        }
    }

    fn parameter_name(&mut self, fields: &mut Fields) {
        if self.nameless {
            return self.name(fields, 2);
        }
        let name = self.random.below((self.indices - 1).max(1)) as u64;
        let mut out = self.tag(2, 0);
        self.put(&mut out, name);
        fields.push(out);
    }

    pub(super) fn parameter(&mut self) -> Vec<u8> {
        let mut fields = Fields::new();
        self.flags(&mut fields, 1);
        self.parameter_name(&mut fields);
        self.declared(&mut fields, 3, 5, 0);
        if self.random.once_in(5) {
            self.declared(&mut fields, 4, 6, 0);
        }
        self.joined(fields)
    }

    pub(super) fn parameters(&mut self, fields: &mut Fields, field: u32) {
        for _ in 0..*self.random.pick(&[0, 0, 1, 1, 2, 4]) {
            let parameter = self.parameter();
            self.bytes(fields, field, &parameter);
        }
    }

    pub(super) fn constructor(&mut self) -> Vec<u8> {
        let mut fields = Fields::new();
        self.flags(&mut fields, 1);
        self.parameters(&mut fields, 2);
        self.recorded(&mut fields);
        self.joined(fields)
    }

    pub(super) fn function(&mut self) -> Vec<u8> {
        let mut fields = Fields::new();
        self.flags(&mut fields, 9);
        self.name(&mut fields, 2);
        self.declared(&mut fields, 3, 7, 0);
        if self.random.once_in(3) {
            self.declared(&mut fields, 5, 8, 0);
        }
        self.parameters(&mut fields, 6);
        self.recorded(&mut fields);
        self.joined(fields)
    }

    pub(super) fn property(&mut self) -> Vec<u8> {
        let mut fields = Fields::new();
        self.flags(&mut fields, 11);
        self.name(&mut fields, 2);
        self.declared(&mut fields, 3, 9, 0);
        if self.random.once_in(3) {
            self.declared(&mut fields, 5, 10, 0);
        }
        self.flags(&mut fields, 7);
        self.flags(&mut fields, 8);
        if self.random.once_in(2) {
            let mut parts = Fields::new();
            for part in [1, 2, 3, 4] {
                if !self.random.once_in(3) {
                    let signature = self.signature();
                    self.bytes(&mut parts, part, &signature);
                }
            }
            let recorded = self.joined(parts);
            self.bytes(&mut fields, 100, &recorded);
        }
        self.joined(fields)
    }

    /// A type alias: its types stand inline, by index, or both.
    pub(super) fn alias(&mut self) -> Vec<u8> {
        let mut fields = Fields::new();
        self.flags(&mut fields, 1);
        self.name(&mut fields, 2);
        self.declared(&mut fields, 4, 5, 0);
        self.declared(&mut fields, 6, 7, 0);
        self.joined(fields)
    }

    /// In one body of three, so that the original can be held to the others. Seldom they stand in the field that is another's.
    pub(super) fn aliases(&mut self, fields: &mut Fields, field: u32, of_the_other: u32) {
        if self.random.once_in(3) {
            self.members(fields, field, Self::alias);
        }
        if self.random.once_in(10) {
            self.members(fields, of_the_other, Self::alias);
        }
        self.odd_before(fields, field);
    }

    pub(super) fn members(&mut self, fields: &mut Fields, field: u32, make: fn(&mut Self) -> Vec<u8>) {
        for _ in 0..*self.random.pick(&[0, 1, 1, 2, 5]) {
            let member = make(self);
            self.bytes(fields, field, &member);
        }
    }

    pub(super) fn class(&mut self) -> Vec<u8> {
        let mut fields = Fields::new();
        self.flags(&mut fields, 1);
        self.name(&mut fields, 3);
        self.members(&mut fields, 8, Self::constructor);
        self.members(&mut fields, 9, Self::function);
        self.members(&mut fields, 10, Self::property);
        self.aliases(&mut fields, 11, 5);
        self.type_table(&mut fields);
        self.joined(fields)
    }

    pub(super) fn package(&mut self) -> Vec<u8> {
        let mut fields = Fields::new();
        self.members(&mut fields, 3, Self::function);
        self.members(&mut fields, 4, Self::property);
        if self.random.once_in(8) {
            self.members(&mut fields, 8, Self::constructor);
        }
        self.aliases(&mut fields, 5, 11);
        self.type_table(&mut fields);
        self.joined(fields)
    }
}
