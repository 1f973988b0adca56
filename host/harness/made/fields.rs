//! Numbers and fields: mostly as a compiler writes them, sometimes longer, of another wire type, or broken.

use super::Maker;
use crate::tree::put_varint;

/// Numbers near which something changes.
#[rustfmt::skip]
const EDGES: &[u64] = &[
    0, 1, 2, 3, 6, 43, 44, 45, 62, 63, 64, 65, 70, 127, 128, 255, 256, 8192, 8198, 16383, 16384, 65535, 65536,
    (1 << 31) - 1, 1 << 31, (1 << 32) - 1, 1 << 32, (1 << 32) + 1, (1 << 32) + 2, 1 << 35, (1 << 53) + 1, 1 << 63,
    u64::MAX - 1, u64::MAX,
];

/// The fields of one message before they are joined.
pub(super) type Fields = Vec<Vec<u8>>;

impl Maker<'_> {
    /// A varint, seldom longer than it needs to be.
    pub(super) fn put(&mut self, out: &mut Vec<u8>, value: u64) {
        let start = out.len();
        put_varint(out, value);
        let shortest = out.len() - start;
        let length = shortest + self.random.below(10);
        if self.random.once_in(50) && length > shortest && length <= 10 {
            out[start + shortest - 1] |= 0x80;
            out.resize(start + length - 1, 0x80);
            out.push(0);
        }
    }

    pub(super) fn put_length(&mut self, out: &mut Vec<u8>, length: usize) {
        let wrong = self.broken > 0 && self.random.once_in(self.broken * 20);
        let length =
            if wrong { *self.random.pick(&[length as u64 + 1, u64::MAX, 1 << 63, 1 << 32]) } else { length as u64 };
        self.put(out, length);
    }

    pub(super) fn tag(&mut self, field: u32, wire_type: u64) -> Vec<u8> {
        let mut out = Vec::new();
        self.put(&mut out, u64::from(field) * 8 + wire_type);
        out
    }

    pub(super) fn number(&mut self, fields: &mut Fields, field: u32, value: u64) {
        self.odd_before(fields, field);
        let mut out = self.tag(field, 0);
        self.put(&mut out, value);
        fields.push(out);
    }

    pub(super) fn bytes(&mut self, fields: &mut Fields, field: u32, bytes: &[u8]) {
        self.odd_before(fields, field);
        let mut out = self.tag(field, 2);
        self.put_length(&mut out, bytes.len());
        out.extend(bytes);
        fields.push(out);
    }

    /// Seldom, an occurrence of another wire type stands first.
    pub(super) fn odd_before(&mut self, fields: &mut Fields, field: u32) {
        if self.random.once_in(60) {
            let odd = self.any_field(field);
            fields.push(odd);
        }
    }

    pub(super) fn any_field(&mut self, field: u32) -> Vec<u8> {
        let wire_type = *self.random.pick(&[0, 1, 2, 5]);
        let mut out = self.tag(field, wire_type);
        match wire_type {
            0 => {
                let value = self.edge();
                self.put(&mut out, value);
            }
            1 => out.extend(self.random.next().to_le_bytes()),
            2 => {
                let count = self.random.below(4);
                self.put_length(&mut out, count);
                (0..count).for_each(|_| out.push(self.random.next() as u8));
            }
            _ => out.extend((self.random.next() as u32).to_le_bytes()),
        }
        out
    }

    pub(super) fn edge(&mut self) -> u64 {
        match self.random.below(4) {
            0 => self.random.next() >> self.random.below(64),
            1 => self.random.below(16) as u64,
            _ => *self.random.pick(EDGES),
        }
    }

    pub(super) fn index(&mut self, count: usize) -> u64 {
        if self.random.once_in(25) {
            return self.edge();
        }
        self.random.below(count + 1).min(count.max(1)) as u64
    }

    pub(super) fn name_index(&mut self) -> u64 {
        self.index(self.indices)
    }

    /// Joins the fields: mostly in order, with strangers among them, seldom broken.
    pub(super) fn joined(&mut self, mut fields: Fields) -> Vec<u8> {
        if self.random.once_in(8) {
            let field = *self.random.pick(&[1, 4, 7, 12, 13, 16, 31, 32, 101, 4096, 536_870_911]);
            let stranger = self.any_field(field);
            fields.push(stranger);
        }
        if !fields.is_empty() && self.random.once_in(20) {
            let again = self.random.pick(&fields).clone();
            fields.push(again);
        }
        if self.random.once_in(6) {
            self.random.shuffle(&mut fields);
        }
        let mut message = fields.concat();
        if self.broken > 0 && self.random.once_in(self.broken) {
            self.break_it(&mut message);
        }
        message
    }

    pub(super) fn break_it(&mut self, message: &mut Vec<u8>) {
        let wire_type = *self.random.pick(&[3, 4, 6, 7]);
        let piece: Vec<u8> = match self.random.below(10) {
            0 => {
                let left = message.len().saturating_sub(1 + self.random.below(3));
                message.truncate(left);
                return;
            }
            1 => {
                let at = self.random.below(message.len() + 1);
                message.insert(at, self.random.next() as u8);
                return;
            }
            2 => vec![self.random.below(32) as u8 * 8 + wire_type as u8],
            3 => vec![0x80; 9 + self.random.below(4)],
            4 => [vec![0x08], vec![0x80; 9 + self.random.below(4)]].concat(),
            5 => {
                let mut tag = Vec::new();
                let low = *self.random.pick(&[0, 1, 2, 3, 5]);
                put_varint(&mut tag, (1 << 35) + low);
                tag
            }
            6 => vec![0x09, 1, 2, 3, 4, 5, 6, 7],
            7 => vec![0x0d, 1, 2, 3],
            8 => {
                let forbidden = *self.random.pick(&[0, 536_870_912, u32::MAX]);
                if self.random.once_in(4) { self.tag(forbidden, wire_type) } else { self.any_field(forbidden) }
            }
            _ => vec![0x0a, 0xff, 0xff, 0xff, 0xff, 0xff, 0xff, 0xff, 0xff, 0xff, 0x01],
        };
        let at = if self.random.once_in(3) { 0 } else { message.len() };
        message.splice(at..at, piece);
    }
}
