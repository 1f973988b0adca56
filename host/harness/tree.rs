//! A payload as a tree of fields, to change it and keep the lengths right.

#[derive(Debug, Clone)]
pub enum Value {
    /// A varint or a fixed number, as it stood.
    Raw(Vec<u8>),
    Bytes(Vec<u8>),
    Message(Vec<Node>),
}

#[derive(Debug, Clone)]
pub struct Node {
    pub tag: u64,
    pub value: Value,
}

/// The name table and the body.
#[derive(Debug, Clone)]
pub struct Payload {
    pub table: Vec<Node>,
    pub body: Vec<Node>,
}

pub fn put_varint(out: &mut Vec<u8>, mut value: u64) {
    while value >= 0x80 {
        out.push(value as u8 | 0x80);
        value >>= 7;
    }
    out.push(value as u8);
}

fn varint(bytes: &[u8], at: &mut usize) -> Option<u64> {
    let mut value = 0;
    for place in 0..10 {
        let byte = *bytes.get(*at)?;
        *at += 1;
        value |= u64::from(byte & 0x7f) << (7 * place);
        if byte < 0x80 {
            return Some(value);
        }
    }
    None
}

fn delimited<'a>(bytes: &'a [u8], at: &mut usize) -> Option<&'a [u8]> {
    let length = usize::try_from(varint(bytes, at)?).ok()?;
    let part = bytes.get(*at..at.checked_add(length)?)?;
    *at += length;
    Some(part)
}

fn fields(bytes: &[u8], depth: usize) -> Option<Vec<Node>> {
    let mut nodes = Vec::new();
    let mut at = 0;
    while at < bytes.len() {
        let tag = varint(bytes, &mut at)?;
        let start = at;
        let value = match tag % 8 {
            0 => {
                varint(bytes, &mut at)?;
                Value::Raw(bytes[start..at].to_vec())
            }
            1 | 5 => {
                at += if tag % 8 == 1 { 8 } else { 4 };
                Value::Raw(bytes.get(start..at)?.to_vec())
            }
            2 => inner(delimited(bytes, &mut at)?, depth),
            _ => return None,
        };
        nodes.push(Node { tag, value });
    }
    Some(nodes)
}

/// A field's bytes as a message where they can be one.
fn inner(bytes: &[u8], depth: usize) -> Value {
    if depth > 0 && !bytes.is_empty() {
        if let Some(nodes) = fields(bytes, depth - 1) {
            return Value::Message(nodes);
        }
    }
    Value::Bytes(bytes.to_vec())
}

fn written(nodes: &[Node]) -> Vec<u8> {
    let mut out = Vec::new();
    for node in nodes {
        put_varint(&mut out, node.tag);
        match &node.value {
            Value::Raw(raw) => out.extend(raw),
            Value::Bytes(bytes) => put_delimited(&mut out, bytes),
            Value::Message(nodes) => put_delimited(&mut out, &written(nodes)),
        }
    }
    out
}

fn put_delimited(out: &mut Vec<u8>, bytes: &[u8]) {
    put_varint(out, bytes.len() as u64);
    out.extend(bytes);
}

impl Payload {
    /// The payload of a d1 in the form with the marker, if its outer fields can be cut.
    pub fn of(d1: &[u16]) -> Option<Self> {
        let (marker, units) = d1.split_first()?;
        let bytes: Vec<u8> = units.iter().map(|unit| u8::try_from(*unit).ok()).collect::<Option<_>>()?;
        let mut at = 0;
        let table = delimited(&bytes, &mut at).filter(|_| *marker == 0)?;
        Some(Self { table: fields(table, DEPTH)?, body: fields(&bytes[at..], DEPTH)? })
    }

    pub fn d1(&self) -> Vec<u16> {
        let mut bytes = vec![0];
        put_delimited(&mut bytes, &written(&self.table));
        bytes.extend(written(&self.body));
        bytes.into_iter().map(u16::from).collect()
    }

    /// The number of fields at all levels.
    pub fn count(&self) -> usize {
        count(&self.table) + count(&self.body)
    }

    /// Hands the field with this number, and the list that it stands in, to `change`.
    pub fn change(&mut self, mut number: usize, change: &mut dyn FnMut(&mut Vec<Node>, usize)) {
        if !visit(&mut self.table, &mut number, change) {
            visit(&mut self.body, &mut number, change);
        }
    }
}

/// Deeper levels stay bytes: a payload can nest by thousands.
const DEPTH: usize = 200;

fn count(nodes: &[Node]) -> usize {
    let below = |node: &Node| match &node.value {
        Value::Message(nodes) => count(nodes),
        _ => 0,
    };
    nodes.iter().map(|node| 1 + below(node)).sum()
}

fn visit(nodes: &mut Vec<Node>, number: &mut usize, change: &mut dyn FnMut(&mut Vec<Node>, usize)) -> bool {
    for place in 0..nodes.len() {
        if *number == 0 {
            change(nodes, place);
            return true;
        }
        *number -= 1;
        if let Value::Message(below) = &mut nodes[place].value {
            if visit(below, number, change) {
                return true;
            }
        }
    }
    false
}
