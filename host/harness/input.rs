//! One class as the reader takes it, and the program's input that carries it.

/// k, the version, the units of d1 and of d2, and where each string of d2 ends.
#[derive(Debug, Clone, PartialEq, Eq, Default)]
pub struct Input {
    pub k: i32,
    pub mv: [i32; 3],
    pub d1: Vec<u16>,
    pub d2: Vec<u16>,
    pub ends: Vec<u32>,
}

impl Input {
    pub fn new(k: i32, d1: Vec<u16>, strings: &[Vec<u16>]) -> Self {
        let mut input = Self { k, mv: [1, 9, 0], d1, ..Self::default() };
        input.set_strings(strings);
        input
    }

    pub fn set_strings(&mut self, strings: &[Vec<u16>]) {
        self.d2 = strings.concat();
        self.ends = strings
            .iter()
            .scan(0, |end, string| {
                *end += string.len() as u32;
                Some(*end)
            })
            .collect();
    }

    /// The strings of d2. Only for ends that refusal 3 lets pass.
    pub fn strings(&self) -> impl Iterator<Item = &[u16]> {
        let starts = std::iter::once(0).chain(self.ends.iter().copied());
        starts.zip(&self.ends).map(|(start, end)| &self.d2[start as usize..*end as usize])
    }

    /// A program's input: little-endian, counts before what they count. None if it is too short.
    pub fn parse(bytes: &[u8]) -> Option<Self> {
        let mut rest = bytes;
        let k = take(&mut rest)? as i32;
        let mv = [take(&mut rest)? as i32, take(&mut rest)? as i32, take(&mut rest)? as i32];
        Some(Self { k, mv, d1: take_units(&mut rest)?, d2: take_units(&mut rest)?, ends: take_ends(&mut rest)? })
    }

    pub fn to_bytes(&self) -> Vec<u8> {
        let mut bytes = Vec::new();
        let number = |bytes: &mut Vec<u8>, value: u32| bytes.extend(value.to_le_bytes());
        for value in [self.k, self.mv[0], self.mv[1], self.mv[2]] {
            number(&mut bytes, value as u32);
        }
        for units in [&self.d1, &self.d2] {
            number(&mut bytes, units.len() as u32);
            bytes.extend(units.iter().flat_map(|unit| unit.to_le_bytes()));
        }
        number(&mut bytes, self.ends.len() as u32);
        for end in &self.ends {
            number(&mut bytes, *end);
        }
        bytes
    }
}

fn take(rest: &mut &[u8]) -> Option<u32> {
    let (number, after) = rest.split_first_chunk::<4>()?;
    *rest = after;
    Some(u32::from_le_bytes(*number))
}

fn take_units(rest: &mut &[u8]) -> Option<Vec<u16>> {
    let count = take(rest)? as usize;
    let (units, after) = rest.split_at_checked(count * 2)?;
    *rest = after;
    Some(units.chunks(2).map(|unit| u16::from_le_bytes([unit[0], unit[1]])).collect())
}

fn take_ends(rest: &mut &[u8]) -> Option<Vec<u32>> {
    let count = take(rest)? as usize;
    if rest.len() / 4 < count {
        return None;
    }
    (0..count).map(|_| take(rest)).collect()
}

pub fn hex(bytes: &[u8]) -> String {
    bytes.iter().map(|byte| format!("{byte:02x}")).collect()
}

/// Hex as `hex` prints it; white space is passed over.
pub fn from_hex(text: &str) -> Option<Vec<u8>> {
    let digits: Vec<u8> = text
        .bytes()
        .filter(|byte| !byte.is_ascii_whitespace())
        .map(|byte| (byte as char).to_digit(16).map(|digit| digit as u8))
        .collect::<Option<_>>()?;
    if digits.len() % 2 != 0 {
        return None;
    }
    Some(digits.chunks(2).map(|pair| pair[0] * 16 + pair[1]).collect())
}

pub fn units(text: &str) -> Vec<u16> {
    text.encode_utf16().collect()
}
