//! The two forms of d1, from the specification and from what Kotlin's BitEncoding does. With the marker: a unit 0, then a unit for each byte. The
//! old form, whose first unit isn't 0: the bytes' bits one after the other, each byte's lowest first, in groups of seven; a unit is its group and
//! 1, mod 128.

/// Whether units have the old form. No units have no form.
pub fn is_old(units: &[u16]) -> bool {
    units.first().is_some_and(|first| *first != 0)
}

/// d1 with the marker.
pub fn marked(bytes: &[u8]) -> Vec<u16> {
    std::iter::once(0).chain(bytes.iter().map(|byte| u16::from(*byte))).collect()
}

/// The bytes of units of the old form. Bits that are left over make no byte.
pub fn unpacked(units: &[u16]) -> Vec<u8> {
    bytes_of(units.iter().map(|unit| (unit + 127) % 128).collect())
}

/// The bytes of groups of seven bits.
pub fn bytes_of(groups: Vec<u16>) -> Vec<u8> {
    let bit = |place: usize| (groups[place / 7] >> (place % 7)) & 1;
    let byte = |number: usize| (0..8).map(|place| bit(8 * number + place) << place).sum::<u16>() as u8;
    (0..7 * groups.len() / 8).map(byte).collect()
}

/// The fewest units of the old form that give the bytes. The last group is filled with zero bits. A first unit may come out as 0.
pub fn packed(bytes: &[u8]) -> Vec<u16> {
    groups_of(bytes).iter().map(|group| (group + 1) % 128).collect()
}

/// Bytes in groups of seven bits, the last filled with zero bits.
pub fn groups_of(bytes: &[u8]) -> Vec<u16> {
    let bit = |place: usize| bytes.get(place / 8).map_or(0, |byte| u16::from(byte >> (place % 8)) & 1);
    let group = |number: usize| (0..7).map(|place| bit(7 * number + place) << place).sum();
    (0..(8 * bytes.len()).div_ceil(7)).map(group).collect()
}
