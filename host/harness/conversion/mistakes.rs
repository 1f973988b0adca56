//! A stand-in for the two calls, right or with a mistake that a comparison must find.

use super::{convert, first_refusal, image, length, Converted, Way, ORDER};
use crate::forms::{bytes_of, groups_of, marked};
use crate::limits::UNITS;

macro_rules! mistakes {
    ($($name:ident: $words:literal,)*) => {
        #[derive(Debug, Clone, Copy, PartialEq, Eq)]
        pub enum Mistake {
            None,
            $($name,)*
        }

        impl Mistake {
            pub const ALL: &'static [Mistake] = &[$(Mistake::$name,)*];

            pub fn words(self) -> &'static str {
                match self {
                    Mistake::None => "none",
                    $(Mistake::$name => $words,)*
                }
            }
        }
    };
}

mistakes! {
    NotShifted: "old to new takes the units without the shift by one",
    NotAdded: "new to old doesn't add 1 to the groups",
    AddedWithoutEnd: "a group of 127 becomes the unit 128",
    HighBitKept: "old to new keeps bit 7 of a unit",
    HighBitRefused: "old to new refuses units from 128 on with 6",
    ZeroUnitRefused: "old to new refuses a unit 0 after the first with 15",
    LeftOverByte: "bits that are left over make a byte",
    HighestFirst: "bits are strung together from the highest on",
    SpareOnes: "the last group is filled with ones",
    LastGroupDropped: "a last group that isn't full is dropped",
    MarkerMissing: "old to new leaves the marker out",
    MarkerPacked: "new to old packs the marker too",
    MarkerAloneTaken: "new to old takes the marker alone",
    MarkerAloneForm: "new to old refuses the marker alone with 15",
    OtherMarkerTaken: "old to new takes a first unit FFFF for a marker",
    LowByteZero: "a first unit 256 passes for the marker",
    OneUnitRefused: "old to new refuses one unit with 5",
    LimitOfBytes: "32,768 bytes after the marker are taken",
    LimitOfOutput: "new to old refuses more than 32,768 units of output",
    FormBeforeEmpty: "15 is tested before 5",
    ByteBeforeForm: "6 is tested before 15",
    ZeroBeforeByte: "16 is tested before 6",
    AreaBeforeZero: "12 is tested before 16",
    AreaBeforeByte: "12 is tested before 6",
    LengthLast: "1 is tested after 6",
    ZeroOnlyWithoutHighBit: "16 is given for a first byte 7F and not for FF",
    ZeroAnywhere: "16 is given for any unit 0",
    ZeroTaken: "a first unit 0 is given",
    LastNotAByte: "the detail of 6 is the last unit above 255",
    PlaceNotUnit: "the detail of 6 is the unit's place",
    FormDetail: "15 has the first unit as detail",
    LengthTold: "12 tells the length",
    LengthInBytes: "the length counts bytes",
    AreaOneMore: "an area one unit short is written to its end",
    AreaOneLess: "an area of just the length is refused",
    PastTheLength: "a unit past the length is written",
    TouchesWhenRefused: "a refusal touches the area",
}

/// The same call as the library's, with a mistake or none.
pub fn stand_in(mistake: Mistake, way: Way, d1: &[u16], area: &mut [u16], answer: &mut [u64; 3]) {
    let mut given = mistaken(mistake, way, d1, area.len());
    *answer = given.answer();
    given.units.truncate(area.len());
    area[..given.units.len()].copy_from_slice(&given.units);
    match mistake {
        Mistake::LengthInBytes => answer[2] *= 2,
        Mistake::LengthTold if answer[0] == 12 => answer[2] = length(way, d1.len()) as u64,
        Mistake::PastTheLength if answer[0] == 0 && given.units.len() < area.len() => area[given.units.len()] = 0,
        Mistake::TouchesWhenRefused if answer[0] == 6 && !area.is_empty() => area[0] = 0,
        _ => {}
    }
}

fn mistaken(mistake: Mistake, way: Way, d1: &[u16], room: usize) -> Converted {
    let right = convert(way, d1, room);
    let refused = |number, detail| Converted { number, detail, units: Vec::new() };
    let units = || Converted { number: 0, detail: 0, units: image(way, d1) };
    let in_order = |order: &[u64]| {
        first_refusal(order, way, d1, room).map_or_else(units, |(number, detail)| refused(number, detail))
    };
    let old = way == Way::OldToNew;
    match mistake {
        Mistake::FormBeforeEmpty if d1.is_empty() || d1 == [0] => refused(15, 0),
        Mistake::ByteBeforeForm => in_order(&[1, 5, 6, 15, 16, 12]),
        Mistake::ZeroBeforeByte => in_order(&[1, 5, 15, 16, 6, 12]),
        Mistake::AreaBeforeZero => in_order(&[1, 5, 15, 6, 12, 16]),
        Mistake::AreaBeforeByte => in_order(&[1, 5, 15, 12, 6, 16]),
        Mistake::LengthLast => in_order(&[5, 15, 6, 1, 16, 12]),
        Mistake::MarkerAloneTaken if d1 == [0] => in_order(&[1, 15, 6, 16, 12]),
        Mistake::MarkerAloneForm if !old && d1 == [0] => refused(15, 0),
        Mistake::OneUnitRefused if old && d1.len() == 1 && right.number == 0 => refused(5, 0),
        Mistake::LimitOfBytes if !old && d1.len() == UNITS + 1 => in_order(&ORDER[1..]),
        Mistake::LimitOfOutput if right.units.len() > UNITS => refused(1, 0),
        Mistake::OtherMarkerTaken if old && d1.first() == Some(&0xffff) => convert(way, &d1[1..], room),
        Mistake::LowByteZero if !old && d1.first() == Some(&256) => in_order(&[1]),
        Mistake::HighBitRefused if old && right.number == 0 => {
            d1.iter().find(|unit| **unit > 127).map_or(right, |unit| refused(6, u64::from(*unit)))
        }
        Mistake::ZeroUnitRefused if old && right.number == 0 && d1.contains(&0) => refused(15, 0),
        Mistake::ZeroOnlyWithoutHighBit if right.number == 16 && d1[1] == 255 => in_order(&[12]),
        Mistake::ZeroTaken if right.number == 16 => in_order(&[12]),
        Mistake::ZeroAnywhere if !old && right.units.contains(&0) => refused(16, 0),
        Mistake::LastNotAByte if right.number == 6 => {
            refused(6, d1.iter().rfind(|unit| **unit > 255).map_or(0, |unit| u64::from(*unit)))
        }
        Mistake::PlaceNotUnit if right.number == 6 => {
            refused(6, d1.iter().position(|unit| *unit > 255).unwrap_or(0) as u64)
        }
        Mistake::FormDetail if right.number == 15 => refused(15, u64::from(d1[0])),
        Mistake::AreaOneMore if right.number == 12 && room + 1 == length(way, d1.len()) => units(),
        Mistake::AreaOneLess if right.number == 0 && room == right.units.len() => refused(12, 0),
        _ if right.number == 0 => Converted { units: wrong_units(mistake, way, d1, &right.units), ..right },
        _ => right,
    }
}

/// The units by a mistaken rule, or the right ones.
fn wrong_units(mistake: Mistake, way: Way, d1: &[u16], right: &[u16]) -> Vec<u16> {
    let bytes = || d1[1..].iter().map(|unit| *unit as u8).collect::<Vec<_>>();
    let added = |groups: &[u16]| groups.iter().map(|group| (group + 1) % 128).collect::<Vec<u16>>();
    let backwards = |byte: &u8| byte.reverse_bits();
    match (way, mistake) {
        (Way::OldToNew, Mistake::NotShifted) => marked(&bytes_of(d1.iter().map(|unit| unit % 128).collect())),
        (Way::OldToNew, Mistake::HighBitKept) => {
            let mut wrong = right.to_vec();
            if let (Some(byte), true) = (wrong.get_mut(1), d1[0] > 128) {
                *byte ^= 128;
            }
            wrong
        }
        (Way::OldToNew, Mistake::LeftOverByte) if 7 * d1.len() % 8 > 0 => {
            let whole: Vec<u16> = d1.iter().map(|unit| (unit + 127) % 128).chain([0, 0]).collect();
            marked(&bytes_of(whole)[..(7 * d1.len()).div_ceil(8)])
        }
        (Way::OldToNew, Mistake::HighestFirst) => {
            marked(&right[1..].iter().map(|unit| backwards(&(*unit as u8))).collect::<Vec<_>>())
        }
        (Way::OldToNew, Mistake::MarkerMissing) => right[1..].to_vec(),
        (Way::NewToOld, Mistake::NotAdded) => groups_of(&bytes()),
        (Way::NewToOld, Mistake::AddedWithoutEnd) => groups_of(&bytes()).iter().map(|group| group + 1).collect(),
        (Way::NewToOld, Mistake::HighestFirst) => added(&groups_of(&bytes().iter().map(backwards).collect::<Vec<_>>())),
        (Way::NewToOld, Mistake::SpareOnes) => {
            let ones: Vec<u8> = bytes().into_iter().chain([255]).collect();
            added(&groups_of(&ones)[..right.len()])
        }
        (Way::NewToOld, Mistake::LastGroupDropped) => right[..8 * (d1.len() - 1) / 7].to_vec(),
        (Way::NewToOld, Mistake::MarkerPacked) => {
            added(&groups_of(&d1.iter().map(|unit| *unit as u8).collect::<Vec<_>>()))
        }
        _ => right.to_vec(),
    }
}
