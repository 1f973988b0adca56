//! Mistakes that can be planted in the stand-in, to see that a comparison finds them.

use crate::answer::ROOM;
use std::cell::Cell;

macro_rules! mistakes {
    ($($name:ident: $words:literal,)*) => {
        #[derive(Debug, Clone, Copy, PartialEq, Eq)]
        pub enum Mistake {
            None,
            $($name,)*
        }

        impl Mistake {
            pub const ALL: &'static [Mistake] = &[$(Mistake::$name,)*];

            pub fn words(self) -> &'static str {
                match self {
                    Mistake::None => "none",
                    $(Mistake::$name => $words,)*
                }
            }
        }
    };
}

mistakes! {
    OldFormUnshifted: "units of the old form are taken without the shift by one",
    TenthByteWhole: "a tenth byte above 1 refuses as oversized",
    EleventhMissing: "ten continued bytes at the end refuse as oversized",
    FieldAfterType: "the wire type is tested before the field's size",
    LastOccurrence: "the last occurrence of a number counts",
    MessageSkips: "`message` skips occurrences of another wire type",
    PackedOnly: "packed values are read, single ones aren't joined",
    IndexCut: "an index above 32 bits is cut",
    RangeNone: "range 0 serves no index",
    FallsToStrings: "a record that fails falls back to d2",
    PredefinedFirst: "the predefined index goes before the string",
    BadByteEach: "each bad byte of UTF-8 becomes one U+FFFD",
    SubstringBeforeUtf8: "a substring's places count before bad UTF-8 is replaced",
    SubstringError: "an error in field 4 makes the name absent",
    ReplaceOnce: "only the first occurrence of a character is replaced",
    OperationKeepsSlash: "operation 1 leaves slashes",
    OperationCut: "an operation is cut to 32 bits",
    DropsLetters: "operation 2 drops nothing but L and ;",
    DropsUnits: "operation 2 drops UTF-16 units",
    DropsOfOne: "operation 2 empties a text of one character",
    DescriptorSlashes: "operation 2 turns slashes into dots",
    StripsEither: "qualified_name drops L and ; each for itself",
    SurrogateAcross: "surrogates are joined across strings",
    LocalFirst: "an error in table field 5 is given before the records'",
    NullableAfter: "entries after first_nullable are nullable, not that one",
    InlineDepth: "inline arguments are tested against the depth",
    DepthOneMore: "a lookup at depth 64 yields a type",
    TypesOneMore: "the type count is one too large from four on",
    TypesTooMany: "2,049 types are read",
    TypesBeforeCut: "the 2,049th type refuses before its fields are cut",
    OmittedIn: "an omitted projection is in",
    ProjectionCut: "a projection is cut to 32 bits",
    OthersAreStars: "a projection above 3 is a star",
    LookedUpInvariant: "an argument by index is invariant",
    ArgumentsOnly: "what is no argument has the projection in",
    ProjectionBeforeCount: "the projection stands before the count of arguments",
    StarDropped: "a star is dropped",
    StarDepth: "a star at depth 64 is dropped",
    StarTypeCut: "the type inside a star is cut",
    StarTypeRead: "the type inside a star is read",
    StarNullable: "a star is nullable",
    StarUncounted: "a star is no type entered",
    StarTooMany: "a star is the 2,049th type",
    StarPassedOver: "Array's element is the first argument that is no star",
    SkippedRead: "a nameless function's parameters are cut",
    NamelessSkipped: "a nameless parameter is skipped",
    NamelessNoPart: "a nameless parameter is no part of the default descriptor",
    NamelessUnread: "a nameless parameter's types aren't read",
    ReceiverByVarint: "a receiver's index field counts as a varint only",
    FieldRefuses: "a broken field message refuses",
    AccessorFallsBack: "an accessor without a name takes the property's",
    AccessorFlagsSix: "omitted accessor flags are 6",
    PropertyReadingOrder: "a property's texts stand in the order of reading",
    ReturnBeforeReceiver: "the return type stands before the receiver",
    PackageConstructors: "a package has constructors",
    ClassAliasField: "a class's aliases are in field 5, as a package's",
    SkippedAliasRead: "a nameless alias's underlying type is read",
    ExpandedFirst: "an alias's expanded type is read before the underlying one",
    HeadsWithoutAliases: "a head alone has no count of aliases",
    NoEmptyAliases: "a count of no aliases is left out",
    AliasFlagsCut: "an alias's flags are cut to 32 bits",
    BoxedArrays: "IntArray's element is boxed",
    UnitNullable: "Unit? returned is a class",
    UnitElement: "Unit as an array's element in return position is V",
    ArrayFirstField: "Array's element is the first argument, kept or not",
    SuspendNeedsReturn: "a suspending function needs its return type",
    TextLimit: "65,535 bytes of text are accepted",
    SheetBeforeText: "12 is tested before 11",
    PastTheText: "a byte past the text is written",
    TouchesWhenRefused: "a refusal touches the sheet",
    DetailLeft: "refusals 10 to 12 have a detail",
    PastTruncated: "what runs past its message is refused with 7",
    FieldTruncated: "a field too large is refused with 7",
    FieldZero: "field 0 is passed over",
    LargeFields: "fields above 536,870,911 are passed over",
    LargestField: "field 536,870,911 is refused",
    ForbiddenAfterType: "the wire type is tested before a forbidden number",
    ForbiddenRefuses: "a forbidden field of a backing field refuses",
    WireTypeTold: "8 tells the wire type and not the tag's place",
    BodyPlace: "a length past its message tells the body's place",
    FixedTagPlace: "a fixed value past its message tells its tag's place",
    MissingBytePlace: "a varint cut short tells the place of the missing byte",
    PlaceInMessage: "a place is counted from its message's first byte",
    PlaceInRun: "a place in a packed run is counted from the run's first byte",
    PlaceWithMarker: "a place counts the marker",
    RoomNumber: "the room's refusal has the next number",
    RoomDetail: "the room's detail is one off",
    RoomSheet: "the room's sheet is one byte longer",
    RoomText: "the room's text is one byte longer",
    RoomTypes: "the room has a type more",
    RoomHeads: "the room has a head more",
    RoomConstructors: "the room has a constructor more",
    RoomFunctions: "the room has a function more",
    RoomProperties: "the room has a property more",
    RoomParameters: "the room has a parameter more",
    RoomTypeRecords: "the room has a record of a type more",
    RoomDefaults: "the room has a default descriptor more",
    RoomAliases: "the room has an alias more",
    RoomAliasCounts: "the room has a count of aliases more",
    RoomPropertyText: "the room's properties have a byte of text more",
    RoomFunctionText: "the room's functions have a byte of text more",
    RoomConstructorText: "the room's constructors have a byte of text more",
    RoomAliasText: "the room's aliases have a byte of text more",
    RoomHeadText: "the room's head has a byte of text more",
    RoomSheetOrder: "the room's texts by lists stand in the order of the sheet",
    RoomDefaultsApart: "default descriptors count as text of the head",
    RoomTypesApart: "a function's types count as text of the properties",
    RoomLeft: "a refused room has a head",
    RoomTextCut: "the room's text is cut to what no area holds",
    RoomTextRefused: "the room refuses a text that no area holds",
    UsedShortFirst: "too short an area for the strings is found before the class is refused",
    UsedInShort: "too short an area for the strings is filled as far as it goes",
    UsedTwelveDetail: "too short an area for the strings tells how many there are",
    UsedPast: "a byte past the strings is written",
    UsedOnesAlone: "strings that aren't fallen to keep the byte that was there",
    UsedWhenRefused: "strings that a refused reading fell to are marked",
    UsedDetail: "the strings' refusal has no detail",
    UsedCountLeft: "a refusal tells how many strings were fallen to",
    UsedOneMore: "one string more is counted than marked",
    UsedDecided: "a string at an index that a record decides is marked",
    UsedAccessor: "an accessor's descriptor is marked although its name is absent",
    UsedUndescribed: "a signature's name without a descriptor isn't marked",
    UsedNoField: "a backing field's descriptor without a name isn't marked",
    UsedStar: "the name of a star's type is marked",
    UsedLast: "the last string of d2 is never marked",
}

/// The mistakes that make one number of the room wrong, in the order of the numbers.
const IN_ROOM: [Mistake; ROOM] = [
    Mistake::RoomNumber,
    Mistake::RoomDetail,
    Mistake::RoomSheet,
    Mistake::RoomText,
    Mistake::RoomTypes,
    Mistake::RoomHeads,
    Mistake::RoomConstructors,
    Mistake::RoomFunctions,
    Mistake::RoomProperties,
    Mistake::RoomParameters,
    Mistake::RoomTypeRecords,
    Mistake::RoomDefaults,
    Mistake::RoomAliases,
    Mistake::RoomAliasCounts,
    Mistake::RoomPropertyText,
    Mistake::RoomFunctionText,
    Mistake::RoomConstructorText,
    Mistake::RoomAliasText,
    Mistake::RoomHeadText,
];

impl Mistake {
    /// The number of the room that this mistake makes wrong, if it is one of those.
    pub fn place_in_room(self) -> Option<usize> {
        IN_ROOM.iter().position(|mistake| *mistake == self)
    }
}

thread_local! {
    static PLANTED: Cell<Mistake> = const { Cell::new(Mistake::None) };
}

pub fn plant(mistake: Mistake) {
    PLANTED.set(mistake);
}

pub fn planted(mistake: Mistake) -> bool {
    PLANTED.get() == mistake
}
