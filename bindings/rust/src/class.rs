//! The classes of violations.

use std::fmt;

/// Writes the enum, its numbers and its names from one list.
macro_rules! classes {
    ($($(#[$doc:meta])* $name:ident = $number:literal,)*) => {
        /// The class of a violation, under the name that the compiler's `ErrorClass` has for it.
        #[non_exhaustive]
        #[derive(Debug, Clone, Copy, PartialEq, Eq, Hash)]
        pub enum ErrorClass {
            $($(#[$doc])* $name,)*
            /// A number that this version of the package has no name for.
            /// [`ErrorClass::from_number`] gives it for no number that has one.
            Other(u16),
        }

        impl ErrorClass {
            /// Every class with a name, in the order of the numbers.
            pub const ALL: &'static [ErrorClass] = &[$(ErrorClass::$name,)*];

            /// The number of the class in the list.
            pub fn number(self) -> u16 {
                match self {
                    $(ErrorClass::$name => $number,)*
                    ErrorClass::Other(number) => number,
                }
            }

            /// The class with that number.
            pub fn from_number(number: u16) -> ErrorClass {
                match number {
                    $($number => ErrorClass::$name,)*
                    _ => ErrorClass::Other(number),
                }
            }

            /// The name of the class, if it has one.
            pub fn name(self) -> Option<&'static str> {
                match self {
                    $(ErrorClass::$name => Some(stringify!($name)),)*
                    ErrorClass::Other(_) => None,
                }
            }
        }
    };
}

classes! {
    /// A field has the name of an earlier field.
    FieldNameDuplicate = 13,
    /// A field has the ordinal of an earlier field.
    OrdinalDuplicate = 14,
    /// A field's ordinal is over 65,535.
    OrdinalTooLarge = 15,
    /// A field has an ordinal that was retired.
    OrdinalReusedAfterRemoved = 16,
    /// A type name is neither declared nor imported.
    UnknownType = 17,
    /// A config is used as a type.
    ConfigTypeAsField = 18,
    /// A newtype wraps a newtype.
    NewtypeOverNewtype = 19,
    /// A newtype wraps a config.
    NewtypeOverConfig = 20,
    /// A map's key or a set's element cannot be one.
    InvalidMapKey = 28,
    /// An element of a vector, quaternion or matrix is no float or fixed-point number.
    GeometricInvalidElementType = 29,
    /// An enum variant's ordinal is taken or retired.
    EnumOrdinalDuplicate = 34,
    /// An enum variant's ordinal is over 65,535.
    EnumOrdinalTooLarge = 35,
    /// An enum's backing does not hold its greatest ordinal.
    EnumBackingTooNarrow = 36,
    /// A bit position of flags is over 63.
    FlagsBitTooHigh = 39,
    /// An inline bitfield has no bit names.
    BitsInlineEmpty = 40,
    /// A bit name of an inline bitfield is badly formed.
    InvalidBitName = 41,
    /// A union variant's ordinal is taken or retired.
    UnionOrdinalDuplicate = 42,
    /// A union variant's ordinal is over 65,535.
    UnionOrdinalTooLarge = 43,
    /// A field has an annotation of that name already.
    DuplicateAnnotation = 45,
    /// `@deprecated` has no reason (an error), or has one (a warning).
    DeprecatedMissingReason = 47,
    /// `@limit` stands on a type without a length.
    LimitInvalidTarget = 49,
    /// A limit is over 16,777,216.
    LimitExceedsGlobal = 50,
    /// A limit or a fixed array's size is 0.
    LimitZero = 51,
    /// `@varint` stands on another type than U16, U32, U64, Fixed32 or Fixed64.
    VarintInvalidTarget = 52,
    /// `@zigzag` stands on another type than I16, I32 or I64.
    ZigzagInvalidTarget = 53,
    /// `@varint` and `@zigzag` stand on one field.
    VarintZigzagCombined = 54,
    /// `@delta` stands on a type that is no number.
    DeltaInvalidTarget = 55,
    /// An operand of a condition does not suit the field's type.
    WhereClauseTypeMismatch = 63,
    /// A range stands on a type that is no number.
    WhereClauseRangeInvalid = 64,
    /// `len` stands on a type without a length.
    WhereClauseLenOnNonCollection = 65,
    /// A condition names a constant that is neither known nor imported.
    WhereClauseConstRefNotFound = 66,
    /// An order comparison stands on a type that is no number.
    WhereClauseOperatorInvalid = 67,
    /// A message has an invariant.
    InvariantUnsupported = 68,
}

/// The class's name, or `class N` for one without a name.
impl fmt::Display for ErrorClass {
    fn fmt(&self, f: &mut fmt::Formatter) -> fmt::Result {
        match self.name() {
            Some(name) => f.write_str(name),
            None => write!(f, "class {}", self.number()),
        }
    }
}
