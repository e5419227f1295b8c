//! The numbers of document 01's table of refusals.
use core::error::Error;
use core::fmt;

/// A refusal. Where several apply, a call gives the first in the order that it names.
#[derive(Clone, Copy, PartialEq, Eq, Hash, PartialOrd, Ord)]
pub struct Refusal(u64);

macro_rules! refusals {
    ($($(#[$doc:meta])* $name:ident = $number:literal, $says:literal;)*) => {
        impl Refusal {
            $($(#[$doc])* #[doc = $says] pub const $name: Refusal = Refusal($number);)*

            /// What the number means, in a few words.
            pub const fn says(self) -> &'static str {
                match self.0 {
                    $($number => $says,)*
                    _ => "a number that this interface does not have",
                }
            }
        }
    };
}

refusals! {
    BAD_LENGTH = 1, "prefix or payload length wrong";
    BAD_CBOR = 2, "payload is not the strict CBOR";
    BAD_MESSAGE = 3, "not a map, a needed key missing, or a known key with a wrong type or range";
    NOT_SERVED = 4, "endpoint, feature or command is not served";
    BAD_TIME = 5, "time before the last accepted call's, or past the last second";
    BAD_ZONE = 6, "id outside 1 to 255, or rank outside 1 to 3";
    ALREADY = 7, "id already joined, link already as told, or no override to clear";
    FULL = 8, "eight zones joined";
    NOT_JOINED = 9, "zone not joined";
    LINK_DOWN = 10, "command from a zone whose link is down";
    NOT_SUPPORTED = 11, "limits, setpoints or current limits not accepted, or a named direction not supported";
    OVERRIDDEN = 12, "SetLimit or SetCurrentLimits while an override is set";
    BAD_VALUE = 13, "a Set command with a negative value or naming nothing, or a phase from the phase count up";
    BELOW_MINIMUM = 14, "a consumption limit below the minimum, 0 aside";
    NO_SPACE = 15, "the output is longer than the lent buffer";
    BAD_SETTINGS = 16, "bad settings, or conformance inputs out of range";
    NOT_ASCENDING = 17, "attribute list not strictly ascending";
    BAD_OVERRIDE = 18, "override reason and direction do not go together";
}

impl Refusal {
    /// The number itself, as the papers have it.
    pub const fn number(self) -> u64 {
        self.0
    }

    /// What a call's number says: 0 is accepted.
    pub(crate) const fn of(number: u64) -> Result<(), Refusal> {
        if number == 0 {
            Ok(())
        } else {
            Err(Refusal(number))
        }
    }
}

impl fmt::Debug for Refusal {
    fn fmt(&self, to: &mut fmt::Formatter) -> fmt::Result {
        write!(to, "Refusal({}: {})", self.0, self.says())
    }
}

impl fmt::Display for Refusal {
    fn fmt(&self, to: &mut fmt::Formatter) -> fmt::Result {
        write!(to, "refused with {}: {}", self.0, self.says())
    }
}

impl Error for Refusal {}
