//! Why a call was refused.

use core::error::Error;
use core::fmt;

/// The refusals, a line for each: its number, its name, the header's words for it.
macro_rules! refusals {
    ($($number:literal $name:ident $text:literal;)+) => {
        /// Why a call was refused: the first that applies, in the order of numbers but for 14, which
        /// comes right after 5, and for lines of dealers ([`Dealers::place`](crate::Dealers::place),
        /// [`Session::turn`](crate::Session::turn)). The names and the words are those of `enum gantsorol_refusal` in the
        /// C header.
        #[derive(Clone, Copy, Debug, PartialEq, Eq, Hash)]
        #[non_exhaustive]
        pub enum Refusal {
            $(
                #[doc = concat!(stringify!($number), ": ", $text, ".")]
                $name,
            )+
            /// A number that this binding has no name for: the library is newer.
            Unknown(u8),
        }

        impl Refusal {
            /// The refusal with this number, as the library gives it; 0 is none.
            pub const fn from_number(number: u8) -> Option<Self> {
                match number {
                    0 => None,
                    $($number => Some(Self::$name),)+
                    number => Some(Self::Unknown(number)),
                }
            }

            /// The number, as in the papers, the header and the street program's answers.
            pub const fn number(self) -> u8 {
                match self {
                    $(Self::$name => $number,)+
                    Self::Unknown(number) => number,
                }
            }

            const fn text(self) -> &'static str {
                match self {
                    $(Self::$name => $text,)+
                    Self::Unknown(_) => "unknown to this binding",
                }
            }
        }
    };
}

refusals! {
    1 BadPostCount "the number of posts n is outside 2 to 255";
    2 BadThreshold "t is outside 1 to n - 1";
    3 BadPost "the session's post, or the post of a line to be written, of a block or of a pack file, is outside 1 to n";
    4 BadCheckPoint "the number of check points a post is not 1 or 2, or a check point is 0 or at least p";
    5 BadLength "a list's length is not exactly the one stated";
    6 NoSuchRow "a row is above 95, or a triple's first row above 93";
    7 WrongMark "a row's mark, or a remembered row, is not what the call needs; a relation names a triple twice; \
        a kind other than 0 stands inside a triple of a pack file";
    8 NotAnElement "a number is at least p, a record's mark is above 1, or a kind of a pack file is unknown";
    9 TooFewAccepted "fewer than t+1 posts were accepted, in any record";
    10 MalformedLine "a line read has the wrong form; a line to be placed is empty or longer than 16 bytes";
    11 LineOutOfRange "a line read has a number out of range";
    12 NoRoom "the list lent for a line or a file is shorter than that";
    13 InconsistentShares "an accepted share is not on the polynomial of the t+1 lowest, in any record";
    14 BadTermCount "a relation has no terms, or more than 32";
    15 CallerBarred "the post that calls for an opening is not one of the row's set, or outside 1 to n";
    16 BadDealer "a dealer, or the dealers' state's last one, is outside 1 to 8, or a place of that state has more than 16 bytes";
    17 PlaceFilled "a line still waits in the dealer's place";
    18 BadPostList "a list of posts does not rise strictly, or has a post outside 1 to n";
    19 TooManyPosts "more than t posts are listed and the secrets differ: no other draw shows them the same";
}

impl Refusal {
    /// What a call answered: done, or refused.
    pub(crate) const fn check(number: u8) -> Result<(), Self> {
        match Self::from_number(number) {
            None => Ok(()),
            Some(refusal) => Err(refusal),
        }
    }
}

impl fmt::Display for Refusal {
    fn fmt(&self, f: &mut fmt::Formatter) -> fmt::Result {
        write!(f, "refusal {}: {}", self.number(), self.text())
    }
}

impl Error for Refusal {}
