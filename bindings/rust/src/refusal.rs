//! Why a call is refused.
use core::fmt;

/// Makes the refusals of one list: a number, a name and a text for each. The text says what is wrong, and after the
/// colon what to do. It is the case's documentation and what it displays. Numbers that have no name come last.
macro_rules! refusals {
    (
        $($(#[$more:meta])* $number:literal $name:ident $text:literal,)*
        without a name: $($bare:literal $bare_text:literal,)*
        any other: $other_text:literal,
    ) => {
        /// Why a call was refused. It has then changed nothing.
        ///
        /// Each case has a number, the same in every language that calls the library, and says as text what to do.
        /// Later versions may name more cases. A number that has no name here is carried as it came, and
        /// [`number`](Refusal::number) gives it.
        ///
        /// ```
        /// use brassgroat::Refusal;
        ///
        /// let refusal = brassgroat::house::fill(&mut [0; 7]).unwrap_err();
        /// assert_eq!(refusal, Refusal::OutputLength);
        /// assert_eq!(refusal.number(), 6);
        /// println!("refused: {refusal}");
        /// ```
        #[non_exhaustive]
        #[derive(Clone, Copy, Debug, PartialEq, Eq, Hash)]
        pub enum Refusal {
            $(
                #[doc = concat!(stringify!($number), ": ", $text, ".")]
                ///
                $(#[$more])*
                $name,
            )*
            /// A number that this version has no name for, from an archive that is newer than the crate.
            #[non_exhaustive]
            Unnamed(u32),
        }

        impl Refusal {
            /// Every refusal that has a name, in the order of their numbers.
            pub const ALL: &[Refusal] = &[$(Refusal::$name),*];

            /// Its number.
            pub const fn number(self) -> u32 {
                match self {
                    $(Refusal::$name => $number,)*
                    Refusal::Unnamed(number) => number,
                }
            }

            const fn text(self) -> &'static str {
                match self {
                    $(Refusal::$name => $text,)*
                    $(Refusal::Unnamed($bare) => $bare_text,)*
                    Refusal::Unnamed(_) => $other_text,
                }
            }
        }
    };
}

// The texts are those of `bg_refusal_text` in include/brassgroat.h to the letter, and the names are those of its
// `enum bg_refusal`: face/test compares both, and reads this list as it stands here.
refusals! {
    /// See [`start`](crate::start), [`power_table`](crate::power_table) and
    /// [`lut_interp_linear`](crate::lut_interp_linear).
    1 TableLength "the table's length is 0 or above 65,536 (a start and a gamma curve need 2 at least; a curv tag, a \
        verdict and lut_interp_linear take 0 as well): use a length within these bounds",
    2 NotNondecreasing "the table is not nondecreasing, as an entry is below the one before it: put its entries in \
        order",
    3 IndexBeyond "the index is beyond the table, or the gamma lookup's input is at or above its number of inputs: \
        give an index below the table's length, or an input below that number",
    4 OutsideNeighbours "the nudged entry would be below its left or above its right neighbour: \
        give a density from the left neighbour's to the right one's, or nudge those first",
    5 AboveLast "the density is above the table's last entry, so that no position reaches it: \
        ask for one that is not above the last entry",
    6 OutputLength "the output buffer is not exactly as long as needed: lend one of the length that the call asks for",
    7 ParameterCount "a parametric curve cannot have this number of parameters: give it 1, 3, 4, 5 or 7",
    8 TagLength "the tag has fewer than 12 bytes, or not the total length that its count or function type asks for: \
        give the whole tag, and no byte more",
    9 WrongSignature "the tag has another signature: read it by the call for its kind of tag",
    10 ReservedNotZero "a reserved byte of the tag is not zero, so the tag is damaged or of another kind: get a sound \
        one",
    11 FunctionType "the function type is above 4: use one of the types 0 to 4, which are all that ICC.1 has",
    12 OutsideRange "the gamma lookup's number of inputs is outside 2 to 65,536 or its depth outside 1 to 16, or the \
        length of an inverted or a passthrough table is outside 2 to 65,536: give a number within its range",
    13 OutsideUnit "the input of lut_interp_linear is a NaN, below 0 or above 1: give one from 0 to 1",
    /// See [`Log`](crate::Log).
    15 LogFull "the log is full, as 63 nudges stand in it: take one back, or start or accept anew, which empties it",
    16 NothingToTakeBack "there is nothing to take back, as no nudge stands in the log: nudge first",
    /// A [`Log`](crate::Log) of this crate never has such a count.
    17 BadLog "the log's count is above 63, or on a take-back its last nudge does not go with the table (a damaged \
        log, another table, or a table changed by other means): \
        lend this table's own log, or start or accept anew, which empties the log",
    18 Exponent "the gamma curve's exponent is 0 or above 4: \
        give 1 to 262,144 in 65536ths, or by a gamma tag's entry 1 to 1,024 in 256ths",
    without a name:
    14 "a number that no call of this version gives: see the header of the archive that gave it",
    any other: "a number that this version has no text for: see the header of the archive that gave it",
}

impl Refusal {
    /// The refusal that has a number, whether it is named or not. None has 0, which is no refusal.
    ///
    /// ```
    /// use brassgroat::Refusal;
    ///
    /// assert_eq!(Refusal::of_number(0), None);
    /// assert_eq!(Refusal::of_number(4), Some(Refusal::OutsideNeighbours));
    /// assert_eq!(Refusal::of_number(31).map(Refusal::number), Some(31));
    /// ```
    pub fn of_number(number: u32) -> Option<Refusal> {
        if number == 0 {
            return None;
        }
        let named = Refusal::ALL.iter().find(|refusal| refusal.number() == number);
        Some(named.copied().unwrap_or(Refusal::Unnamed(number)))
    }
}

/// The text of the case. A number that has no name stands before its text.
impl fmt::Display for Refusal {
    fn fmt(&self, f: &mut fmt::Formatter<'_>) -> fmt::Result {
        if let Refusal::Unnamed(number) = self {
            write!(f, "refused with {number}, ")?;
        }
        f.write_str(self.text())
    }
}

impl core::error::Error for Refusal {}

/// What a call's number says: done at 0, else the refusal.
pub(crate) fn granted(number: u32) -> Result<(), Refusal> {
    Refusal::of_number(number).map_or(Ok(()), Err)
}
