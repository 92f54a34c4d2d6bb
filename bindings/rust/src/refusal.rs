//! The refusals, by their numbers.

use std::error::Error;
use std::fmt;

/// Why an entry gave no answer. The number 4 was that of a refusal which could not come, and is not used again.
#[derive(Clone, Copy, Debug, PartialEq, Eq)]
#[non_exhaustive]
pub enum Refusal {
    /// 1: the floats lent are no whole rows. Everything lent is unchanged.
    NotWhole,
    /// 2: more than [`ROW_LIMIT`](crate::ROW_LIMIT) rows or pairs. Everything lent is unchanged.
    TooMany,
    /// 3: the solve needs more readings than its allowance. The rows are as after the last normalisation all of whose
    /// readings fitted.
    Stopped {
        /// The readings taken, which is the allowance.
        count: u64,
    },
    /// 5: the determinant of two equations is not finite, or within its error bound.
    Singular,
    /// 6: recovery found no point. The collector is unchanged.
    NotRecovered,
    /// 7: the prefix to recover is longer than the rows. The collector is unchanged.
    PrefixTooLong,
    /// 10: the number for normalising names no mode of the library. Everything lent is unchanged. No call of this crate
    /// passes such a number, unless the library is older than it.
    NoSuchMode,
    /// 12: a [`Link`](crate::Link) was fed, or told the end, after its end. Nothing is changed or printed.
    Ended,
    /// A number that this crate does not know: the library is newer than it.
    Unknown(u64),
}

impl Refusal {
    /// The refusal's number.
    ///
    /// ```
    /// assert_eq!(ravelsickle::Refusal::Stopped { count: 6 }.number(), 3);
    /// ```
    pub fn number(self) -> u64 {
        match self {
            Refusal::NotWhole => 1,
            Refusal::TooMany => 2,
            Refusal::Stopped { .. } => 3,
            Refusal::Singular => 5,
            Refusal::NotRecovered => 6,
            Refusal::PrefixTooLong => 7,
            Refusal::NoSuchMode => 10,
            Refusal::Ended => 12,
            Refusal::Unknown(number) => number,
        }
    }

    /// The refusal of a number other than 0. `count` is what a stopped solve wrote.
    fn of(number: u64, count: u64) -> Refusal {
        match number {
            1 => Refusal::NotWhole,
            2 => Refusal::TooMany,
            3 => Refusal::Stopped { count },
            5 => Refusal::Singular,
            6 => Refusal::NotRecovered,
            7 => Refusal::PrefixTooLong,
            10 => Refusal::NoSuchMode,
            12 => Refusal::Ended,
            _ => Refusal::Unknown(number),
        }
    }

    /// What an entry's number says: 0 is no refusal.
    pub(crate) fn check(number: u64, count: u64) -> Result<(), Refusal> {
        if number == 0 {
            Ok(())
        } else {
            Err(Refusal::of(number, count))
        }
    }
}

impl fmt::Display for Refusal {
    fn fmt(&self, f: &mut fmt::Formatter<'_>) -> fmt::Result {
        write!(f, "refusal {}: ", self.number())?;
        match self {
            Refusal::NotWhole => write!(f, "the floats lent are no whole rows"),
            Refusal::TooMany => write!(f, "more than {} rows or pairs", crate::ROW_LIMIT),
            Refusal::Stopped { count } => write!(f, "not finished within {count} readings"),
            Refusal::Singular => write!(f, "the two equations have no reliable crossing"),
            Refusal::NotRecovered => write!(f, "recovery found no point"),
            Refusal::PrefixTooLong => write!(f, "the prefix is longer than the rows"),
            Refusal::NoSuchMode => write!(f, "the number for normalising names no mode"),
            Refusal::Ended => write!(f, "the link has been told its end"),
            Refusal::Unknown(_) => write!(f, "a number that this crate does not know"),
        }
    }
}

impl Error for Refusal {}

#[cfg(test)]
mod tests {
    use super::*;

    #[test]
    fn every_number_has_its_refusal() {
        assert_eq!(Refusal::check(0, 9), Ok(()));
        for number in 1..20 {
            assert_eq!(Refusal::check(number, 9).unwrap_err().number(), number);
        }
        assert_eq!(Refusal::check(3, 9), Err(Refusal::Stopped { count: 9 }));
        assert_eq!(Refusal::check(10, 9), Err(Refusal::NoSuchMode));
        assert_eq!(Refusal::check(12, 9), Err(Refusal::Ended));
        assert_eq!(Refusal::check(8, 9), Err(Refusal::Unknown(8)));
    }

    #[test]
    fn no_refusal_has_the_number_4() {
        assert_eq!(Refusal::check(4, 9), Err(Refusal::Unknown(4)));
    }

    #[test]
    fn a_refusal_says_its_number_and_why() {
        let said: Box<dyn Error> = Box::new(Refusal::Stopped { count: 6 });
        assert_eq!(
            said.to_string(),
            "refusal 3: not finished within 6 readings"
        );
        assert_eq!(
            Refusal::TooMany.to_string(),
            "refusal 2: more than 4096 rows or pairs"
        );
        assert_eq!(
            Refusal::Ended.to_string(),
            "refusal 12: the link has been told its end"
        );
    }
}
