//! Why a set is turned away.

use std::error::Error;
use std::fmt;

/// Why a set is turned away. Of 1 to 13 the lowest that applies is given, over the whole set; a function tests what it is handed.
/// Later editions may have more numbers.
#[derive(Clone, Copy, Debug, PartialEq, Eq, Hash)]
#[non_exhaustive]
#[repr(u8)]
pub enum Refusal {
    /// A measure is beyond its limits.
    Measure = 1,
    /// A slice has the wrong length, or the work buffer is too short.
    Length = 2,
    /// A grid point, supercell atom or band is not there, or a range of vectors is empty or not there.
    Index = 3,
    /// An f64 handed in for reading is infinite or a NaN, whether the work would read it or not.
    NotFinite = 4,
    /// An address, mesh size or entry of the q matrix is beyond its limits.
    Mesh = 5,
    /// A mass is zero (-0.0 too) or below.
    Mass = 6,
    /// The cutoff is below zero (-0.0 is not).
    Cutoff = 7,
    /// The weight is beyond its limits, or the temperature has its sign bit set (-0.0 too).
    Bath = 8,
    /// A phase is beyond ±1,048,576 or not finite.
    Phase = 9,
    /// The width is zero (-0.0 too) or below.
    Width = 13,
    /// A choice is a number that is not known. Only calls of [`flat`](crate::flat) can be answered so: the types of the safe functions admit
    /// no such call.
    Unreadable = 255,
}

use Refusal::*;

impl Refusal {
    /// Every refusal, by rising number.
    pub const ALL: &'static [Refusal] = &[
        Measure, Length, Index, NotFinite, Mesh, Mass, Cutoff, Bath, Phase, Width, Unreadable,
    ];

    /// The number that the library answers.
    pub const fn number(self) -> u8 {
        self as u8
    }

    /// The refusal of a number; none of 0 and of numbers that the library does not answer.
    pub fn from_number(number: u8) -> Option<Refusal> {
        Refusal::ALL
            .iter()
            .copied()
            .find(|refusal| refusal.number() == number)
    }

    /// One or two words.
    pub const fn name(self) -> &'static str {
        match self {
            Measure => "measure",
            Length => "length",
            Index => "index",
            NotFinite => "not finite",
            Mesh => "mesh",
            Mass => "mass",
            Cutoff => "cutoff",
            Bath => "bath",
            Phase => "phase",
            Width => "width",
            Unreadable => "unreadable",
        }
    }

    /// What is wrong with the set.
    pub const fn meaning(self) -> &'static str {
        match self {
            Measure => "a measure is beyond its limits",
            Length => "a slice has the wrong length, or the work buffer is too short",
            Index => "a grid point, supercell atom, band or range of vectors is not there",
            NotFinite => "a number handed in for reading is infinite or a NaN",
            Mesh => "an address, mesh size or entry of the q matrix is beyond its limits",
            Mass => "a mass is zero or below",
            Cutoff => "the cutoff is below zero",
            Bath => "the weight is beyond its limits, or the temperature has its sign bit set",
            Phase => "a phase is beyond ±1,048,576 or not finite",
            Width => "the width is zero or below",
            Unreadable => "a choice is a number that is not known",
        }
    }
}

impl fmt::Display for Refusal {
    fn fmt(&self, f: &mut fmt::Formatter<'_>) -> fmt::Result {
        write!(
            f,
            "refused {}, {}: {}",
            self.number(),
            self.name(),
            self.meaning()
        )
    }
}

impl Error for Refusal {}
