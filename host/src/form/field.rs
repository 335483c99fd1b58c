//! A named number of a record.

use super::error::Problem;

/// A field: its name in the text form, its word in the record, and what it may be.
#[derive(Clone, Copy, Debug)]
pub struct Field {
    /// The field's term.
    pub name: &'static str,
    /// Its word in the record.
    pub word: usize,
    /// What it may be.
    pub value: Value,
    /// What it may be beside another field of its record.
    pub within: Option<Within>,
}

/// What a field may be.
#[derive(Clone, Copy, Debug)]
pub enum Value {
    /// A whole number.
    Number(Limits),
    /// One of these words, each with its number in the file. Of two words with one number the
    /// first is written.
    Word(&'static [(&'static str, u16)]),
}

/// A number's least and greatest value and its unit; a plain count has none.
#[derive(Clone, Copy, Debug, PartialEq, Eq)]
pub struct Limits {
    /// The least that is taken.
    pub least: u32,
    /// The greatest that is taken.
    pub greatest: u32,
    /// The unit, as it is written behind the number.
    pub unit: &'static str,
    /// A later version of the file that takes more.
    pub later: Option<Later>,
}

/// What a later version of the file takes.
#[derive(Clone, Copy, Debug, PartialEq, Eq)]
pub struct Later {
    /// The version.
    pub version: u16,
    /// The greatest that is taken there.
    pub greatest: u32,
}

impl Limits {
    /// Is the number within them?
    pub fn hold(&self, number: u32) -> bool {
        (self.least..=self.greatest).contains(&number)
    }

    /// The later version that takes this number, where these limits do not for its being too great.
    pub fn later_for(&self, number: u32) -> Option<Later> {
        self.later.filter(|later| (self.greatest + 1..=later.greatest).contains(&number))
    }
}

/// A limit that another field of the record sets.
#[derive(Clone, Copy, Debug)]
pub enum Within {
    /// Less than the other.
    Below(&'static Field),
    /// The other or less.
    AtMost(&'static Field),
}

/// A number field.
pub const fn number(
    name: &'static str,
    word: usize,
    least: u32,
    greatest: u32,
    unit: &'static str,
) -> Field {
    limited(name, word, Limits { least, greatest, unit, later: None })
}

/// A number field with these limits.
pub const fn limited(name: &'static str, word: usize, limits: Limits) -> Field {
    Field { name, word, value: Value::Number(limits), within: None }
}

/// A field of words.
pub const fn words(name: &'static str, word: usize, all: &'static [(&'static str, u16)]) -> Field {
    Field { name, word, value: Value::Word(all), within: None }
}

impl Field {
    /// The same field, with a limit that another sets.
    pub(super) const fn within(self, within: Within) -> Field {
        Field { within: Some(within), ..self }
    }

    /// Its number in a record; None where the record is too short to hold it. Most records hold
    /// words of two bytes; the weight of an axle may have four.
    pub fn of<N: Copy + Into<u32>>(&self, words: &[N]) -> Option<u32> {
        words.get(self.word).map(|number| (*number).into())
    }

    /// Its unit; none for words and plain counts.
    pub fn unit(&self) -> &'static str {
        match self.value {
            Value::Number(limits) => limits.unit,
            Value::Word(_) => "",
        }
    }

    /// What is wrong with this number in the field, whatever the other fields hold.
    pub fn problem(&self, found: u32) -> Option<Problem> {
        match self.value {
            Value::Number(limits) => {
                let outside = || Problem::Outside { found: found.to_string(), limits };
                (!limits.hold(found)).then(outside)
            }
            Value::Word(all) => {
                let known = all.iter().any(|(_, number)| u32::from(*number) == found);
                (!known).then(|| Problem::NoCode { found, allowed: all.to_vec() })
            }
        }
    }

    /// What is wrong with it beside the other field that limits it, where both are sound alone.
    pub fn misfit<N: Copy + Into<u32>>(&self, words: &[N]) -> Option<Problem> {
        let (Within::Below(other) | Within::AtMost(other)) = self.within?;
        let [found, limit] = [self, other]
            .map(|field| field.of(words).filter(|number| field.problem(*number).is_none()));
        let (found, limit) = (found?, limit?);
        let (other, unit) = (other.name, self.unit());
        match self.within? {
            Within::Below(_) if found >= limit => {
                Some(Problem::NotBelow { found, other, limit, unit })
            }
            Within::AtMost(_) if found > limit => {
                Some(Problem::Above { found, other, limit, unit })
            }
            _ => None,
        }
    }
}
