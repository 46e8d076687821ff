//! The numbered refusal that every call may end with.

use std::fmt;

/// Why a call was refused, by number, and where.
///
/// ```
/// let refusal = lexer_dfa::AsciiRun::classify(&[0; 127], 0).unwrap_err();
/// assert_eq!((refusal.number, refusal.place, refusal.item), (3, 0, 0));
/// assert_eq!(refusal.to_string(), "refusal 3 FIELD at 0");
/// ```
///
/// Of a table that breaks an index rule, the place is the first such rule, and the item the first
/// mode, state, row or continuation that breaks it:
///
/// ```
/// use lexer_dfa::Table;
///
/// // Two modes and nothing else: mode 0 is not compiled, mode 1 starts at state 0, and there is none.
/// let words = [0x4C44_0001, 2, u32::MAX, 0, 0, 0, 0, 0, 0, 0, 0];
/// let refusal = Table::decode(&words).unwrap_err();
/// assert_eq!((refusal.number, refusal.place, refusal.item), (6, 1, 1));
/// assert_eq!(refusal.to_string(), "index rule 1 is broken first by mode 1");
///
/// // An escape row, and no state to which it could belong: rule 7 asks nothing of a single row.
/// let words = [0x4C44_0001, 0, 0, 0, 0, 0, 0, 1, u32::MAX, 0, 0];
/// let refusal = Table::decode(&words).unwrap_err();
/// assert_eq!((refusal.number, refusal.place, refusal.item), (6, 7, 0));
/// let text = "index rule 7 is broken: there are not as many escape rows as states";
/// assert_eq!(refusal.to_string(), text);
/// ```
#[derive(Clone, Copy, Debug, Eq, Hash, PartialEq)]
pub struct Refusal {
    /// The refusal's number, 1 to 11.
    pub number: u32,
    /// The word, byte, record or rule that it is about; what it counts is told by each call.
    pub place: usize,
    /// Of INDEX, the first item that breaks the rule, counted from 0: a mode (rule 1), a state (2 and
    /// 4), an ascii row (5), a wide row (6), an escape row (8) or a continuation (9). It is 0 for
    /// rules 3 and 7, and of every other refusal.
    pub item: u32,
}

impl Refusal {
    /// The refusal's name, as the table of refusals has it.
    pub fn name(&self) -> &'static str {
        match self.number {
            1 => "SHORT",
            2 => "TAG",
            3 => "FIELD",
            4 => "LIMIT",
            5 => "LEFT",
            6 => "INDEX",
            7 => "ROOM",
            8 => "STATE",
            9 => "NOT-TABLE",
            10 => "ORDER",
            11 => "TARGETS",
            _ => "UNKNOWN",
        }
    }

    /// The answer's own part where it was accepted (number 0), else the refusal. Of an answer that has
    /// no place, item and place are 0.
    #[inline]
    pub(crate) fn unless_accepted(number: u32, item: u32, place: usize) -> Result<(), Refusal> {
        if number == 0 {
            return Ok(());
        }
        Err(Refusal { number, place, item })
    }
}

/// Tells a person what is wrong: of a broken index rule, what breaks it.
impl fmt::Display for Refusal {
    fn fmt(&self, f: &mut fmt::Formatter<'_>) -> fmt::Result {
        let Refusal { number, place, item } = *self;
        let broken_by = match (number, place) {
            (6, 1) => "mode",
            (6, 2 | 4) => "state",
            (6, 5) => "ascii row",
            (6, 6) => "wide row",
            (6, 8) => "escape row",
            (6, 9) => "continuation",
            (6, 3) => return too_many_or_few(f, place, "runs"),
            (6, 7) => return too_many_or_few(f, place, "escape rows"),
            _ => return write!(f, "refusal {number} {} at {place}", self.name()),
        };
        write!(f, "index rule {place} is broken first by {broken_by} {item}")
    }
}

fn too_many_or_few(f: &mut fmt::Formatter<'_>, rule: usize, what: &str) -> fmt::Result {
    write!(f, "index rule {rule} is broken: there are not as many {what} as states")
}

impl std::error::Error for Refusal {}

#[cfg(test)]
mod tests {
    use super::*;

    fn text(number: u32, place: usize, item: u32) -> String {
        Refusal { number, place, item }.to_string()
    }

    #[test]
    fn a_broken_rule_is_told_with_what_breaks_it() {
        let texts = [
            (1, 0, "index rule 1 is broken first by mode 0"),
            (2, 1023, "index rule 2 is broken first by state 1023"),
            (3, 0, "index rule 3 is broken: there are not as many runs as states"),
            (4, 17, "index rule 4 is broken first by state 17"),
            (5, 126, "index rule 5 is broken first by ascii row 126"),
            (6, 8182, "index rule 6 is broken first by wide row 8182"),
            (7, 0, "index rule 7 is broken: there are not as many escape rows as states"),
            (8, 3, "index rule 8 is broken first by escape row 3"),
            (9, 4090, "index rule 9 is broken first by continuation 4090"),
        ];
        for (rule, item, told) in texts {
            assert_eq!(text(6, rule, item), told);
        }
    }

    #[test]
    fn every_other_refusal_is_told_by_number_and_place() {
        assert_eq!(text(1, 81, 0), "refusal 1 SHORT at 81");
        assert_eq!(text(4, 8192, 0), "refusal 4 LIMIT at 8192");
        // No call gives these.
        assert_eq!(text(6, 0, 0), "refusal 6 INDEX at 0");
        assert_eq!(text(6, 10, 5), "refusal 6 INDEX at 10");
        assert_eq!(text(12, 0, 0), "refusal 12 UNKNOWN at 0");
    }
}
