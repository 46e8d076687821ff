//! Runs: the bytes that a state skips because it loops on them.

use crate::{Refusal, ffi};
use std::fmt;

/// How a state loops on ASCII: on all of it, on all but one to three exits, on one to four
/// ranges, or in no way that a run can hold.
///
/// ```
/// use lexer_dfa::AsciiRun;
///
/// let mut row = [0; 128];
/// row[48..58].fill(7);
/// let digits = AsciiRun::classify(&row, 7)?;
/// assert_eq!(digits.words(), [261, 14640, 0]);
/// assert_eq!(digits.scan(b"10 ply"), Some(&b"10"[..]));
/// # Ok::<(), lexer_dfa::Refusal>(())
/// ```
#[derive(Clone, Copy, Eq, Hash, PartialEq)]
pub struct AsciiRun {
    /// The run's words, and 0 in the places behind them.
    words: [u32; 3],
    /// 1 or 3.
    length: usize,
}

impl AsciiRun {
    /// The run of a state whose row of 128 targets this is. A row of another length is refused
    /// with FIELD at 0.
    pub fn classify(row: &[u16], state: u16) -> Result<AsciiRun, Refusal> {
        AsciiRun::from_answer(ffi::classify(row, state))
    }

    /// The run whose words these are exactly. Anything else is refused with FIELD at 0.
    ///
    /// ```
    /// use lexer_dfa::AsciiRun;
    /// assert!(AsciiRun::from_words(&[8706]).is_ok());
    /// assert!(AsciiRun::from_words(&[8706, 0]).is_err());
    /// ```
    pub fn from_words(words: &[u32]) -> Result<AsciiRun, Refusal> {
        // The scan asks the same of its words, whatever the input.
        scan(words, &[])?;
        let mut run = AsciiRun { words: [0; 3], length: words.len() };
        run.words[..words.len()].copy_from_slice(words);
        Ok(run)
    }

    /// The run that stands at word `at`, and the place after it. Refused are words that end inside
    /// the run (SHORT at their number) and words that are no run (FIELD at `at`).
    ///
    /// ```
    /// use lexer_dfa::AsciiRun;
    /// let words = [8706, 261, 14640, 0];
    /// let (until, next) = AsciiRun::read(&words, 0)?;
    /// let (ranges, end) = AsciiRun::read(&words, next)?;
    /// assert_eq!((until.words().len(), ranges.words().len(), end), (1, 3, 4));
    /// # Ok::<(), lexer_dfa::Refusal>(())
    /// ```
    pub fn read(words: &[u32], at: usize) -> Result<(AsciiRun, usize), Refusal> {
        let run = AsciiRun::from_answer(ffi::read_run(words, at))?;
        Ok((run, at + run.length))
    }

    /// The run's words, one or three.
    pub fn words(&self) -> &[u32] {
        &self.words[..self.length]
    }

    /// The bytes at the front of the input that the run skips: a part of the input itself.
    /// Nothing where there is no run, which a run of no bytes is not.
    pub fn scan<'a>(&self, input: &'a [u8]) -> Option<&'a [u8]> {
        let scan = self.scan_length(input)?;
        Some(&input[..scan.bytes])
    }

    /// How many bytes the run skips, and whether a byte that ends it was found there.
    ///
    /// ```
    /// use lexer_dfa::AsciiRun;
    /// let until_quote = AsciiRun::from_words(&[8706])?;
    /// let scan = until_quote.scan_length(&[200, 65, 34]).unwrap();
    /// assert_eq!((scan.bytes, scan.found_exit), (2, true));
    /// # Ok::<(), lexer_dfa::Refusal>(())
    /// ```
    pub fn scan_length(&self, input: &[u8]) -> Option<AsciiRunScan> {
        // A run's own words are never refused.
        scan(self.words(), input).ok().flatten()
    }

    pub(crate) fn from_answer(answer: ffi::RunAnswer) -> Result<AsciiRun, Refusal> {
        Refusal::unless_accepted(answer.number, answer.item, answer.place)?;
        Ok(AsciiRun { words: [answer.first, answer.second, answer.third], length: answer.length })
    }
}

impl fmt::Debug for AsciiRun {
    fn fmt(&self, f: &mut fmt::Formatter<'_>) -> fmt::Result {
        f.debug_tuple("AsciiRun").field(&self.words()).finish()
    }
}

/// How far a run goes in an input.
#[derive(Clone, Copy, Debug, Eq, Hash, PartialEq)]
pub struct AsciiRunScan {
    /// The bytes that are skipped.
    pub bytes: usize,
    /// Whether the run stops at a byte, and not because the input ends.
    pub found_exit: bool,
}

/// Scans with the run whose words these are, as [`AsciiRun::scan_length`] does. Words that are not
/// exactly one run's are refused with FIELD at 0.
///
/// ```
/// assert_eq!(lexer_dfa::scan(&[0], b"10 ply"), Ok(None));
/// assert_eq!(lexer_dfa::scan(&[6], b"10 ply").unwrap_err().name(), "FIELD");
/// ```
pub fn scan(words: &[u32], input: &[u8]) -> Result<Option<AsciiRunScan>, Refusal> {
    let answer = ffi::scan(words, input);
    Refusal::unless_accepted(answer.number, answer.item, answer.place)?;
    let scan = AsciiRunScan { bytes: answer.bytes, found_exit: answer.found_exit != 0 };
    Ok((answer.ran != 0).then_some(scan))
}
