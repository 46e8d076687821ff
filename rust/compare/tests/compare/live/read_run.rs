//! Runs read from words, by the original.

use crate::telling;
use lexer_dfa::AsciiRun;

/// The original accepts the same words, and writes the run as we do: with the words it had.
pub fn telling_words() -> usize {
    telling::each_three(|words| {
        let ours = AsciiRun::read(words, 0);
        let theirs = oracle::read_run(words);
        let ours_read = ours.as_ref().ok().map(|(run, next)| (run.words(), *next));
        let theirs_written = theirs.map(|(run, read)| (oracle::run_words(run), read));
        let theirs_written = theirs_written.as_ref().map(|(words, read)| (&words[..], *read));
        assert_eq!(ours_read, theirs_written, "{words:?}");
    })
}
