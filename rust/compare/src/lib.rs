//! What the tests, the recorder and the benchmark share.

pub mod lists;
#[cfg(not(no_oracle))]
pub mod original;
pub mod plain;
#[cfg(not(no_oracle))]
pub mod sample;
pub mod samples;
pub mod seeded;
pub mod tables;

/// Said wherever something needs the original and it is not at hand.
pub fn no_original() -> String {
    format!(
        "the original is not in {} (LEXER_DFA_SRC names another folder docs/src)",
        oracle::FOLDER
    )
}
