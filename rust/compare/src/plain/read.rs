//! The words in order: a table and where its parts stand, or SHORT, TAG, FIELD or LEFT.

use super::table::{Accept, Config, Continuation, EscapeRow, NONE, Range, State, TAG, Table};
use super::{field, read_run, refusal, short};
use lexer_dfa::Refusal;

/// A table that was read, and the places of its words that the room asks for.
pub struct Read {
    pub table: Table,
    /// The count word of each section.
    pub sections: Vec<usize>,
    /// The first word of each record of variable length.
    pub records: Vec<usize>,
    pub flags: Vec<usize>,
}

pub fn read(words: &[u32]) -> Result<Read, Refusal> {
    let mut reader =
        Reader { words, at: 0, sections: Vec::new(), records: Vec::new(), flags: Vec::new() };
    if reader.word()? != TAG {
        return refusal(2, 0);
    }
    let table = Table {
        modes: reader.section(Reader::mode)?,
        states: reader.section(Reader::state)?,
        runs: reader.section_of_records(Reader::run)?,
        ascii_rows: reader.section(Reader::ascii_row)?,
        wide_rows: reader.section_of_records(Reader::wide_row)?,
        accepts: reader.section_of_records(Reader::accept)?,
        escape_rows: reader.section_of_records(Reader::escape_row)?,
        continuations: reader.section_of_records(Reader::continuation)?,
    };
    if reader.at < words.len() {
        return refusal(5, reader.at);
    }
    let Reader { sections, records, flags, .. } = reader;
    Ok(Read { table, sections, records, flags })
}

struct Reader<'a> {
    words: &'a [u32],
    /// The next word's place.
    at: usize,
    sections: Vec<usize>,
    records: Vec<usize>,
    flags: Vec<usize>,
}

type Reading<T> = Result<T, Refusal>;

impl Reader<'_> {
    fn word(&mut self) -> Reading<u32> {
        let Some(&word) = self.words.get(self.at) else {
            return short(self.words);
        };
        self.at += 1;
        Ok(word)
    }

    fn three_words(&mut self) -> Reading<[u32; 3]> {
        Ok([self.word()?, self.word()?, self.word()?])
    }

    /// A target is at most 65535.
    fn target(&mut self) -> Reading<u32> {
        let at = self.at;
        let target = self.word()?;
        if target <= 65535 { Ok(target) } else { field(at) }
    }

    fn flag(&mut self) -> Reading<u32> {
        self.flags.push(self.at);
        self.word()
    }

    /// A count, then that many. A count has no limit of its own: the words end before it does.
    fn list<T>(&mut self, item: impl Fn(&mut Self) -> Reading<T>) -> Reading<Vec<T>> {
        let count = self.word()?;
        (0..count).map(|_| item(self)).collect()
    }

    fn section<T>(&mut self, item: impl Fn(&mut Self) -> Reading<T>) -> Reading<Vec<T>> {
        self.sections.push(self.at);
        self.list(item)
    }

    fn section_of_records<T>(
        &mut self,
        record: impl Fn(&mut Self) -> Reading<T>,
    ) -> Reading<Vec<T>> {
        self.section(|reader| {
            reader.records.push(reader.at);
            record(reader)
        })
    }

    fn mode(&mut self) -> Reading<u32> {
        let at = self.at;
        let start = self.word()?;
        if start <= 65535 || start == NONE { Ok(start) } else { field(at) }
    }

    fn state(&mut self) -> Reading<State> {
        Ok(State {
            ascii_row: self.word()?,
            wide_row: self.word()?,
            eof_target: self.target()?,
            accept: self.word()?,
        })
    }

    fn run(&mut self) -> Reading<Vec<u32>> {
        let length = read_run(self.words, self.at)?;
        let run = &self.words[self.at..self.at + length];
        self.at += length;
        Ok(run.to_vec())
    }

    /// 64 words, the even symbol in the low half.
    fn ascii_row(&mut self) -> Reading<Vec<u16>> {
        let mut row = Vec::new();
        for _ in 0..64 {
            let word = self.word()?;
            row.extend([(word & 65535) as u16, (word >> 16) as u16]);
        }
        Ok(row)
    }

    fn wide_row(&mut self) -> Reading<Vec<Range>> {
        self.list(|reader| {
            Ok(Range { low: reader.word()?, high: reader.word()?, to: reader.target()? })
        })
    }

    fn accept(&mut self) -> Reading<Accept> {
        Ok(Accept {
            rule: self.word()?,
            consumed_eof: self.flag()?,
            actions: self.list(Reader::three_words)?,
        })
    }

    fn escape_row(&mut self) -> Reading<EscapeRow> {
        let range = |reader: &mut Self| {
            Ok(Range { low: reader.word()?, high: reader.word()?, to: reader.word()? })
        };
        Ok(EscapeRow { eof: self.word()?, ranges: self.list(range)? })
    }

    fn continuation(&mut self) -> Reading<Continuation> {
        Ok(Continuation {
            contexts: self.list(Reader::context)?,
            configs: self.list(Reader::config)?,
        })
    }

    /// A context reads its three words before FIELD, at the first of them.
    fn context(&mut self) -> Reading<[u32; 3]> {
        let at = self.at;
        let context = self.three_words()?;
        if context[0] <= 1 { Ok(context) } else { field(at) }
    }

    fn config(&mut self) -> Reading<Config> {
        Ok(Config {
            state: self.word()?,
            alternative: self.word()?,
            flags: [self.flag()?, self.flag()?],
            context: self.word()?,
            actions: self.list(Reader::three_words)?,
        })
    }
}
