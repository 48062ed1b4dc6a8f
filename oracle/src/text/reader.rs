//! The reader of questions. Text is read from the left and the first fault met is told.

use crate::terms::*;

/// Reads a question; `Err` has the refusal's number and place.
pub fn read(text: &[u8]) -> Result<Question, Refusal> {
    let mut reader = Reader {
        text,
        at: 0,
        question: Question {
            unknowns: 0,
            arities: Vec::new(),
            equations: 0,
            words: Vec::new(),
        },
    };
    reader.question()?;
    Ok(reader.question)
}

/// The reader as it is lent buffers: 7 comes last, the arities' buffer first.
pub fn read_into(text: &[u8], arities: usize, words: usize) -> Result<Question, Refusal> {
    let question = read(text)?;
    if question.arities.len() > arities {
        return refuse(7, question.arities.len());
    }
    if question.words.len() > words {
        return refuse(7, question.words.len());
    }
    Ok(question)
}

struct Reader<'a> {
    text: &'a [u8],
    at: usize,
    question: Question,
}

impl Reader<'_> {
    fn byte(&self, at: usize) -> Option<u8> {
        self.text.get(at).copied()
    }

    fn next(&self) -> Option<u8> {
        self.byte(self.at)
    }

    fn question(&mut self) -> Result<(), Refusal> {
        self.key("edition=")?;
        let place = self.at;
        if self.number(u64::MAX)? != 1 {
            return refuse(3, place);
        }
        self.key("\nunknowns=")?;
        self.question.unknowns = self.number(MOST_UNKNOWNS)?;
        self.key("\narities=")?;
        self.arities()?;
        self.key("\nequations=")?;
        self.question.equations = self.number(MOST_EQUATIONS)?;
        self.key("\n")?;
        for _ in 0..self.question.equations {
            self.key("left=")?;
            self.term(0)?;
            self.key("\nright=")?;
            self.term(0)?;
            self.key("\n")?;
        }
        if self.at < self.text.len() {
            return refuse(1, self.at);
        }
        Ok(())
    }

    /// The fixed bytes that are due here.
    fn key(&mut self, key: &str) -> Result<(), Refusal> {
        for due in key.bytes() {
            if self.next() != Some(due) {
                return refuse(1, self.at);
            }
            self.at += 1;
        }
        Ok(())
    }

    /// A number: 2 if missing or with a leading zero, 3 if it has more than five digits or is above `most`.
    fn number(&mut self, most: u64) -> Result<u64, Refusal> {
        let start = self.at;
        let mut end = start;
        while self.byte(end).is_some_and(|b| b.is_ascii_digit()) {
            end += 1;
        }
        let digits = &self.text[start..end];
        if digits.is_empty() || (digits.len() > 1 && digits[0] == b'0') {
            return refuse(2, start);
        }
        if digits.len() > 5 {
            return refuse(3, start);
        }
        let value = digits
            .iter()
            .fold(0, |value, digit| 10 * value + u64::from(digit - b'0'));
        if value > most {
            return refuse(3, start);
        }
        self.at = end;
        Ok(value)
    }

    /// Numbers with commas between; nothing if the line ends at once. The 257th is refused before it is read.
    fn arities(&mut self) -> Result<(), Refusal> {
        if self.next() == Some(b'\n') {
            return Ok(());
        }
        loop {
            if self.question.arities.len() == MOST_FUNCTORS {
                return refuse(3, self.at);
            }
            let arity = self.number(MOST_ARITY)?;
            self.question.arities.push(arity as u8);
            if self.next() != Some(b',') {
                return Ok(());
            }
            self.at += 1;
        }
    }

    /// Writes a symbol's word; the 4,097th is 3 at the place that the symbol counts at.
    fn symbol(&mut self, word: u16, place: usize) -> Result<(), Refusal> {
        if self.question.words.len() == MOST_SYMBOLS {
            return refuse(3, place);
        }
        self.question.words.push(word);
        Ok(())
    }

    /// A term inside `open` brackets. A byte that begins none is 1, whatever else is wrong here.
    fn term(&mut self, open: usize) -> Result<(), Refusal> {
        match self.next() {
            Some(b'x') => self.unknown(),
            Some(b'f') => self.functor(open),
            Some(b'{') => self.set(open),
            _ => refuse(1, self.at),
        }
    }

    fn unknown(&mut self) -> Result<(), Refusal> {
        let letter = self.at;
        self.symbol(UNKNOWN, letter)?;
        self.at += 1;
        let number = self.number(u64::MAX)?;
        if number >= self.question.unknowns {
            return refuse(4, letter);
        }
        self.name_last(number);
        Ok(())
    }

    fn functor(&mut self, open: usize) -> Result<(), Refusal> {
        let letter = self.at;
        self.symbol(FUNCTOR, letter)?;
        self.at += 1;
        let number = self.number(u64::MAX)?;
        let Some(&arity) = self.question.arities.get(number as usize) else {
            return refuse(4, letter);
        };
        self.name_last(number);
        if (self.next() == Some(b'(')) != (arity > 0) {
            return refuse(5, self.at);
        }
        if arity == 0 {
            return Ok(());
        }
        if open == MOST_NESTING {
            return refuse(6, self.at);
        }
        self.at += 1;
        for argument in 1..=arity {
            self.term(open + 1)?;
            let (due, wrong) = if argument < arity {
                (b',', b')')
            } else {
                (b')', b',')
            };
            match self.next() {
                Some(byte) if byte == due => self.at += 1,
                Some(byte) if byte == wrong => return refuse(5, self.at),
                _ => return refuse(1, self.at),
            }
        }
        Ok(())
    }

    /// Adds the number to the word of the symbol that was counted last.
    fn name_last(&mut self, number: u64) {
        if let Some(word) = self.question.words.last_mut() {
            *word += number as u16;
        }
    }

    fn set(&mut self, open: usize) -> Result<(), Refusal> {
        if self.byte(self.at + 1) == Some(b'}') {
            self.at += 1;
            return self.empty();
        }
        if open == MOST_NESTING {
            return refuse(6, self.at);
        }
        loop {
            // Past `{` or a comma: a member is due, and its adding counts at its first byte.
            self.at += 1;
            if !matches!(self.next(), Some(b'x' | b'f' | b'{')) {
                return refuse(1, self.at);
            }
            self.symbol(WITH, self.at)?;
            self.term(open + 1)?;
            match self.next() {
                Some(b',') => {}
                Some(b'|') => {
                    self.at += 1;
                    return self.tail(open);
                }
                Some(b'}') => return self.empty(),
                _ => return refuse(1, self.at),
            }
        }
    }

    /// An empty set, which counts at its `}`.
    fn empty(&mut self) -> Result<(), Refusal> {
        self.symbol(EMPTY, self.at)?;
        self.at += 1;
        Ok(())
    }

    fn tail(&mut self, open: usize) -> Result<(), Refusal> {
        if self.next() == Some(b'{') {
            return refuse(1, self.at);
        }
        self.term(open + 1)?;
        self.key("}")
    }
}
