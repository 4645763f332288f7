// The words of the line protocol (docs/PROTOCOL.md): read from a line, and written into an answer.

/// Why a line is no command.
pub type Fault = String;

/// The words of one line that are still to be read.
pub struct Words<'a>(std::str::Split<'a, char>);

impl<'a> Words<'a> {
    pub fn of(line: &'a str) -> Self {
        Words(line.split(' '))
    }

    pub fn word(&mut self) -> Result<&'a str, Fault> {
        self.0.next().ok_or_else(|| "a word is missing".to_string())
    }

    pub fn expect(&mut self, word: &str) -> Result<(), Fault> {
        match self.word()? {
            w if w == word => Ok(()),
            w => Err(format!("{word} expected, not {w}")),
        }
    }

    pub fn end(&mut self) -> Result<(), Fault> {
        self.0
            .next()
            .map_or(Ok(()), |w| Err(format!("a word too many: {w}")))
    }

    /// A tag or a name: `.` or two hexadecimal digits a byte.
    pub fn tag(&mut self) -> Result<String, Fault> {
        tag(self.word()?)
    }

    /// A tag, or `-` for none.
    pub fn tag_or_none(&mut self) -> Result<Option<String>, Fault> {
        match self.word()? {
            "-" => Ok(None),
            word => tag(word).map(Some),
        }
    }

    /// An index or a count.
    pub fn decimal(&mut self) -> Result<usize, Fault> {
        let word = self.word()?;
        let digits = word.bytes().all(|b| b.is_ascii_digit());
        let number = if digits { word.parse().ok() } else { None };
        number.ok_or_else(|| format!("not a decimal number: {word}"))
    }

    /// The 64 bits of a number; every NaN is the one NaN.
    pub fn number(&mut self) -> Result<f64, Fault> {
        let word = self.word()?;
        let digits = word.len() == 16 && word.bytes().all(|b| b.is_ascii_hexdigit());
        let bits = if digits {
            u64::from_str_radix(word, 16).ok()
        } else {
            None
        };
        let number = bits.map(|bits| one_nan(f64::from_bits(bits)));
        number.ok_or_else(|| format!("not 16 hexadecimal digits: {word}"))
    }

    pub fn numbers(&mut self, count: usize) -> Result<Vec<f64>, Fault> {
        (0..count).map(|_| self.number()).collect()
    }

    pub fn tags(&mut self, count: usize) -> Result<Vec<String>, Fault> {
        (0..count).map(|_| self.tag()).collect()
    }
}

fn tag(word: &str) -> Result<String, Fault> {
    let digits = if word == "." { "" } else { word };
    let fault = || format!("not a tag: {word}");
    if (digits.is_empty() && word != ".") || digits.len() % 2 != 0 {
        return Err(fault());
    }
    let nibble = |b: u8| (b as char).to_digit(16).map(|d| d as u8).ok_or_else(fault);
    let byte = |pair: &[u8]| Ok(nibble(pair[0])? << 4 | nibble(pair[1])?);
    let bytes: Result<Vec<u8>, Fault> = digits.as_bytes().chunks(2).map(byte).collect();
    String::from_utf8(bytes?).map_err(|_| "not UTF-8".to_string())
}

fn one_nan(number: f64) -> f64 {
    if number.is_nan() {
        f64::from_bits(0x7ff8_0000_0000_0000)
    } else {
        number
    }
}

pub fn tag_word(tag: &str) -> String {
    if tag.is_empty() {
        ".".to_string()
    } else {
        tag.bytes().map(|b| format!("{b:02x}")).collect()
    }
}

pub fn number_word(number: f64) -> String {
    format!("{:016x}", one_nan(number).to_bits())
}
