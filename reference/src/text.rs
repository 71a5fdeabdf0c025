//! Document 01's rules for the texts that later requests read: words, spaces, line ends and numbers.

/// The largest number in a text, and the most bytes that a text has.
pub const MOST: usize = 2_147_483_647;

/// A text as it is read from the left; each part is judged before what follows it. The error of each function is
/// the fault's place, which is the length where the text ends too early.
pub struct Text<'a> {
    bytes: &'a [u8],
    at: usize,
}

impl<'a> Text<'a> {
    pub fn new(bytes: &'a [u8]) -> Text<'a> {
        Text { bytes, at: 0 }
    }

    /// Where the next part begins.
    pub fn place(&self) -> usize {
        self.at
    }

    /// What stands up to the next space, newline or end. Every other byte is part of a word.
    fn word(&mut self) -> Result<&'a [u8], usize> {
        let rest = &self.bytes[self.at..];
        let length = rest.iter().position(|&byte| byte == b' ' || byte == b'\n').unwrap_or(rest.len());
        if length == 0 {
            return Err(self.at);
        }
        self.at += length;
        Ok(&rest[..length])
    }

    /// This word and no other.
    pub fn exactly(&mut self, wanted: &[u8]) -> Result<(), usize> {
        let place = self.at;
        if self.word()? == wanted {
            Ok(())
        } else {
            Err(place)
        }
    }

    /// A number that is right where it stands.
    pub fn number(&mut self, right: impl Fn(usize) -> bool) -> Result<usize, usize> {
        let place = self.at;
        value(self.word()?).filter(|&number| right(number)).ok_or(place)
    }

    pub fn space(&mut self) -> Result<(), usize> {
        self.byte(b' ')
    }

    pub fn line_end(&mut self) -> Result<(), usize> {
        self.byte(b'\n')
    }

    pub fn at_space(&self) -> bool {
        self.bytes.get(self.at) == Some(&b' ')
    }

    fn byte(&mut self, due: u8) -> Result<(), usize> {
        if self.bytes.get(self.at) != Some(&due) {
            return Err(self.at);
        }
        self.at += 1;
        Ok(())
    }
}

/// The number that a word is: digits without a leading zero, at most the largest.
fn value(word: &[u8]) -> Option<usize> {
    if word.len() > 1 && word[0] == b'0' {
        return None;
    }
    let mut number = 0;
    for byte in word {
        if !byte.is_ascii_digit() {
            return None;
        }
        number = 10 * number + usize::from(byte - b'0');
        if number > MOST {
            return None;
        }
    }
    Some(number)
}
