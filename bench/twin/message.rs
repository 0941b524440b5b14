// The words of a message: runs in small letters, aliases applied once, fillers left out.
use super::sheet::Sheet;

pub struct Words<'a> {
    sheet: &'a Sheet,
    message: &'a [u8],
    at: usize,
}

fn is_allowed(b: u8) -> bool {
    b.is_ascii_alphanumeric() || b == b'-'
}

impl<'a> Words<'a> {
    pub fn of(sheet: &'a Sheet, message: &'a [u8]) -> Self {
        Words { sheet, message, at: 0 }
    }

    fn run(&mut self) -> Option<&'a [u8]> {
        let rest = &self.message[self.at..];
        let start = rest.iter().position(|b| *b != b' ')?;
        let run = &rest[start..];
        let len = run.iter().position(|b| *b == b' ').unwrap_or(run.len());
        self.at += start + len;
        Some(&run[..len])
    }

    fn word(&self, run: &[u8]) -> Result<u8, u8> {
        if !run.iter().all(|b| is_allowed(*b)) {
            return Err(8);
        }
        if run.len() > 15 {
            return Err(9);
        }
        let word =
            self.sheet.words.iter().position(|word| word.as_bytes().eq_ignore_ascii_case(run)).ok_or(10u8)? as u8;
        let meant = self.sheet.aliases.iter().find(|(said, _)| *said == word);
        Ok(meant.map_or(word, |(_, meant)| *meant))
    }
}

impl Iterator for Words<'_> {
    type Item = Result<u8, u8>;

    fn next(&mut self) -> Option<Self::Item> {
        loop {
            let run = self.run()?;
            match self.word(run) {
                Ok(word) if self.sheet.fillers >> word & 1 == 1 => continue,
                answer => return Some(answer),
            }
        }
    }
}
