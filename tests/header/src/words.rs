//! Text as words: names and numbers whole, any other character by itself.

/// The words of a text, one after the other.
pub struct Words {
    words: Vec<String>,
    at: usize,
}

impl Words {
    pub fn of(text: &str) -> Words {
        let mut words: Vec<String> = Vec::new();
        let mut in_name = false;
        for character in text.chars() {
            let of_name = character.is_ascii_alphanumeric() || character == '_';
            match words.last_mut() {
                Some(word) if of_name && in_name => word.push(character),
                _ if character.is_whitespace() => {}
                _ => words.push(character.to_string()),
            }
            in_name = of_name;
        }
        Words { words, at: 0 }
    }

    pub fn is_empty(&self) -> bool {
        self.at >= self.words.len()
    }

    /// The next word, or nothing at the end.
    pub fn peek(&self) -> &str {
        self.words.get(self.at).map_or("", String::as_str)
    }

    /// Takes the next word.
    pub fn next(&mut self) -> String {
        let word = self.peek().to_string();
        self.at += 1;
        word
    }

    /// Takes these words if they come next, and says whether they did.
    pub fn take(&mut self, wanted: &[&str]) -> bool {
        let rest = self.words.get(self.at..).unwrap_or_default();
        let comes = rest.len() >= wanted.len() && rest.iter().zip(wanted).all(|(a, b)| a == b);
        if comes {
            self.at += wanted.len();
        }
        comes
    }

    /// Takes these words, which must come next.
    pub fn expect(&mut self, wanted: &[&str]) -> Result<(), String> {
        if self.take(wanted) {
            return Ok(());
        }
        let from = self.at.saturating_sub(4).min(self.words.len());
        let to = (self.at + 4).min(self.words.len());
        Err(format!(
            "expected '{}' in '{}'",
            wanted.join(" "),
            self.words[from..to].join(" ")
        ))
    }

    /// Takes a name, which must come next.
    pub fn name(&mut self) -> Result<String, String> {
        let word = self.next();
        if word.starts_with(|first: char| first.is_ascii_alphabetic() || first == '_') {
            return Ok(word);
        }
        Err(format!("expected a name, found '{word}'"))
    }

    /// Takes a number, which must come next.
    pub fn number(&mut self) -> Result<usize, String> {
        let word = self.next();
        word.parse()
            .map_err(|_| format!("expected a number, found '{word}'"))
    }
}

/// The text with a space for each comment.
pub fn without_comments(text: &str) -> String {
    let mut kept = String::new();
    let mut rest = text;
    while let Some(at) = rest.find('/') {
        let (before, from) = rest.split_at(at);
        kept.push_str(before);
        let end = if from.starts_with("//") {
            from.find('\n').unwrap_or(from.len())
        } else if from.starts_with("/*") {
            from.find("*/").map_or(from.len(), |end| end + 2)
        } else {
            kept.push('/');
            rest = &from[1..];
            continue;
        };
        kept.push(' ');
        rest = &from[end..];
    }
    kept + rest
}
