//! A small reading of the rules page for the generator's tests: which refusal a file gets.

/// What a file comes to: its tokens and greatest depth, or its refusal.
pub type Outcome = Result<Size, u32>;

/// How large an accepted file is.
#[derive(Clone, Copy, Debug, PartialEq, Eq)]
pub struct Size {
    pub tokens: usize,
    pub depth: usize,
}

/// Reads a file by the rules, from refusal 2 on.
pub fn outcome(source: &[u8], jets: &[u8]) -> Outcome {
    if source.len() > 32_768 {
        return Err(2);
    }
    let text = std::str::from_utf8(source).map_err(|_| 3u32)?;
    let tokens = tokens(text)?;
    let mut parser = Parser {
        tokens: &tokens,
        at: 0,
        jets,
        deepest: 0,
    };
    while parser.at < tokens.len() {
        parser.line()?;
    }
    Ok(Size {
        tokens: tokens.len(),
        depth: parser.deepest,
    })
}

/// The tokens of a text.
fn tokens(text: &str) -> Result<Vec<&str>, u32> {
    let (mut found, mut rest) = (Vec::new(), text);
    loop {
        rest = rest.trim_start_matches([' ', '\t', '\r', '\n']);
        if rest.is_empty() {
            return Ok(found);
        }
        if rest.starts_with("--") {
            rest = rest.find('\n').map_or("", |end| &rest[end..]);
            continue;
        }
        let length = token_length(rest).ok_or(4u32)?;
        if found.len() == 1024 {
            return Err(5);
        }
        found.push(&rest[..length]);
        rest = &rest[length..];
    }
}

/// How long the token is that a text begins with.
fn token_length(text: &str) -> Option<usize> {
    let run = |from: usize, set: fn(char) -> bool| {
        let tail = &text[from..];
        tail.find(|next| !set(next)).unwrap_or(tail.len())
    };
    for two in [":=", "->", "#{"] {
        if text.starts_with(two) {
            return Some(2);
        }
    }
    let more = |front: usize, digits: usize| (digits > 0).then_some(front + digits);
    match text.as_bytes()[0] {
        b'(' | b')' | b'+' | b'*' | b':' | b'}' | b'?' | b'1' => Some(1),
        b'2' if text.starts_with("2^") && matches!(text.as_bytes().get(2), Some(b'1'..=b'9')) => {
            more(2, run(2, |next| next.is_ascii_digit()))
        }
        b'2' => Some(1),
        b'0' if text.starts_with("0b") => more(2, run(2, |next| matches!(next, '0' | '1'))),
        b'0' if text.starts_with("0x") => {
            more(2, run(2, |next| matches!(next, '0'..='9' | 'a'..='f')))
        }
        b'#' => (run(1, |next| next.is_ascii_hexdigit()) >= 64).then_some(65),
        first if first.is_ascii_digit() => None,
        _ => more(0, run(0, is_symbol)),
    }
}

fn is_symbol(next: char) -> bool {
    next.is_ascii_alphanumeric() || matches!(next, '_' | '-' | '.' | '\'')
}

fn is_jet(token: &str) -> bool {
    token.strip_prefix("jet_").is_some_and(|name| {
        !name.is_empty()
            && name
                .chars()
                .all(|next| matches!(next, 'a'..='z' | '0'..='9' | '_'))
    })
}

struct Parser<'a> {
    tokens: &'a [&'a str],
    at: usize,
    jets: &'a [u8],
    deepest: usize,
}

impl<'a> Parser<'a> {
    fn next(&mut self) -> &'a str {
        let token = self.tokens.get(self.at).copied().unwrap_or("");
        self.at += 1;
        token
    }

    fn eat(&mut self, wanted: &str) -> bool {
        let found = self.tokens.get(self.at) == Some(&wanted);
        self.at += usize::from(found);
        found
    }

    fn expect(&mut self, wanted: &str) -> Result<(), u32> {
        self.eat(wanted).then_some(()).ok_or(6)
    }

    fn name(&mut self) -> Result<(), u32> {
        self.next_is_name().then_some(()).ok_or(6)
    }

    fn next_is_name(&mut self) -> bool {
        let token = self.next();
        let symbol = token.starts_with(|first: char| is_symbol(first) && !first.is_ascii_digit());
        symbol && token != "->" && !super::vocabulary::KEYWORDS.contains(&token) && !is_jet(token)
    }

    fn line(&mut self) -> Result<(), u32> {
        self.name()?;
        if self.eat(":=") {
            self.expression(1)?;
            if !self.eat(":") {
                return Ok(());
            }
        } else {
            self.expect(":")?;
        }
        self.types(1)?;
        self.expect("->")?;
        self.types(1)
    }

    fn deepen(&mut self, depth: usize) -> Result<(), u32> {
        self.deepest = self.deepest.max(depth);
        (depth <= 128).then_some(()).ok_or(13)
    }

    fn expression(&mut self, depth: usize) -> Result<(), u32> {
        self.deepen(depth)?;
        match self.next() {
            "(" => {
                self.expression(depth + 1)?;
                self.expect(")")
            }
            "unit" | "iden" | "witness" => Ok(()),
            "?" => self.name(),
            "const" => self.literal().and_then(word_length),
            "fail" => self.literal().and_then(entropy_length),
            "injl" | "injr" | "take" | "drop" => self.expression(depth + 1),
            "case" | "comp" | "pair" | "disconnect" => {
                self.expression(depth + 1)?;
                self.expression(depth + 1)
            }
            "assertl" => {
                self.expression(depth + 1)?;
                self.cmr(depth)
            }
            "assertr" => {
                self.cmr(depth)?;
                self.expression(depth + 1)
            }
            jet if is_jet(jet) => self.known(&jet[4..]),
            _ => {
                self.at -= 1;
                self.name()
            }
        }
    }

    fn known(&self, jet: &str) -> Result<(), u32> {
        let mut pieces = self.jets.split(|&byte| byte == b'\n');
        pieces
            .any(|piece| piece == jet.as_bytes())
            .then_some(())
            .ok_or(10)
    }

    fn cmr(&mut self, depth: usize) -> Result<(), u32> {
        if self.eat("#{") {
            self.expression(depth + 1)?;
            return self.expect("}");
        }
        self.next().starts_with('#').then_some(()).ok_or(6)
    }

    /// The bit length of a literal.
    fn literal(&mut self) -> Result<usize, u32> {
        match self.next() {
            "_" => Ok(0),
            binary if binary.starts_with("0b") => Ok(binary.len() - 2),
            hex if hex.starts_with("0x") => Ok((hex.len() - 2) * 4),
            _ => Err(6),
        }
    }

    fn types(&mut self, depth: usize) -> Result<(), u32> {
        self.deepen(depth)?;
        self.atom(depth)?;
        while self.eat("+") || self.eat("*") {
            self.atom(depth)?;
        }
        Ok(())
    }

    fn atom(&mut self, depth: usize) -> Result<(), u32> {
        match self.next() {
            "1" | "2" => Ok(()),
            "(" => {
                self.types(depth + 1)?;
                self.expect(")")
            }
            power if power.starts_with("2^") => match power[2..].parse::<u32>() {
                Ok(exponent) if exponent.is_power_of_two() && exponent <= 512 => Ok(()),
                Ok(_) => Err(11),
                Err(_) => Err(12),
            },
            _ => {
                self.at -= 1;
                self.name()
            }
        }
    }
}

fn word_length(bits: usize) -> Result<(), u32> {
    bits.is_power_of_two().then_some(()).ok_or(7)
}

fn entropy_length(bits: usize) -> Result<(), u32> {
    match bits {
        0..=127 => Err(8),
        128..=512 => Ok(()),
        _ => Err(9),
    }
}
