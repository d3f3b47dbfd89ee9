//! The tokens of a file.

#[derive(Clone, Copy, PartialEq, Debug)]
pub enum Kind {
    LineEnd,
    Identifier,
    Word(Word),
    Integer,
    Text,
    Mark(u8),
    Pair([u8; 2]),
}

#[derive(Clone, Copy, PartialEq, Debug)]
pub enum Word {
    True,
    False,
    If,
    Elif,
    Else,
    Endif,
    Foreach,
    Endforeach,
    And,
    Or,
    Not,
    In,
    Break,
    Continue,
}

#[derive(Clone, Copy)]
pub struct Span {
    pub from: usize,
    pub to: usize,
}

#[derive(Clone, Copy)]
pub struct Token {
    pub kind: Kind,
    pub span: Span,
}

fn word(text: &[u8]) -> Kind {
    Kind::Word(match text {
        b"true" => Word::True,
        b"false" => Word::False,
        b"if" => Word::If,
        b"elif" => Word::Elif,
        b"else" => Word::Else,
        b"endif" => Word::Endif,
        b"foreach" => Word::Foreach,
        b"endforeach" => Word::Endforeach,
        b"and" => Word::And,
        b"or" => Word::Or,
        b"not" => Word::Not,
        b"in" => Word::In,
        b"break" => Word::Break,
        b"continue" => Word::Continue,
        _ => return Kind::Identifier,
    })
}

fn is_name(byte: u8) -> bool {
    byte.is_ascii_alphanumeric() || byte == b'_'
}

/// The end of the string whose quotes begin at `at`.
fn string_end(source: &[u8], at: usize) -> Result<usize, usize> {
    if source[at..].starts_with(b"'''") {
        let mut i = at + 3;
        while i < source.len() {
            if source[i..].starts_with(b"'''") {
                return Ok(i + 3);
            }
            i += 1;
        }
        return Err(at);
    }
    let mut i = at + 1;
    while i < source.len() {
        match source[i] {
            b'\\' => i += 2,
            b'\'' => return Ok(i + 1),
            _ => i += 1,
        }
    }
    Err(at)
}

pub fn tokens(source: &[u8]) -> Result<Vec<Token>, usize> {
    let mut found: Vec<Token> = Vec::new();
    let mut brackets = 0usize;
    let mut i = 0;
    while i < source.len() {
        let from = i;
        let kind = match source[i] {
            b' ' | b'\t' => {
                i += 1;
                continue;
            }
            b'\r' if source.get(i + 1) == Some(&b'\n') => {
                i += 1;
                continue;
            }
            b'#' => {
                while i < source.len() && source[i] != b'\n' {
                    i += 1;
                }
                continue;
            }
            b'\\' if source.get(i + 1) == Some(&b'\n') => {
                i += 2;
                continue;
            }
            b'\n' => {
                i += 1;
                let repeated = found.last().map_or(true, |t| t.kind == Kind::LineEnd);
                if brackets > 0 || repeated {
                    continue;
                }
                Kind::LineEnd
            }
            b'\'' => {
                i = string_end(source, i)?;
                Kind::Text
            }
            b'f' if source.get(i + 1) == Some(&b'\'') => {
                i = string_end(source, i + 1)?;
                Kind::Text
            }
            b'0'..=b'9' => {
                while i < source.len() && is_name(source[i]) {
                    i += 1;
                }
                Kind::Integer
            }
            b if is_name(b) => {
                while i < source.len() && is_name(source[i]) {
                    i += 1;
                }
                word(&source[from..i])
            }
            b @ (b'=' | b'+' | b'<' | b'>' | b'!') if source.get(i + 1) == Some(&b'=') => {
                i += 2;
                Kind::Pair([b, b'='])
            }
            b if b"()[]{},.:?+-*/%=<>".contains(&b) => {
                i += 1;
                match b {
                    b'(' | b'[' | b'{' => brackets += 1,
                    b')' | b']' | b'}' => brackets = brackets.saturating_sub(1),
                    _ => {}
                }
                Kind::Mark(b)
            }
            _ => return Err(i),
        };
        found.push(Token {
            kind,
            span: Span { from, to: i },
        });
    }
    if found.last().map_or(false, |t| t.kind != Kind::LineEnd) {
        let end = Span {
            from: source.len(),
            to: source.len(),
        };
        found.push(Token {
            kind: Kind::LineEnd,
            span: end,
        });
    }
    Ok(found)
}
