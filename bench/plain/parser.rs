//! The parser, rule by rule.

use crate::tokens::{tokens, Kind, Span, Token, Word};
use crate::tree::{span, Arg, Expr, List, Stmt, Tail};

struct Parser<'t> {
    tokens: &'t [Token],
    at: usize,
    depth: usize,
}

/// The operators of each level, loosest first.
fn is_operator(level: usize, kind: Kind) -> bool {
    match level {
        0 => kind == Kind::Word(Word::Or),
        1 => kind == Kind::Word(Word::And),
        2 => matches!(kind, Kind::Pair([b'=' | b'!', _])),
        3 => matches!(
            kind,
            Kind::Mark(b'<' | b'>')
                | Kind::Pair([b'<' | b'>', _])
                | Kind::Word(Word::In | Word::Not)
        ),
        4 => matches!(kind, Kind::Mark(b'+' | b'-')),
        _ => matches!(kind, Kind::Mark(b'*' | b'/' | b'%')),
    }
}

impl Parser<'_> {
    fn peek(&self) -> Option<Kind> {
        self.tokens.get(self.at).map(|t| t.kind)
    }

    fn fault<T>(&self) -> Result<T, usize> {
        Err(self.tokens.get(self.at).map_or(usize::MAX, |t| t.span.from))
    }

    fn eat(&mut self, kind: Kind) -> Option<Span> {
        match self.tokens.get(self.at) {
            Some(t) if t.kind == kind => {
                self.at += 1;
                Some(t.span)
            }
            _ => None,
        }
    }

    fn want(&mut self, kind: Kind) -> Result<Span, usize> {
        match self.eat(kind) {
            Some(span) => Ok(span),
            None => self.fault(),
        }
    }

    fn deeper<T>(&mut self, read: impl FnOnce(&mut Self) -> Result<T, usize>) -> Result<T, usize> {
        if self.depth == 64 {
            return self.fault();
        }
        self.depth += 1;
        let read = read(self)?;
        self.depth -= 1;
        Ok(read)
    }

    fn expression(&mut self) -> Result<Expr, usize> {
        let condition = self.row(0)?;
        if self.peek() != Some(Kind::Mark(b'?')) {
            return Ok(condition);
        }
        let (yes, no) = self.deeper(|p| {
            p.at += 1;
            let yes = p.expression()?;
            p.want(Kind::Mark(b':'))?;
            Ok((yes, p.expression()?))
        })?;
        let whole = Span {
            from: span(&condition).from,
            to: span(&no).to,
        };
        Ok(Expr::Conditional(whole, Box::new((condition, yes, no))))
    }

    fn row(&mut self, level: usize) -> Result<Expr, usize> {
        if level == 6 {
            return self.unary();
        }
        let first = self.row(level + 1)?;
        match self.peek() {
            Some(kind) if is_operator(level, kind) => {}
            _ => return Ok(first),
        }
        let mut rest = Vec::new();
        let mut to = 0;
        while let Some(kind) = self.peek() {
            if !is_operator(level, kind) {
                break;
            }
            self.at += 1;
            if kind == Kind::Word(Word::Not) {
                self.want(Kind::Word(Word::In))?;
            }
            let operand = self.row(level + 1)?;
            to = span(&operand).to;
            rest.push((kind, operand));
        }
        Ok(Expr::Row(
            Span {
                from: span(&first).from,
                to,
            },
            Box::new(first),
            rest,
        ))
    }

    fn unary(&mut self) -> Result<Expr, usize> {
        match self.peek() {
            Some(kind @ (Kind::Word(Word::Not) | Kind::Mark(b'-'))) => {
                let from = self.tokens[self.at].span.from;
                self.at += 1;
                let operand = self.postfix()?;
                Ok(Expr::Unary(
                    Span {
                        from,
                        to: span(&operand).to,
                    },
                    kind,
                    Box::new(operand),
                ))
            }
            _ => self.postfix(),
        }
    }

    fn postfix(&mut self) -> Result<Expr, usize> {
        let base = self.primary()?;
        let mut tails = Vec::new();
        let mut to = 0;
        loop {
            if self.eat(Kind::Mark(b'.')).is_some() {
                let name = self.want(Kind::Identifier)?;
                let list = self.list(b'(', b')')?;
                to = list.span.to;
                tails.push(Tail::Method(name, list));
            } else if self.peek() == Some(Kind::Mark(b'[')) {
                let (index, end) = self.deeper(|p| {
                    p.at += 1;
                    Ok((p.expression()?, p.want(Kind::Mark(b']'))?))
                })?;
                to = end.to;
                tails.push(Tail::Index(index));
            } else if tails.is_empty() {
                return Ok(base);
            } else {
                return Ok(Expr::Postfix(
                    Span {
                        from: span(&base).from,
                        to,
                    },
                    Box::new(base),
                    tails,
                ));
            }
        }
    }

    fn primary(&mut self) -> Result<Expr, usize> {
        let Some(token) = self.tokens.get(self.at).copied() else {
            return self.fault();
        };
        match token.kind {
            Kind::Identifier => {
                self.at += 1;
                if self.peek() == Some(Kind::Mark(b'(')) {
                    let list = self.list(b'(', b')')?;
                    let whole = Span {
                        from: token.span.from,
                        to: list.span.to,
                    };
                    return Ok(Expr::Call(whole, token.span, list));
                }
                Ok(Expr::Identifier(token.span))
            }
            Kind::Integer => {
                self.at += 1;
                Ok(Expr::Integer(token.span))
            }
            Kind::Text => {
                self.at += 1;
                Ok(Expr::Text(token.span))
            }
            Kind::Word(w @ (Word::True | Word::False)) => {
                self.at += 1;
                Ok(Expr::Boolean(token.span, w == Word::True))
            }
            Kind::Mark(b'(') => self.deeper(|p| {
                p.at += 1;
                let inside = p.expression()?;
                let end = p.want(Kind::Mark(b')'))?;
                Ok(Expr::Paren(
                    Span {
                        from: token.span.from,
                        to: end.to,
                    },
                    Box::new(inside),
                ))
            }),
            Kind::Mark(b'[') => Ok(Expr::Array(self.list(b'[', b']')?)),
            Kind::Mark(b'{') => Ok(Expr::Dictionary(self.list(b'{', b'}')?)),
            _ => self.fault(),
        }
    }

    fn list(&mut self, open: u8, close: u8) -> Result<List, usize> {
        let from = match self.peek() {
            Some(Kind::Mark(b)) if b == open => self.tokens[self.at].span.from,
            _ => return self.fault(),
        };
        self.deeper(|p| {
            p.at += 1;
            let mut items = Vec::new();
            let mut trailing = false;
            let mut named = false;
            loop {
                if let Some(end) = p.eat(Kind::Mark(close)) {
                    return Ok(List {
                        items,
                        trailing,
                        span: Span { from, to: end.to },
                    });
                }
                if !items.is_empty() && !trailing {
                    return p.fault();
                }
                let item = p.argument(open, &mut named)?;
                items.push(item);
                trailing = p.eat(Kind::Mark(b',')).is_some();
            }
        })
    }

    fn argument(&mut self, open: u8, named: &mut bool) -> Result<Arg, usize> {
        let value = self.expression()?;
        if open == b'[' || self.peek() != Some(Kind::Mark(b':')) {
            return if *named || open == b'{' {
                self.fault()
            } else {
                Ok(Arg::Plain(value))
            };
        }
        match value {
            Expr::Identifier(name) if open == b'(' => {
                self.at += 1;
                *named = true;
                Ok(Arg::Named(name, self.expression()?))
            }
            key if open == b'{' => {
                self.at += 1;
                Ok(Arg::Pair(key, self.expression()?))
            }
            _ => self.fault(),
        }
    }

    fn block(&mut self) -> Result<Vec<Stmt>, usize> {
        let mut statements = Vec::new();
        while let Some(kind) = self.peek() {
            if matches!(
                kind,
                Kind::Word(Word::Elif | Word::Else | Word::Endif | Word::Endforeach)
            ) {
                break;
            }
            statements.push(self.statement()?);
            self.want(Kind::LineEnd)?;
        }
        Ok(statements)
    }

    fn statement(&mut self) -> Result<Stmt, usize> {
        let token = self.tokens[self.at];
        match token.kind {
            Kind::Word(Word::If) => self.deeper(|p| p.selection()),
            Kind::Word(Word::Foreach) => self.deeper(|p| p.iteration()),
            Kind::Word(Word::Break) => {
                self.at += 1;
                Ok(Stmt::Break(token.span))
            }
            Kind::Word(Word::Continue) => {
                self.at += 1;
                Ok(Stmt::Continue(token.span))
            }
            Kind::Identifier => match self.tokens.get(self.at + 1).map(|t| t.kind) {
                Some(sign @ (Kind::Mark(b'=') | Kind::Pair([b'+', _]))) => {
                    self.at += 2;
                    Ok(Stmt::Assign(token.span, sign, self.expression()?))
                }
                _ => Ok(Stmt::Evaluate(self.expression()?)),
            },
            _ => Ok(Stmt::Evaluate(self.expression()?)),
        }
    }

    fn selection(&mut self) -> Result<Stmt, usize> {
        let from = self.tokens[self.at].span.from;
        let mut branches = Vec::new();
        self.at += 1;
        loop {
            let condition = self.expression()?;
            self.want(Kind::LineEnd)?;
            branches.push((condition, self.block()?));
            if self.eat(Kind::Word(Word::Elif)).is_none() {
                break;
            }
        }
        let mut otherwise = None;
        if self.eat(Kind::Word(Word::Else)).is_some() {
            self.want(Kind::LineEnd)?;
            otherwise = Some(self.block()?);
        }
        let end = self.want(Kind::Word(Word::Endif))?;
        Ok(Stmt::If(Span { from, to: end.to }, branches, otherwise))
    }

    fn iteration(&mut self) -> Result<Stmt, usize> {
        let from = self.tokens[self.at].span.from;
        self.at += 1;
        let mut names = vec![self.want(Kind::Identifier)?];
        while self.eat(Kind::Mark(b',')).is_some() {
            names.push(self.want(Kind::Identifier)?);
        }
        self.want(Kind::Mark(b':'))?;
        let over = self.expression()?;
        self.want(Kind::LineEnd)?;
        let block = self.block()?;
        let end = self.want(Kind::Word(Word::Endforeach))?;
        Ok(Stmt::Foreach(Span { from, to: end.to }, names, over, block))
    }
}

pub fn parse(source: &[u8]) -> Result<Vec<Stmt>, usize> {
    std::str::from_utf8(source).map_err(|e| e.valid_up_to())?;
    let tokens = tokens(source)?;
    let mut parser = Parser {
        tokens: &tokens,
        at: 0,
        depth: 0,
    };
    let statements = parser.block()?;
    match parser.peek() {
        None => Ok(statements),
        Some(_) => parser.fault(),
    }
}
