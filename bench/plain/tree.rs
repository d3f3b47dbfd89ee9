//! Trees with spans. They are made, and not looked at.
#![allow(dead_code)]

use crate::tokens::{Kind, Span};

pub enum Expr {
    Identifier(Span),
    Boolean(Span, bool),
    Integer(Span),
    Text(Span),
    Paren(Span, Box<Expr>),
    Array(List),
    Dictionary(List),
    Call(Span, Span, List),
    Unary(Span, Kind, Box<Expr>),
    Row(Span, Box<Expr>, Vec<(Kind, Expr)>),
    Postfix(Span, Box<Expr>, Vec<Tail>),
    Conditional(Span, Box<(Expr, Expr, Expr)>),
}

pub enum Tail {
    Method(Span, List),
    Index(Expr),
}

pub enum Arg {
    Plain(Expr),
    Named(Span, Expr),
    Pair(Expr, Expr),
}

pub struct List {
    pub items: Vec<Arg>,
    pub trailing: bool,
    pub span: Span,
}

pub enum Stmt {
    Evaluate(Expr),
    Assign(Span, Kind, Expr),
    If(Span, Vec<(Expr, Vec<Stmt>)>, Option<Vec<Stmt>>),
    Foreach(Span, Vec<Span>, Expr, Vec<Stmt>),
    Break(Span),
    Continue(Span),
}

pub fn span(expr: &Expr) -> Span {
    match expr {
        Expr::Identifier(s)
        | Expr::Boolean(s, _)
        | Expr::Integer(s)
        | Expr::Text(s)
        | Expr::Paren(s, _)
        | Expr::Call(s, _, _)
        | Expr::Unary(s, _, _)
        | Expr::Row(s, _, _)
        | Expr::Postfix(s, _, _)
        | Expr::Conditional(s, _) => *s,
        Expr::Array(l) | Expr::Dictionary(l) => l.span,
    }
}
