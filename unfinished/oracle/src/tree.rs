//! Turns the crate's syntax tree into nodes: children first, from left to right.

use crate::expr::{Expr, ExprIf, ExprStruct, FieldValue, Member, RangeLimits};
use crate::op::{BinOp, UnOp};
use crate::path::Path;
use crate::stmt::Block;
use crate::ty::PointerMutability;
use alloc::vec::Vec;
use proc_macro2::Span;

pub struct Node {
    pub kind: u8,
    pub op: u32,
    pub from: usize,
    pub to: usize,
    pub first: Option<usize>,
    pub next: Option<usize>,
}

const PATH: u8 = 1;
const LITERAL: u8 = 2;
const UNDERSCORE: u8 = 3;
const MACRO: u8 = 4;
const STRUCT: u8 = 5;
const STRUCT_FIELD: u8 = 6;
const PAREN: u8 = 7;
const TUPLE: u8 = 8;
const ARRAY: u8 = 9;
const REPEAT: u8 = 10;
const CALL: u8 = 11;
const METHOD: u8 = 12;
const NAMED_FIELD: u8 = 13;
const INDEX: u8 = 14;
const TRY: u8 = 15;
const AWAIT: u8 = 16;
const UNARY: u8 = 17;
const REFERENCE: u8 = 18;
const RAW_ADDRESS: u8 = 19;
pub const BINARY: u8 = 20;
pub const ASSIGN: u8 = 21;
pub const RANGE: u8 = 22;
pub const CAST: u8 = 23;
const LET: u8 = 24;
const IF: u8 = 25;
const WHILE: u8 = 26;
const BREAK: u8 = 27;
const CONTINUE: u8 = 28;
const RETURN: u8 = 29;
const BLOCK: u8 = 30;
const KEYWORD_EXPRESSION: u8 = 31;
const TYPE: u8 = 32;
const PATTERN: u8 = 33;
const ARGUMENTS: u8 = 34;
const NUMBERED_FIELD: u8 = 35;

/// The nodes of an expression, the root last.
pub fn nodes(expr: &Expr) -> Vec<Node> {
    let mut nodes = Nodes { list: Vec::new() };
    nodes.expr(expr);
    nodes.list
}

struct Nodes {
    list: Vec<Node>,
}

/// The children of a node to come, as far as they are there: the first and the last.
struct Children {
    first: Option<usize>,
    last: Option<usize>,
}

impl Nodes {
    /// Adds a node and gives its number.
    fn add(&mut self, kind: u8, op: u32, from: usize, to: usize, children: Children) -> usize {
        let Children { first, .. } = children;
        self.list.push(Node {
            kind,
            op,
            from,
            to,
            first,
            next: None,
        });
        self.list.len() - 1
    }

    /// Adds a node without children.
    fn leaf(&mut self, kind: u8, span: Span) -> usize {
        let none = Children {
            first: None,
            last: None,
        };
        self.add(kind, 0, span.from, span.to, none)
    }

    /// Makes a node the next sibling of the last child.
    fn link(&mut self, children: &mut Children, node: usize) {
        match children.last {
            Some(last) => self.list[last].next = Some(node),
            None => children.first = Some(node),
        }
        children.last = Some(node);
    }

    /// Adds an expression as the next child, and gives its number.
    fn child(&mut self, children: &mut Children, expr: &Expr) -> usize {
        let node = self.expr(expr);
        self.link(children, node);
        node
    }

    /// Adds a node over the given expressions.
    fn over<'e>(
        &mut self,
        kind: u8,
        op: u32,
        span: Span,
        exprs: impl IntoIterator<Item = &'e Expr>,
    ) -> usize {
        let mut children = Children {
            first: None,
            last: None,
        };
        for expr in exprs {
            self.child(&mut children, expr);
        }
        self.add(kind, op, span.from, span.to, children)
    }

    /// Adds a node over an expression that begins it, and perhaps others, up to `to`.
    fn postfix<'e>(
        &mut self,
        kind: u8,
        op: u32,
        first: &'e Expr,
        others: impl IntoIterator<Item = &'e Expr>,
        to: usize,
    ) -> usize {
        let mut children = Children {
            first: None,
            last: None,
        };
        let first = self.child(&mut children, first);
        for expr in others {
            self.child(&mut children, expr);
        }
        let from = self.list[first].from;
        self.add(kind, op, from, to, children)
    }

    /// Adds a node that begins at `from` and ends with its one operand.
    fn prefix(&mut self, kind: u8, op: u32, from: usize, operand: &Expr) -> usize {
        let mut children = Children {
            first: None,
            last: None,
        };
        let operand = self.child(&mut children, operand);
        let to = self.list[operand].to;
        self.add(kind, op, from, to, children)
    }

    /// Adds a node with an operand on each side.
    fn infix(&mut self, kind: u8, op: u32, left: &Expr, right: &Expr) -> usize {
        let mut children = Children {
            first: None,
            last: None,
        };
        let left = self.child(&mut children, left);
        let right = self.child(&mut children, right);
        let (from, to) = (self.list[left].from, self.list[right].to);
        self.add(kind, op, from, to, children)
    }

    fn block(&mut self, block: &Block) -> usize {
        self.leaf(BLOCK, block.brace_token.span.join())
    }

    fn path(&mut self, path: &Path) -> usize {
        self.leaf(PATH, path.span())
    }

    fn expr(&mut self, expr: &Expr) -> usize {
        match expr {
            Expr::Path(e) => self.path(&e.path),
            Expr::Lit(e) => self.leaf(LITERAL, e.lit.span()),
            Expr::Infer(e) => self.leaf(UNDERSCORE, e.underscore_token.span),
            Expr::Macro(e) => {
                let mut children = Children {
                    first: None,
                    last: None,
                };
                let path = self.path(&e.mac.path);
                self.link(&mut children, path);
                let (from, to) = (self.list[path].from, e.mac.delimiter.join().to);
                self.add(MACRO, 0, from, to, children)
            }
            Expr::Struct(e) => self.struct_literal(e),
            Expr::Paren(e) => self.over(PAREN, 0, e.paren_token.span.join(), [&*e.expr]),
            Expr::Tuple(e) => self.over(TUPLE, 0, e.paren_token.span.join(), e.elems.iter()),
            Expr::Array(e) => self.over(ARRAY, 0, e.bracket_token.span.join(), e.elems.iter()),
            Expr::Repeat(e) => {
                self.over(REPEAT, 0, e.bracket_token.span.join(), [&*e.expr, &*e.len])
            }
            Expr::Call(e) => self.postfix(
                CALL,
                0,
                &e.func,
                e.args.iter(),
                e.paren_token.span.join().to,
            ),
            Expr::MethodCall(e) => {
                let mut children = Children {
                    first: None,
                    last: None,
                };
                let receiver = self.child(&mut children, &e.receiver);
                if let Some(arguments) = &e.turbofish {
                    let arguments = self.leaf(ARGUMENTS, arguments.span);
                    self.link(&mut children, arguments);
                }
                for value in e.args.iter() {
                    self.child(&mut children, value);
                }
                let (from, to) = (self.list[receiver].from, e.paren_token.span.join().to);
                self.add(METHOD, 0, from, to, children)
            }
            Expr::Field(e) => match &e.member {
                Member::Named(name) => self.postfix(NAMED_FIELD, 0, &e.base, [], name.span().to),
                Member::Unnamed(index) => {
                    self.postfix(NUMBERED_FIELD, index.index, &e.base, [], index.span.to)
                }
            },
            Expr::Index(e) => self.postfix(
                INDEX,
                0,
                &e.expr,
                [&*e.index],
                e.bracket_token.span.join().to,
            ),
            Expr::Try(e) => self.postfix(TRY, 0, &e.expr, [], e.question_token.span.to),
            Expr::Await(e) => self.postfix(AWAIT, 0, &e.base, [], e.await_token.span.to),
            Expr::Unary(e) => {
                let (op, span) = match &e.op {
                    UnOp::Deref(mark) => (1, mark.span),
                    UnOp::Not(mark) => (2, mark.span),
                    UnOp::Neg(mark) => (3, mark.span),
                };
                self.prefix(UNARY, op, span.from, &e.expr)
            }
            Expr::Reference(e) => {
                let op = u32::from(e.mutability.is_some());
                self.prefix(REFERENCE, op, e.and_token.span.from, &e.expr)
            }
            Expr::RawAddr(e) => {
                let op = match e.mutability {
                    PointerMutability::Const(_) => 0,
                    PointerMutability::Mut(_) => 1,
                };
                self.prefix(RAW_ADDRESS, op, e.and_token.span.from, &e.expr)
            }
            Expr::Binary(e) => self.infix(BINARY, operator_code(&e.op), &e.left, &e.right),
            Expr::Assign(e) => self.infix(ASSIGN, 0, &e.left, &e.right),
            Expr::Range(e) => {
                let (op, marks): (u32, &[Span]) = match &e.limits {
                    RangeLimits::HalfOpen(limits) => (0, &limits.spans),
                    RangeLimits::Closed(limits) => (1, &limits.spans),
                };
                let mut children = Children {
                    first: None,
                    last: None,
                };
                let (mut from, mut to) = (marks[0].from, marks[marks.len() - 1].to);
                if let Some(start) = &e.start {
                    let start = self.child(&mut children, start);
                    from = self.list[start].from;
                }
                if let Some(end) = &e.end {
                    let end = self.child(&mut children, end);
                    to = self.list[end].to;
                }
                self.add(RANGE, op, from, to, children)
            }
            Expr::Cast(e) => {
                let mut children = Children {
                    first: None,
                    last: None,
                };
                let operand = self.child(&mut children, &e.expr);
                let name = self.leaf(TYPE, e.ty.span);
                self.link(&mut children, name);
                let from = self.list[operand].from;
                self.add(CAST, 0, from, e.ty.span.to, children)
            }
            Expr::Let(e) => {
                let mut children = Children {
                    first: None,
                    last: None,
                };
                let pattern = self.leaf(PATTERN, e.pat.span);
                self.link(&mut children, pattern);
                let value = self.child(&mut children, &e.expr);
                let to = self.list[value].to;
                self.add(LET, 0, e.let_token.span.from, to, children)
            }
            Expr::If(e) => self.if_else(e),
            Expr::While(e) => {
                let mut children = Children {
                    first: None,
                    last: None,
                };
                self.child(&mut children, &e.cond);
                let block = self.block(&e.body);
                self.link(&mut children, block);
                let to = self.list[block].to;
                self.add(WHILE, 0, e.while_token.span.from, to, children)
            }
            Expr::Break(e) => {
                let last = match &e.label {
                    Some(label) => label.span(),
                    None => e.break_token.span,
                };
                self.jump(BREAK, e.break_token.span.from, last.to, e.expr.as_deref())
            }
            Expr::Continue(e) => {
                let last = match &e.label {
                    Some(label) => label.span(),
                    None => e.continue_token.span,
                };
                self.jump(CONTINUE, e.continue_token.span.from, last.to, None)
            }
            Expr::Return(e) => {
                let Span { from, to } = e.return_token.span;
                self.jump(RETURN, from, to, e.expr.as_deref())
            }
            Expr::Block(e) => self.block(&e.block),
            Expr::Async(e) => self.leaf(KEYWORD_EXPRESSION, e.span),
            Expr::Closure(e) => self.leaf(KEYWORD_EXPRESSION, e.span),
            Expr::Const(e) => self.leaf(KEYWORD_EXPRESSION, e.span),
            Expr::ForLoop(e) => self.leaf(KEYWORD_EXPRESSION, e.span),
            Expr::Loop(e) => self.leaf(KEYWORD_EXPRESSION, e.span),
            Expr::Match(e) => self.leaf(KEYWORD_EXPRESSION, e.span),
            Expr::TryBlock(e) => self.leaf(KEYWORD_EXPRESSION, e.span),
            Expr::Unsafe(e) => self.leaf(KEYWORD_EXPRESSION, e.span),
            Expr::Yield(e) => self.leaf(KEYWORD_EXPRESSION, e.span),
            Expr::Verbatim(tokens) => self.leaf(KEYWORD_EXPRESSION, tokens.span),
            Expr::Group(_) => unreachable!("no page has an invisible group"),
        }
    }

    /// `break`, `continue` or `return`, with its value if there is one.
    fn jump(&mut self, kind: u8, from: usize, mut to: usize, value: Option<&Expr>) -> usize {
        let mut children = Children {
            first: None,
            last: None,
        };
        if let Some(value) = value {
            let value = self.child(&mut children, value);
            to = self.list[value].to;
        }
        self.add(kind, 0, from, to, children)
    }

    /// Condition, block, and perhaps what stands behind `else`: a block or another `if`.
    fn if_else(&mut self, e: &ExprIf) -> usize {
        let mut children = Children {
            first: None,
            last: None,
        };
        self.child(&mut children, &e.cond);
        let block = self.block(&e.then_branch);
        self.link(&mut children, block);
        let mut to = self.list[block].to;
        if let Some((_, other)) = &e.else_branch {
            let other = self.child(&mut children, other);
            to = self.list[other].to;
        }
        self.add(IF, 0, e.if_token.span.from, to, children)
    }

    /// The path, the fields, and perhaps the base.
    fn struct_literal(&mut self, e: &ExprStruct) -> usize {
        let mut children = Children {
            first: None,
            last: None,
        };
        let path = self.path(&e.path);
        self.link(&mut children, path);
        for field in e.fields.iter() {
            let field = self.struct_field(field);
            self.link(&mut children, field);
        }
        if let Some(base) = &e.rest {
            self.child(&mut children, base);
        }
        let op = u32::from(e.dot2_token.is_some());
        let (from, to) = (self.list[path].from, e.brace_token.span.join().to);
        self.add(STRUCT, op, from, to, children)
    }

    fn struct_field(&mut self, field: &FieldValue) -> usize {
        let (op, span) = match &field.member {
            Member::Named(name) => (0, name.span()),
            Member::Unnamed(index) => (index.index, index.span),
        };
        let mut children = Children {
            first: None,
            last: None,
        };
        let mut to = span.to;
        if field.colon_token.is_some() {
            let value = self.child(&mut children, &field.expr);
            to = self.list[value].to;
        }
        self.add(STRUCT_FIELD, op, span.from, to, children)
    }
}

/// 1 to 28, in the order of the crate's list of operators.
fn operator_code(op: &BinOp) -> u32 {
    match op {
        BinOp::Add(_) => 1,
        BinOp::Sub(_) => 2,
        BinOp::Mul(_) => 3,
        BinOp::Div(_) => 4,
        BinOp::Rem(_) => 5,
        BinOp::And(_) => 6,
        BinOp::Or(_) => 7,
        BinOp::BitXor(_) => 8,
        BinOp::BitAnd(_) => 9,
        BinOp::BitOr(_) => 10,
        BinOp::Shl(_) => 11,
        BinOp::Shr(_) => 12,
        BinOp::Eq(_) => 13,
        BinOp::Lt(_) => 14,
        BinOp::Le(_) => 15,
        BinOp::Ne(_) => 16,
        BinOp::Ge(_) => 17,
        BinOp::Gt(_) => 18,
        BinOp::AddAssign(_) => 19,
        BinOp::SubAssign(_) => 20,
        BinOp::MulAssign(_) => 21,
        BinOp::DivAssign(_) => 22,
        BinOp::RemAssign(_) => 23,
        BinOp::BitXorAssign(_) => 24,
        BinOp::BitAndAssign(_) => 25,
        BinOp::BitOrAssign(_) => 26,
        BinOp::ShlAssign(_) => 27,
        BinOp::ShrAssign(_) => 28,
    }
}
