//! Expressions: the syntax tree, and the functions that read one.

use crate::attr::Attribute;
use crate::error::Result;
use crate::ext::IdentExt as _;
use crate::hosts::KEYWORD_EXPRESSION;
use crate::ident::Ident;
use crate::lifetime::Lifetime;
use crate::lit::Lit;
use crate::mac::Macro;
use crate::op::{BinOp, UnOp};
use crate::parse::ParseStream;
use crate::pat::Pat;
use crate::path::{AngleBracketedGenericArguments, Path, QSelf};
use crate::punctuated::Punctuated;
use crate::stmt::Block;
use crate::token;
use crate::ty::{PointerMutability, Type};
use alloc::boxed::Box;
use alloc::vec::Vec;
use core::mem;
use proc_macro2::{Span, TokenStream};

// verbatim: expr.rs: around pub enum Expr {

// verbatim: expr.rs: around pub struct ExprArray

// verbatim: expr.rs: around pub struct ExprAssign

// verbatim: expr.rs: around pub struct ExprAwait

// verbatim: expr.rs: around pub struct ExprBinary

// verbatim: expr.rs: around pub struct ExprBlock

// verbatim: expr.rs: around pub struct ExprBreak

// verbatim: expr.rs: around pub struct ExprCall

// verbatim: expr.rs: around pub struct ExprCast

// verbatim: expr.rs: around pub struct ExprContinue

// verbatim: expr.rs: around pub struct ExprField

// verbatim: expr.rs: around pub struct ExprGroup

// verbatim: expr.rs: around pub struct ExprIf

// verbatim: expr.rs: around pub struct ExprIndex

// verbatim: expr.rs: around pub struct ExprInfer

// verbatim: expr.rs: around pub struct ExprLet

// verbatim: expr.rs: around pub struct ExprLit

// verbatim: expr.rs: around pub struct ExprMacro

// verbatim: expr.rs: around pub struct ExprMethodCall

// verbatim: expr.rs: around pub struct ExprParen

// verbatim: expr.rs: around pub struct ExprPath

// verbatim: expr.rs: around pub struct ExprRange

// verbatim: expr.rs: around pub struct ExprRawAddr

// verbatim: expr.rs: around pub struct ExprReference

// verbatim: expr.rs: around pub struct ExprRepeat

// verbatim: expr.rs: around pub struct ExprReturn

// verbatim: expr.rs: around pub struct ExprStruct

// verbatim: expr.rs: around pub struct ExprTry

// verbatim: expr.rs: around pub struct ExprTuple

// verbatim: expr.rs: around pub struct ExprUnary

// verbatim: expr.rs: around pub struct ExprWhile

impl Expr {
    // verbatim: expr.rs: pub const PLACEHOLDER

    // verbatim: expr.rs: pub fn parse_without_eager_brace(

    // verbatim: expr.rs: pub fn peek(

    // verbatim: expr.rs: pub(crate) fn replace_attrs(
}

// verbatim: expr.rs: around pub enum Member

// verbatim: expr.rs: impl Member {

// verbatim: expr.rs: around pub struct Index

// verbatim: expr.rs: around pub struct FieldValue

// verbatim: expr.rs: around pub struct Label

// verbatim: expr.rs: around pub enum RangeLimits

/// Expressions that the host reads whole: all that is kept of one is where it stands.
macro_rules! keyword_expressions {
    ($($name:ident)*) => {
        $(
            pub struct $name {
                pub attrs: Vec<Attribute>,
                pub span: Span,
            }

            impl crate::parse::Parse for $name {
                fn parse(input: ParseStream) -> Result<Self> {
                    Ok($name {
                        attrs: Vec::new(),
                        span: input.ask(KEYWORD_EXPRESSION)?,
                    })
                }
            }
        )*
    };
}

keyword_expressions! {
    ExprAsync ExprClosure ExprConst ExprForLoop ExprLoop ExprMatch ExprTryBlock ExprUnsafe ExprYield
}

pub(crate) mod parsing {
    use crate::attr;
    use crate::attr::Attribute;
    use crate::buffer::Cursor;
    use crate::error::{Error, Result};
    use crate::expr::{
        Expr, ExprArray, ExprAssign, ExprAwait, ExprBinary, ExprBlock, ExprBreak, ExprCall,
        ExprCast, ExprClosure, ExprContinue, ExprField, ExprIf, ExprIndex, ExprInfer, ExprLet,
        ExprLit, ExprMacro, ExprMethodCall, ExprParen, ExprPath, ExprRange, ExprRawAddr,
        ExprReference, ExprRepeat, ExprReturn, ExprStruct, ExprTry, ExprTuple, ExprUnary,
        ExprWhile, FieldValue, Index, Label, Member, RangeLimits,
    };
    use crate::generics;
    use crate::hosts::KEYWORD_EXPRESSION;
    use crate::ident::Ident;
    use crate::lifetime::Lifetime;
    use crate::lit::{Lit, LitFloat, LitInt};
    use crate::mac::{self, Macro};
    use crate::op::BinOp;
    use crate::parse::discouraged::Speculative as _;
    use crate::parse::{End, Parse, ParseStream};
    use crate::pat::Pat;
    use crate::path::{self, AngleBracketedGenericArguments, Path, QSelf};
    use crate::precedence::Precedence;
    use crate::punctuated::Punctuated;
    use crate::stmt::Block;
    use crate::token;
    use crate::ty;
    use crate::ty::PointerMutability;
    use crate::verbatim;
    use alloc::boxed::Box;
    use alloc::format;
    use alloc::string::ToString;
    use alloc::vec::Vec;
    use core::mem;
    use proc_macro2::{Span, TokenStream};

    // verbatim: expr.rs: pub(super) struct AllowStruct(

    // verbatim: expr.rs: impl Parse for Expr {

    // verbatim: expr.rs: impl Copy for AllowStruct {}

    // verbatim: expr.rs: impl Clone for AllowStruct {

    // verbatim: expr.rs: fn parse_expr(

    // verbatim: expr.rs: fn parse_binop_rhs(

    // verbatim: expr.rs: fn peek_precedence(

    // verbatim: expr.rs: pub(super) fn ambiguous_expr(

    // verbatim: expr.rs: fn expr_attrs(

    // verbatim: expr.rs: fn unary_expr(

    // verbatim: expr.rs: fn trailer_expr(

    // verbatim: expr.rs: fn trailer_helper(

    // verbatim: expr.rs: fn atom_expr(

    // verbatim: expr.rs: fn path_or_macro_or_struct(

    // verbatim: expr.rs: fn rest_of_path_or_macro_or_struct(

    // verbatim: expr.rs: fn paren_or_tuple(

    // verbatim: expr.rs: fn array_or_repeat(

    // verbatim: expr.rs: impl Parse for ExprLit {

    // verbatim: expr.rs: fn expr_let(

    // verbatim: expr.rs: impl Parse for ExprIf {

    // verbatim: expr.rs: impl Parse for ExprInfer {

    // verbatim: expr.rs: fn expr_unary(

    // verbatim: expr.rs: impl Parse for ExprReturn {

    // verbatim: expr.rs: impl Parse for ExprWhile {

    // verbatim: expr.rs: impl Parse for Label {

    // verbatim: expr.rs: impl Parse for Option<Label> {

    // verbatim: expr.rs: impl Parse for ExprContinue {

    // verbatim: expr.rs: fn expr_break(

    // verbatim: expr.rs: impl Parse for FieldValue {

    // verbatim: expr.rs: fn expr_struct_helper(

    // verbatim: expr.rs: impl Parse for ExprBlock {

    // verbatim: expr.rs: fn expr_range(

    // verbatim: expr.rs: fn parse_range_end(

    // verbatim: expr.rs: impl Parse for RangeLimits {

    // verbatim: expr.rs: impl Parse for Member {

    // verbatim: expr.rs: impl Parse for Index {

    // verbatim: expr.rs: fn multi_index(

    // verbatim: expr.rs: fn check_cast(

    // What follows stands in for functions of the crate whose expressions the host reads whole.

    fn expr_closure(input: ParseStream, _allow_struct: AllowStruct) -> Result<ExprClosure> {
        input.parse()
    }

    fn expr_become(input: ParseStream) -> Result<Expr> {
        let span = input.ask(KEYWORD_EXPRESSION)?;
        Ok(Expr::Verbatim(TokenStream { span }))
    }

    fn atom_labeled(input: ParseStream) -> Result<Expr> {
        let span = input.ask(KEYWORD_EXPRESSION)?;
        Ok(Expr::Verbatim(TokenStream { span }))
    }

    // What follows stands in for functions of the crate that no page reaches, or none that is
    // compared.

    fn expr_group(input: ParseStream, _allow_struct: AllowStruct) -> Result<Expr> {
        Err(input.error("no page has an invisible group"))
    }

    fn expr_builtin(input: ParseStream) -> Result<Expr> {
        Err(input.error("`builtin #` is left out"))
    }
}
