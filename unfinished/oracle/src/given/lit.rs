//! Literals: integers and floats, as members need them. Any other literal is one token that
//! nobody looks into.

use crate::error::{Error, Result};
use crate::lookahead;
use alloc::boxed::Box;
use core::fmt::Display;
use core::str::FromStr;
use proc_macro2::{Ident, Literal, Span};

/// A literal. The crate tells more kinds; for an expression they are all one.
pub enum Lit {
    Int(LitInt),
    Float(LitFloat),
    Bool(LitBool),
    Verbatim(Literal),
}

impl Lit {
    /// The literal that a token is: an integer or a float if its page's tag says so and the
    /// crate reads it as one.
    pub fn new(token: Literal) -> Self {
        let repr = token.to_string();
        if let Some((digits, suffix)) = value::parse_lit_int(&repr) {
            let repr = LitIntRepr {
                token,
                digits,
                suffix,
            };
            return Lit::Int(LitInt {
                repr: Box::new(repr),
            });
        }
        if let Some((digits, suffix)) = value::parse_lit_float(&repr) {
            let repr = LitFloatRepr {
                token,
                digits,
                suffix,
            };
            return Lit::Float(LitFloat {
                repr: Box::new(repr),
            });
        }
        Lit::Verbatim(token)
    }

    pub fn span(&self) -> Span {
        match self {
            Lit::Int(lit) => lit.span(),
            Lit::Float(lit) => lit.span(),
            Lit::Bool(lit) => lit.span(),
            Lit::Verbatim(lit) => lit.span(),
        }
    }
}

// verbatim: lit.rs: around pub struct LitInt

// verbatim: lit.rs: struct LitIntRepr

// verbatim: lit.rs: around pub struct LitFloat

// verbatim: lit.rs: struct LitFloatRepr

// verbatim: lit.rs: around pub struct LitBool

// verbatim: lit.rs: impl LitInt {

// verbatim: lit.rs: impl LitFloat {

// verbatim: lit.rs: impl LitBool {

// verbatim: lit.rs: impl Clone for LitIntRepr {

// verbatim: lit.rs: impl Clone for LitFloatRepr {

// verbatim: lit.rs: macro_rules! lit_extra_traits {

// verbatim: lit.rs: lit_extra_traits!(LitInt);

// verbatim: lit.rs: lit_extra_traits!(LitFloat);

// verbatim: lit.rs: around pub fn Lit(

pub(crate) mod parsing {
    use crate::buffer::Cursor;
    use crate::error::Result;
    use crate::lit::{value, Lit, LitBool, LitFloat, LitFloatRepr, LitInt, LitIntRepr};
    use crate::parse::{Parse, ParseStream, Unexpected};
    use crate::token::{self, Token};
    use alloc::boxed::Box;
    use alloc::rc::Rc;
    use alloc::string::ToString;
    use core::cell::Cell;
    use proc_macro2::{Literal, Punct, Span};

    // verbatim: lit.rs: impl Parse for Lit {

    // verbatim: lit.rs: fn parse_negative_lit(

    // verbatim: lit.rs: impl Parse for LitInt {

    // verbatim: lit.rs: impl Parse for LitFloat {

    // verbatim: lit.rs: fn peek_impl(

    // verbatim: lit.rs: macro_rules! impl_token {

    // verbatim: lit.rs: impl_token!("literal" Lit);

    // verbatim: lit.rs: impl_token!("integer literal" LitInt);

    // verbatim: lit.rs: impl_token!("floating point literal" LitFloat);
}

mod value {
    use crate::bigint::BigInt;
    use alloc::borrow::ToOwned;
    use alloc::boxed::Box;
    use alloc::string::{String, ToString};

    // verbatim: lit.rs: pub(crate) fn byte<

    // verbatim: lit.rs: pub(crate) fn parse_lit_int(

    // verbatim: lit.rs: pub(crate) fn parse_lit_float(
}
