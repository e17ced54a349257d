//! Stands in for the crate's lists of values with marks between them. The marks are not kept:
//! only whether the last value has one behind it.

use crate::error::Result;
use crate::parse::{Parse, ParseStream};
use alloc::vec::Vec;
use core::marker::PhantomData;

pub struct Punctuated<T, P> {
    values: Vec<T>,
    open: bool,
    marks: PhantomData<P>,
}

impl<T, P> Punctuated<T, P> {
    pub const fn new() -> Self {
        Punctuated {
            values: Vec::new(),
            open: true,
            marks: PhantomData,
        }
    }

    pub fn iter(&self) -> core::slice::Iter<'_, T> {
        self.values.iter()
    }

    pub fn push_value(&mut self, value: T) {
        assert!(self.open, "a value behind a value");
        self.values.push(value);
        self.open = false;
    }

    pub fn push_punct(&mut self, _mark: P) {
        assert!(!self.open, "a mark with no value before it");
        self.open = true;
    }

    /// Adds a value, and a mark before it where one is missing.
    pub fn push(&mut self, value: T)
    where
        P: Default,
    {
        if !self.open {
            self.push_punct(P::default());
        }
        self.push_value(value);
    }

    /// Values up to the end of the level, with marks between them and perhaps behind the last.
    pub fn parse_terminated_with<'a>(
        input: ParseStream<'a>,
        parser: fn(ParseStream<'a>) -> Result<T>,
    ) -> Result<Self>
    where
        P: Parse,
    {
        let mut list = Punctuated::new();
        while !input.is_empty() {
            list.push_value(parser(input)?);
            if input.is_empty() {
                break;
            }
            list.push_punct(input.parse()?);
        }
        Ok(list)
    }
}
