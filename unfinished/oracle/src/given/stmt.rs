//! Blocks. How a block begins and ends is the crate's text; what stands in it is the host's.

use crate::error::Result;
use crate::hosts::BLOCK;
use crate::parse::ParseStream;
use crate::token;

// verbatim: stmt.rs: around pub struct Block

/// A statement. The host reads a block whole, so that none is ever made.
pub enum Stmt {}

impl Block {
    /// Asks the host for the block that `input` is the content of.
    pub fn parse_within(input: ParseStream) -> Result<Vec<Stmt>> {
        input.ask_for_group(BLOCK)?;
        Ok(Vec::new())
    }
}

mod parsing {
    use crate::error::Result;
    use crate::parse::{Parse, ParseStream};
    use crate::stmt::Block;

    // verbatim: stmt.rs: impl Parse for Block {
}
