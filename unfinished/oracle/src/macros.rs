//! Stands in for the crate's macros: those that declare the syntax tree, and those that open a
//! group.

/// A type of the syntax tree. `#full` marks those that the feature "full" adds; it is on.
macro_rules! ast_struct {
    ($(#[$attr:meta])* pub struct $name:ident #full $body:tt) => {
        $(#[$attr])*
        pub struct $name $body
    };
    ($(#[$attr:meta])* pub struct $name:ident $body:tt) => {
        $(#[$attr])*
        pub struct $name $body
    };
}

macro_rules! ast_enum {
    ($(#[$attr:meta])* pub enum $name:ident $body:tt) => {
        $(#[$attr])*
        pub enum $name $body
    };
}

macro_rules! ast_enum_of_structs {
    ($($body:tt)*) => {
        ast_enum! { $($body)* }
    };
}

macro_rules! pub_if_not_doc {
    ($($item:tt)*) => {
        $($item)*
    };
}

/// Takes a `(` group, puts a stream of what stands in it into `$content` and gives its token.
macro_rules! parenthesized {
    ($content:ident in $input:expr) => {
        delimited!(Parenthesis Paren $content $input)
    };
}

/// The same for a `[` group.
macro_rules! bracketed {
    ($content:ident in $input:expr) => {
        delimited!(Bracket Bracket $content $input)
    };
}

/// The same for a `{` group.
macro_rules! braced {
    ($content:ident in $input:expr) => {
        delimited!(Brace Brace $content $input)
    };
}

macro_rules! delimited {
    ($delimiter:ident $token:ident $content:ident $input:expr) => {
        match crate::group::parse_delimited(&$input, proc_macro2::Delimiter::$delimiter) {
            Ok((span, content)) => {
                $content = content;
                crate::token::$token(span)
            }
            Err(error) => return Err(error),
        }
    };
}
