// Tokens: keywords, marks and delimiters, how they are peeked at and parsed.

// whole: token.rs
