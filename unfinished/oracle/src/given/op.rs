// Binary and unary operators.

// whole: op.rs
