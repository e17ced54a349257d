// The order of operators.

// whole: precedence.rs
