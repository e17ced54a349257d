// Lifetimes.

// whole: lifetime.rs
