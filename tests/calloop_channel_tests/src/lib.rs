//! Tests of channels, in loops and without one.
#![tactic(auto)]

#[cfg(test)]
mod tests;
