//! Tests of executors and their futures, in loops and without one.
#![tactic(auto)]

#[cfg(test)]
mod tests;
