//! Tests of loops over sockets.
#![tactic(auto)]

#[cfg(test)]
mod tests;
