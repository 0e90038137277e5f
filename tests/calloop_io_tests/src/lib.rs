//! Tests of sockets as futures.
#![tactic(auto)]

#[cfg(test)]
mod tests;
