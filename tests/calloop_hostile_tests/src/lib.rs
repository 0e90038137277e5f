//! Tests of loops that memory, poller and other threads do their worst to.
#![tactic(auto)]

#[cfg(test)]
mod tests;
