//! The code of docs/GUIDE.md, in tests: each of its blocks stands here or in a program.
#![tactic(auto)]

#[cfg(test)]
mod tests;
