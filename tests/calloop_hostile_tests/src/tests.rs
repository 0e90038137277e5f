//! What becomes of a loop whose poller answers anything, whose allocations are refused, or whose keys move beside other threads.
mod answers;
mod desk;
mod keys;
mod memory;
mod rings;
mod stops;
