//! A module for each chapter of the guide that has code of its own.
mod broadcast;
mod futures;
mod parts;
mod put_off;
mod runs;
mod socket_futures;
mod sockets;
mod timeouts;
