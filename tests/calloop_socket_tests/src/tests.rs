use calloop::Error;
use std::io::ErrorKind;

mod crowds;
mod desk;
mod keeping;
mod modes;
mod peers;
mod pipes;
mod refusals;
mod square;
mod table;

// Whether it is refused with an error of the system of this kind.
fn is_refused<T>(answer: &calloop::Result<T>, kind: ErrorKind) -> bool {
    match answer {
        Err(Error::IoError(cause)) => cause.kind() == kind,
        _ => false,
    }
}
