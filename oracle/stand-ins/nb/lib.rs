//! Stand-in for the crate `nb`: only what nonblocking.rs names.

#[derive(Debug)]
pub enum Error<E> {
    Other(E),
    WouldBlock,
}

pub type Result<T, E> = core::result::Result<T, Error<E>>;
