//! An independent reference program for the tag core, written from the papers alone.
//! It is plain and slow on purpose; see compare/README.md.

pub mod boundary;
pub mod curve;
pub mod damage;
pub mod frames;
pub mod identifier;
pub mod numbers;
pub mod primitives;
pub mod record;
pub mod replay;
pub mod tag;

#[cfg(test)]
mod tests;
