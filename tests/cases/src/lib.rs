//! Makes the inputs of the tests: by hand (`make`) and at random from a seed (`random`).
//!
//! Nothing here reads what it makes, or knows what the answer should be.

pub mod audits;
mod children;
pub mod conditions;
pub mod crowds;
mod damage;
pub mod decided;
pub mod expressions;
pub mod hex;
/// The key by which the library finds identities, as the bench has it.
#[path = "../../bench/src/key.rs"]
pub mod key;
pub mod make;
pub mod numbers;
mod people;
pub mod random;
mod rng;
pub mod rooms;
mod spare;

pub use rng::Rng;
