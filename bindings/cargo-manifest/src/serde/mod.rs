//! Serialize and Deserialize of every type. What is read goes by a [`Value`], by the same rows as everywhere.

mod de;
mod error;
mod ser;
mod types;
mod value;

pub use error::ValueError;
