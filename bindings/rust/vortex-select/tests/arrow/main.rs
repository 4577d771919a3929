//! Columns in Arrow's memory.
#![cfg(feature = "arrow")]
mod building;
mod children;
mod empty;
mod errors;
mod hostile;
mod loops;
mod nodes;
mod parts;
mod raw;
mod release;
mod slices;
mod steps;
mod streams;
mod threads;
mod values;
