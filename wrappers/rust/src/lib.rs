//! Dergamoyne from Rust: a heap of equal blocks with an incremental mark and sweep collector. What each call does is told in
//! include/dergamoyne.h. `Heap` owns its memory; `calls` has the same over slices that you lend.
//!
//! ```
//! # fn main() -> Result<(), dergamoyne::Refused> {
//! let mut heap = dergamoyne::Heap::new(1000, 10)?;
//! let first = heap.allocate(0, 0)?.block; // held by the root
//! let second = heap.allocate(first, 0)?.block; // held by word 0 of the first
//! heap.store_number(second, 1, 42)?;
//! assert_eq!(heap.read(second, 1)?, dergamoyne::Word::Number(42));
//! # Ok(())
//! # }
//! ```
//!
//! The functions behind it are proved; these declarations are not: the tests run them.
pub mod calls;
mod heap;
mod raw;
mod refusal;

pub use heap::{Allocated, Exported, Heap, Reason, State, Why, Word};
pub use raw::{Answer, ExportAnswer, LookAnswer, ReadAnswer, Regs, WhyAnswer};
pub use refusal::{Refusal, Refused};
