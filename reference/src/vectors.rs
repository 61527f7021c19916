//! Test vectors: traces with their texts, blocks on lent records, images,
//! cables and their descriptions, and readings of what blocks hand out. The same
//! vectors come out every time.

mod blocks;
mod cables;
mod descriptions;
mod falls;
pub mod gathering;
mod images;
mod readings;
pub mod spoiled;
pub mod spoiled_lists;
mod traces;

pub use blocks::{block_vectors, BlockVector};
pub use cables::{cable_vectors, CableVector};
pub use descriptions::{description_vectors, DescriptionVector};
pub use images::{image_vectors, ImageVector};
pub use readings::{handed_out, readings_vectors, worked_lists, Lists, ReadingsVector, Sample};
pub use traces::{trace_vectors, TraceVector};
