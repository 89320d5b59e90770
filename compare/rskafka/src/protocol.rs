#[path = "../../../target/compare/source/protocol/primitives.rs"]
#[rustfmt::skip]
pub mod primitives;
#[path = "../../../target/compare/source/protocol/record.rs"]
#[rustfmt::skip]
pub mod record;
#[path = "../../../target/compare/source/protocol/traits.rs"]
#[rustfmt::skip]
pub mod traits;
#[path = "../../../target/compare/source/protocol/vec_builder.rs"]
#[rustfmt::skip]
pub mod vec_builder;
