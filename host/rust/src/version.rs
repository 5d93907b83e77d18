/// The number of the library's interface that this crate is written for. It rises with every change of a call's shape or of
/// a length.
pub const VERSION: i64 = 6;
