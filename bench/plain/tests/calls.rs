//! Plain Rust against the oracle: the differential tests of `host/rust`.
#[macro_use]
#[path = "../../../host/rust/tests/differential/mod.rs"]
mod differential;
mod held;
#[path = "../../../host/rust/tests/oracle/mod.rs"]
mod oracle;

use plain as side;

differential_tests!(crate::held::Held);
