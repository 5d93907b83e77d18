//! The better plain Rust against the oracle: the differential tests of `host/rust`.
#[macro_use]
#[path = "../../../host/rust/tests/differential/mod.rs"]
mod differential;
#[path = "../../plain/tests/held/mod.rs"]
mod held;
#[path = "../../../host/rust/tests/oracle/mod.rs"]
mod oracle;

use best as side;

differential_tests!(crate::held::Held);
