//! REGISTER with lower bounds of plain Rust against the oracle.
#[path = "../../../host/rust/tests/bounded/mod.rs"]
mod bounded;
mod held_bounded;
#[path = "../../../host/rust/tests/oracle/mod.rs"]
mod oracle;
#[path = "../../../host/rust/tests/stored/mod.rs"]
mod stored;

use plain as side;

use held_bounded::bounded as call;

#[test]
fn stored_requests() {
    bounded::stored_requests(call);
}

#[test]
fn many_places() {
    bounded::many_places(call);
}

#[test]
fn drawn_runs() {
    bounded::drawn_runs(call);
}
