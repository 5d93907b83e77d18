//! REGISTER with lower bounds of the better plain Rust against the oracle.
#[path = "../../../host/rust/tests/bounded/mod.rs"]
mod bounded;
#[path = "../../plain/tests/held_bounded/mod.rs"]
mod held_bounded;
#[path = "../../../host/rust/tests/oracle/mod.rs"]
mod oracle;
#[path = "../../../host/rust/tests/stored/mod.rs"]
mod stored;

use best as side;

use held_bounded::bounded as call;

#[test]
fn stored_requests() {
    bounded::stored_requests(call);
}

#[test]
fn many_places() {
    bounded::many_places(call);
}

#[test]
fn drawn_runs() {
    bounded::drawn_runs(call);
}
