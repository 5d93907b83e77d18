//! REGISTER with lower bounds of a crate of plain Rust, as its tests in `host/rust` take one. Which one it is the test program says, as `side`.
use crate::oracle::registrar::Request;
use crate::side::{register_bounded, Refusal, Registered};

pub fn bounded(
    cache: &mut [u8],
    bounds: &mut [u8],
    request: &Request,
    reply: &mut [u8],
    moves: &mut u64,
) -> i64 {
    let answer = register_bounded(
        cache,
        bounds,
        request.key,
        request.window,
        request.clock,
        request.ad,
        request.vouched,
        request.ticket,
        reply,
    );
    match answer {
        Err(Refusal(number)) => -i64::from(number),
        Ok(Registered::Confirmed { moves: moved }) => {
            *moves = moved;
            0
        }
        Ok(Registered::Wait {
            millis,
            moves: moved,
        }) => {
            *moves = moved;
            millis as i64
        }
    }
}
