//! "Records", kinds 5, 7 and 9: the records of a log, from their fields, and the log program. Kind 9 is document 02's return, with the ticket of its order 4.
use super::cache::Cache;
use super::family::Family;
use super::record::number;
use super::registrar::{self, Registered, Request};
use super::USUAL_WINDOW;

/// Clock, vouched and an ad's body, as an ask has them and a return begins.
fn request(kind: u8, clock: u64, vouched: bool, body: &[u8]) -> Vec<u8> {
    let clock = clock.to_be_bytes();
    [&[kind][..], &clock, &[u8::from(vouched)], body].concat()
}

/// Refusal 2 where a length is not the table's.
fn lengths<const N: usize>(given: [usize; N], table: [usize; N]) -> Result<(), i64> {
    if given == table {
        Ok(())
    } else {
        Err(2)
    }
}

pub fn write_ask(clock: u64, vouched: bool, body: &[u8], out_len: usize) -> Result<Vec<u8>, i64> {
    lengths([out_len, body.len()], [152, 142])?;
    Ok(request(5, clock, vouched, body))
}

pub fn write_return(
    clock: u64,
    vouched: bool,
    body: &[u8],
    ticket: &[u8],
    out_len: usize,
) -> Result<Vec<u8>, i64> {
    lengths([out_len, body.len(), ticket.len()], [240, 142, 88])?;
    Ok([request(9, clock, vouched, body), ticket.to_vec()].concat())
}

pub fn write_list(clock: u64, service: &[u8], out_len: usize) -> Result<Vec<u8>, i64> {
    lengths([out_len, service.len()], [41, 32])?;
    Ok([&[7][..], &clock.to_be_bytes(), service].concat())
}

/// The length of a log record of this kind.
fn length(kind: u8) -> Option<usize> {
    match kind {
        5 => Some(152),
        7 => Some(41),
        9 => Some(240),
        _ => None,
    }
}

/// The answer to a whole record, with what the cache becomes.
fn answer(cache: &mut Vec<u8>, key: &[u8], record: &[u8]) -> Result<String, i64> {
    let clock = number(&record[1..9]);
    if record[0] == 7 {
        let ads = registrar::get_ads(cache, clock, &record[9..], 1_430)?;
        return Ok(format!("ADS {}", ads.len()));
    }
    // The kinds of an ad and of a ticket stand before their bodies.
    let ad = [&[1], &record[10..152]].concat();
    let ticket = match record[0] {
        9 => [&[8], &record[152..]].concat(),
        _ => Vec::new(),
    };
    let request = Request {
        key,
        window: USUAL_WINDOW,
        clock,
        ad: &ad,
        vouched: record[9],
        ticket: &ticket,
        reply_len: 89,
    };
    let (answer, after) = registrar::register(cache, &request)?;
    *cache = after;
    Ok(match answer {
        Registered::Confirmed(_) => "OK".to_string(),
        Registered::Wait(wait, _, _) => format!("WAIT {wait}"),
    })
}

/// "Standard input is the 32-byte key, then log records. Each gives one line; a cut or unknown record, or a short key, gives `STOP` and no more", and the
/// end of the input `END` with how many there were.
pub fn run(input: &[u8]) -> Vec<String> {
    let stop = || "STOP".to_string();
    let Some((key, mut rest)) = input.split_at_checked(32) else {
        return vec![stop()];
    };
    let mut cache = Cache::empty(Family::V4, 256).bytes();
    let mut lines = Vec::new();
    while let Some(kind) = rest.first() {
        let Some((record, after)) = length(*kind).and_then(|length| rest.split_at_checked(length))
        else {
            lines.push(stop());
            return lines;
        };
        let answer = answer(&mut cache, key, record);
        let said = answer.unwrap_or_else(|refusal| format!("NO {refusal}"));
        lines.push(format!("{} {said}", number(&record[1..9])));
        rest = after;
    }
    lines.push(format!("END {}", lines.len()));
    lines
}
