//! Each call with nothing wrong, with each fault alone, and with the first fault of each refusal and the first of the next.
use super::faults::Faults;
use super::{buffer, digest, hex, number, run, Buffer, Call, Given, Line, Shown, UNTOUCHED};
use crate::oracle::family::Family;
use crate::oracle::log;
use crate::oracle::record::{Ad, Ticket};
use crate::oracle::registrar::{self, Registered, Request};
use crate::oracle::sha256::hmac;
use crate::oracle::small;

/// What a log record has for its clock.
const LOG_CLOCK: u64 = 0x0102_0304_0506_0708;

impl Faults {
    /// The cache that a call is given, and what it is lent and shown of it.
    fn given(self, call: Call, shown: Shown) -> Given {
        Given {
            call,
            vouched: self.vouched(),
            begins: self.cache(),
            cache: Buffer(self.family.cache_len(2), self.cache_len(), shown),
            ..Given::default()
        }
    }

    fn is_v6(self) -> bool {
        self.family == Family::V6
    }

    /// The full call or the profile's.
    fn choose<T>(self, full: T, small: T) -> T {
        if self.small {
            small
        } else {
            full
        }
    }
}

type Register = fn(&[u8], &Request) -> Result<(Registered, Vec<u8>), i64>;
type Withdraw = fn(&[u8], &[u8], &[u8], u64, u8) -> Result<Vec<u8>, i64>;
type GetAds = fn(&[u8], u64, &[u8], usize) -> Result<Vec<Vec<u8>>, i64>;

/// In IPv6 the line shows how many entries moved too.
pub fn register(f: Faults) -> Line {
    let (cache, key, ad, ticket) = (f.cache(), f.key(), f.ad(), f.ticket());
    let request = Request {
        key: &key,
        window: f.window(),
        clock: f.now(),
        ad: &ad,
        vouched: f.vouched(),
        ticket: &ticket,
        reply_len: f.pick(&[(23, 88), (24, 90)], 89),
    };
    let untold = UNTOUCHED.into();
    let lent = &cache[..f.cache_len()];
    let register = f.choose(registrar::register as Register, small::register);
    let (answer, moves, cache, reply) = match register(lent, &request) {
        Err(refusal) => (-refusal, untold, cache, Err(refusal)),
        Ok((Registered::Confirmed(moves), after)) => (0, moves, after, Err(0)),
        Ok((Registered::Wait(wait, ticket, moves), after)) => {
            (wait as i64, moves, after, Ok(ticket))
        }
    };
    let moved = if f.is_v6() {
        format!(" {moves}")
    } else {
        String::new()
    };
    let (cache, reply) = (digest(&cache), digest(&buffer(90, &reply)));
    Line {
        label: f.label("register"),
        said: format!(" {answer}{moved} {cache} {reply}"),
        given: Given {
            output: Buffer(90, request.reply_len, Shown::Digest),
            told: f.is_v6(),
            numbers: f.choose(vec![request.window, request.clock], vec![request.clock]),
            parts: vec![key.clone(), ad.clone(), ticket.clone()],
            ..f.given(f.choose(Call::Register, Call::SmallRegister), Shown::Digest)
        },
    }
}

/// Of the pair that the cache holds; with 172 and 173 of another peer or service.
pub fn withdraw(f: Faults) -> Line {
    let mut service = run(0x40, f.pick(&[(21, 31), (22, 33)], 32));
    service[0] = f.pick(&[(173, 0x41)], 0x40);
    let mut peer = run(0x80, f.pick(&[(23, 31), (24, 33)], 32));
    peer[0] = f.pick(&[(172, 0x80)], 0x81);
    let cache = f.cache();
    let lent = &cache[..f.cache_len()];
    let withdraw = f.choose(registrar::withdraw as Withdraw, small::withdraw);
    let answer = withdraw(lent, &service, &peer, f.now(), f.vouched());
    let number = number(&answer);
    let after = digest(&answer.unwrap_or(cache));
    Line {
        label: f.label("withdraw"),
        said: format!(" {number} {after}"),
        given: Given {
            numbers: vec![f.now()],
            parts: vec![service, peer],
            ..f.given(f.choose(Call::Withdraw, Call::SmallWithdraw), Shown::Digest)
        },
    }
}

/// With 25 the list has the length of the other family's.
pub fn get_ads(f: Faults) -> Line {
    let service = run(0x40, f.pick(&[(21, 31), (22, 33)], 32));
    let size = f.family.list_len();
    let lengths = [
        (23, size - 1),
        (24, size + 1),
        (25, f.family.other().list_len()),
    ];
    let lent = f.pick(&lengths, size);
    let cache = f.cache();
    let get_ads = f.choose(registrar::get_ads as GetAds, small::get_ads);
    let answer = get_ads(&cache[..f.cache_len()], f.now(), &service, lent);
    let count = answer.as_ref().map_or_else(|n| -n, |ads| ads.len() as i64);
    let list = buffer(size + 1, &answer.map(|ads| ads.concat()));
    Line {
        label: f.label("get_ads"),
        said: format!(" {count} {}", digest(&list)),
        given: Given {
            output: Buffer(size + 1, lent, Shown::Digest),
            numbers: vec![f.now()],
            parts: vec![service],
            ..f.given(f.choose(Call::GetAds, Call::SmallGetAds), Shown::Not)
        },
    }
}

/// A call that writes to an output alone, and answers a refusal or 0.
fn written(f: Faults, name: &str, answer: Result<Vec<u8>, i64>, given: Given) -> Line {
    let out = hex(&buffer(given.output.0, &answer));
    Line {
        label: f.label(name),
        said: format!(" {} {out}", number(&answer)),
        given,
    }
}

fn service_id(f: Faults) -> Line {
    let protocol = vec![b'p'; f.pick(&[(121, 0), (122, 256)], 255)];
    let lent = f.pick(&[(21, 31), (22, 33)], 32);
    let answer = registrar::service_id(&protocol, lent);
    let given = Given {
        call: Call::ServiceId,
        output: Buffer(33, lent, Shown::Bytes),
        parts: vec![protocol],
        ..Given::default()
    };
    written(f, "service_id", answer, given)
}

fn read_ad(f: Faults) -> Line {
    let answer = Ad::read(f.family, &f.ad());
    let number = number(&answer);
    let ad = answer.unwrap_or(Ad {
        service: vec![UNTOUCHED; 32],
        peer: vec![UNTOUCHED; 32],
        address: vec![UNTOUCHED; f.family.address_len()],
        port: 7,
        stamp: 9,
        signature: vec![UNTOUCHED; 64],
    });
    let [service, peer, address] = [&ad.service, &ad.peer, &ad.address].map(|field| hex(field));
    let (port, stamp, signature) = (ad.port, ad.stamp, hex(&ad.signature));
    Line {
        label: f.label("read_ad"),
        said: format!(" {number} {service} {peer} {address} {port} {stamp} {signature}"),
        given: Given {
            call: if f.is_v6() {
                Call::ReadAdV6
            } else {
                Call::ReadAd
            },
            parts: vec![f.ad()],
            ..Given::default()
        },
    }
}

/// With 27 and 28 the output and the address have the lengths of the other family's.
fn write_ad(f: Faults) -> Line {
    let (own, other) = (f.family, f.family.other());
    let mut ad = f.fields();
    let places = [(25, own.address_len() - 1), (28, other.address_len())];
    ad.service = run(0x40, f.pick(&[(23, 31)], 32));
    ad.peer = run(0x80, f.pick(&[(24, 33)], 32));
    ad.address = run(0xc0, f.pick(&places, own.address_len()));
    ad.signature = run(0xf0, f.pick(&[(26, 63)], 64));
    let size = own.ad_len();
    let lengths = [(21, size - 1), (22, size + 1), (27, other.ad_len())];
    let lent = f.pick(&lengths, size);
    let answer = registrar::write_ad(own, &ad, lent);
    let given = Given {
        call: if f.is_v6() {
            Call::WriteAdV6
        } else {
            Call::WriteAd
        },
        output: Buffer(size + 1, lent, Shown::Bytes),
        port: ad.port,
        numbers: vec![ad.stamp],
        parts: vec![ad.service, ad.peer, ad.address, ad.signature],
        ..Given::default()
    };
    written(f, "write_ad", answer, given)
}

fn read_ticket(f: Faults) -> Line {
    let answer = registrar::read_ticket(&f.key(), &f.ticket());
    let number = number(&answer);
    let ticket = answer.unwrap_or(Ticket {
        ad_hash: vec![UNTOUCHED; 32],
        first: 7,
        issued: 8,
        wait: 9,
    });
    let ad_hash = hex(&ticket.ad_hash);
    let (first, issued, wait) = (ticket.first, ticket.issued, ticket.wait);
    Line {
        label: f.label("read_ticket"),
        said: format!(" {number} {ad_hash} {first} {issued} {wait}"),
        given: Given {
            call: Call::ReadTicket,
            parts: vec![f.key(), f.ticket()],
            ..Given::default()
        },
    }
}

fn write_ticket(f: Faults) -> Line {
    let mut ticket = f.ticket_fields();
    ticket.ad_hash = run(0x60, f.pick(&[(25, 31), (26, 33)], 32));
    let lent = f.pick(&[(23, 88), (24, 90)], 89);
    let answer = registrar::write_ticket(&f.key(), &ticket, lent);
    let given = Given {
        call: Call::WriteTicket,
        output: Buffer(90, lent, Shown::Bytes),
        numbers: vec![ticket.first, ticket.issued, ticket.wait],
        parts: vec![f.key(), ticket.ad_hash],
        ..Given::default()
    };
    written(f, "write_ticket", answer, given)
}

/// A log record written with these parts. The writers answer 0 or the refusal itself: they are not exported.
fn log_line(
    f: Faults,
    (call, name): (Call, &str),
    output: Buffer,
    parts: Vec<Vec<u8>>,
    answer: Result<Vec<u8>, i64>,
) -> Line {
    let out = hex(&buffer(output.0, &answer));
    Line {
        label: f.label(name),
        said: format!(" {} {out}", -number(&answer)),
        given: Given {
            call,
            vouched: !f.has(51) as u8,
            output,
            numbers: vec![LOG_CLOCK],
            parts,
            ..Given::default()
        },
    }
}

/// An ad's body, a byte less or more where that is the fault.
fn body(f: Faults) -> Vec<u8> {
    let mut body = f.fields().body();
    body.push(0x30);
    body.truncate(f.pick(&[(23, 141), (24, 143)], 142));
    body
}

fn write_ask(f: Faults) -> Line {
    let lent = f.pick(&[(21, 151), (22, 153)], 152);
    let body = body(f);
    let answer = log::write_ask(LOG_CLOCK, !f.has(51), &body, lent);
    let output = Buffer(153, lent, Shown::Bytes);
    log_line(f, (Call::WriteAsk, "write_ask"), output, vec![body], answer)
}

fn write_return(f: Faults) -> Line {
    let lent = f.pick(&[(21, 239), (22, 241)], 240);
    let mut ticket = f.whole_ticket()[1..].to_vec();
    ticket.push(0);
    ticket.truncate(f.pick(&[(25, 87), (26, 89)], 88));
    let body = body(f);
    let answer = log::write_return(LOG_CLOCK, !f.has(51), &body, &ticket, lent);
    let output = Buffer(241, lent, Shown::Bytes);
    let parts = vec![body, ticket];
    log_line(
        f,
        (Call::WriteReturn, "write_return"),
        output,
        parts,
        answer,
    )
}

fn write_list(f: Faults) -> Line {
    let lent = f.pick(&[(21, 40), (22, 42)], 41);
    let service = run(0x40, f.pick(&[(23, 31), (24, 33)], 32));
    let answer = log::write_list(LOG_CLOCK, &service, lent);
    let output = Buffer(42, lent, Shown::Bytes);
    let parts = vec![service];
    log_line(f, (Call::WriteList, "write_list"), output, parts, answer)
}

/// A call, whether it has a family, its faults, and the pairs.
struct Cases {
    line: fn(Faults) -> Line,
    families: bool,
    faults: &'static [u8],
    pairs: &'static [(u8, u8)],
}

const CASES: [Cases; 11] = [
    Cases {
        line: register,
        families: true,
        faults: &[
            10, 11, 12, 13, 14, 15, 16, 17, 18, 19, 21, 22, 23, 24, 25, 26, 27, 31, 32, 41, 42,
            131, 141, 51, 52, 53, 61, 71, 72, 73, 81, 91, 92, 93, 94, 101, 102, 103, 104, 105, 106,
            111, 112, 113, 114, 115, 116, 117, 171, 178, 1, 2, 3, 43, 132,
        ],
        pairs: &[
            (11, 21),
            (21, 31),
            (31, 41),
            (41, 131),
            (131, 141),
            (141, 51),
            (51, 61),
            (61, 73),
            (73, 81),
            (81, 91),
            (91, 101),
            (101, 111),
            (11, 25),
            (25, 31),
            (25, 111),
            (61, 171),
        ],
    },
    Cases {
        line: withdraw,
        families: true,
        faults: &[
            10, 11, 12, 13, 14, 15, 16, 17, 18, 19, 21, 22, 23, 24, 31, 32, 51, 52, 53, 171, 172,
            173, 174, 175, 176, 177, 178, 1, 2, 3,
        ],
        pairs: &[
            (11, 21),
            (21, 31),
            (31, 51),
            (51, 171),
            (171, 176),
            (171, 177),
            (172, 176),
            (176, 178),
        ],
    },
    Cases {
        line: get_ads,
        families: true,
        faults: &[
            10, 11, 12, 13, 14, 15, 16, 17, 18, 19, 21, 22, 23, 24, 31, 32, 171, 177, 1, 2, 3, 25,
        ],
        pairs: &[(11, 21), (21, 31), (171, 177)],
    },
    Cases {
        line: service_id,
        families: false,
        faults: &[21, 22, 121, 122],
        pairs: &[(21, 121)],
    },
    Cases {
        line: read_ad,
        families: true,
        faults: &[41, 42, 131, 141, 43, 132],
        pairs: &[(41, 131), (131, 141)],
    },
    Cases {
        line: write_ad,
        families: true,
        faults: &[21, 22, 23, 24, 25, 26, 141, 27, 28],
        pairs: &[(21, 141)],
    },
    Cases {
        line: read_ticket,
        families: false,
        faults: &[21, 22, 71, 72, 73, 74, 81, 91, 92, 93, 94, 95, 96, 97],
        pairs: &[(21, 73), (73, 81), (81, 91)],
    },
    Cases {
        line: write_ticket,
        families: false,
        faults: &[21, 22, 23, 24, 25, 26, 91, 92, 93, 94, 95, 96, 97],
        pairs: &[(21, 91)],
    },
    Cases {
        line: write_ask,
        families: false,
        faults: &[21, 22, 23, 24, 51],
        pairs: &[(21, 23)],
    },
    Cases {
        line: write_return,
        families: false,
        faults: &[21, 22, 23, 24, 25, 26, 51],
        pairs: &[(21, 23), (23, 25)],
    },
    Cases {
        line: write_list,
        families: false,
        faults: &[21, 22, 23, 24],
        pairs: &[(21, 23)],
    },
];

impl Cases {
    fn lines(&self, family: Family) -> Vec<Line> {
        let alone = [0].iter().chain(self.faults).map(|fault| (*fault, 0));
        let faults = alone.chain(self.pairs.iter().copied());
        let line = |(one, next)| (self.line)(Faults::of(family, one, next));
        faults.map(line).collect()
    }
}

/// Hashes of a text into a buffer of this length, with a key where there is one.
fn hash_line(name: String, call: Call, key: Option<Vec<u8>>, length: usize, said: String) -> Line {
    Line {
        label: format!("{name}:"),
        said: format!(" {said}"),
        given: Given {
            call,
            output: Buffer(length, length, Shown::Bytes),
            parts: key.into_iter().chain([b"text".to_vec()]).collect(),
            ..Given::default()
        },
    }
}

pub fn hashes() -> Vec<Line> {
    let tag = |length| {
        let key = run(0xf0, length);
        let said = format!("0 {}", hex(&hmac(&key, b"text")));
        hash_line(format!("hmac {length}"), Call::Hmac, Some(key), 32, said)
    };
    let mut lines: Vec<Line> = [63, 64, 65].map(tag).into_iter().collect();
    for length in [31, 33] {
        let said = format!("-2 {}", hex(&vec![UNTOUCHED; length]));
        let key = Some(b"key".to_vec());
        let names = ["sha256", "hmac"].map(|name| format!("{name} into {length}"));
        let [plain, keyed] = names;
        lines.push(hash_line(plain, Call::Sha256, None, length, said.clone()));
        lines.push(hash_line(keyed, Call::Hmac, key, length, said));
    }
    lines
}

/// The interface's number is the header's.
pub fn version() -> Line {
    Line {
        label: "version:".to_string(),
        said: " 6".to_string(),
        given: Given {
            call: Call::Version,
            ..Given::default()
        },
    }
}

pub fn lines() -> Vec<Line> {
    let v6 = CASES.iter().filter(|cases| cases.families);
    let v4 = CASES.iter().flat_map(|cases| cases.lines(Family::V4));
    v4.chain(v6.flat_map(|cases| cases.lines(Family::V6)))
        .collect()
}
