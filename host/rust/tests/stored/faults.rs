//! What a call is given where one or two things are wrong with it.
//!
//! A fault is the number of the refusal that it is to get with a digit behind it; those below 10 are of refusal 1 too.
use super::run;
use crate::oracle::cache::{Cache, Entry};
use crate::oracle::family::Family;
use crate::oracle::record::{Ad, Ticket};
use crate::oracle::sha256::hmac;
use crate::oracle::{CLOCK_MAX, LIFETIME, USUAL_WINDOW, WINDOWS};

/// One or two faults of a request to a cache of a family; 0 is none. Where `small`, the call is one of the small-registrar profile.
#[derive(Clone, Copy)]
pub struct Faults {
    pub family: Family,
    pub small: bool,
    pub one: u8,
    pub next: u8,
}

impl Faults {
    pub fn of(family: Family, one: u8, next: u8) -> Faults {
        let small = false;
        Faults {
            family,
            small,
            one,
            next,
        }
    }

    pub fn small(family: Family, one: u8, next: u8) -> Faults {
        let small = true;
        Faults {
            small,
            ..Faults::of(family, one, next)
        }
    }

    pub fn none(family: Family) -> Faults {
        Faults::of(family, 0, 0)
    }

    /// The same without faults, but for those of the stamp where they are kept.
    fn good(self, stamps: bool) -> Faults {
        let kept = |fault| if stamps && fault / 10 == 20 { fault } else { 0 };
        Faults {
            one: kept(self.one),
            next: kept(self.next),
            ..self
        }
    }

    pub fn has(self, fault: u8) -> bool {
        self.one == fault || self.next == fault
    }

    /// The value of the first fault here that the request has, else the good one.
    pub fn pick<T: Copy>(self, wrong: &[(u8, T)], good: T) -> T {
        let found = wrong.iter().find(|(fault, _)| self.has(*fault));
        found.map_or(good, |(_, value)| *value)
    }

    /// What the line of a call begins with; IPv4's without a name of the family.
    pub fn label(self, call: &str) -> String {
        let family = match self.family {
            Family::V4 => "",
            Family::V6 => "IPv6 ",
        };
        let small = if self.small { "small " } else { "" };
        match self.next {
            0 => format!("{family}{small}{call} {}:", self.one),
            next => format!("{family}{small}{call} {}+{next}:", self.one),
        }
    }

    pub fn key(self) -> Vec<u8> {
        run(0x10, self.pick(&[(21, 31), (22, 33)], 32))
    }

    /// The good ticket is due at 3,000.
    pub fn now(self) -> u64 {
        let others = [
            (32, CLOCK_MAX + 1),
            (112, 3001 + USUAL_WINDOW),
            (113, 3000 + USUAL_WINDOW),
            (114, 3002),
            (115, 3001),
            (116, 3001 + WINDOWS.end()),
            (117, 3000 + WINDOWS.end()),
            (174, 1000 + LIFETIME),
            (175, 999 + LIFETIME),
            (176, 1000 + LIFETIME),
            (177, 999 + LIFETIME),
        ];
        self.pick(&others, 3000)
    }

    pub fn window(self) -> u64 {
        let (least, most) = (*WINDOWS.start(), *WINDOWS.end());
        let others = [
            (25, least - 1),
            (26, most + 1),
            (27, u64::MAX),
            (114, least),
            (115, least),
            (116, most),
            (117, most),
        ];
        self.pick(&others, USUAL_WINDOW)
    }

    /// The profile takes a stamp from 0 to now, 3,000: 201 to 203 are after it, and 204 and 205 are the ends.
    fn stamp(self) -> u64 {
        let good = if self.small {
            2_500
        } else {
            0xe0e1_e2e3_e4e5_e6e7
        };
        let others = [
            (105, good + 1),
            (201, 3_001),
            (202, u64::MAX),
            (203, 1 << 40),
            (204, 3_000),
            (205, 0),
        ];
        self.pick(&others, good)
    }

    /// With 103 to 106 the ad is another than the ticket names: by its address, port, stamp or signature.
    pub fn fields(self) -> Ad {
        let mut address = run(0xc0, self.family.address_len());
        *address.last_mut().unwrap() += self.pick(&[(103, 1)], 0);
        let mut signature = run(0xf0, 64);
        signature[63] = self.pick(&[(106, 0x30)], 0x2f);
        Ad {
            service: run(0x40, 32),
            peer: run(0x80, 32),
            address,
            port: self.pick(&[(141, 0), (104, 0xd0d2)], 0xd0d1),
            stamp: self.stamp(),
            signature,
        }
    }

    /// The ad's record; the byte that follows the signature where it is too long. With 43 it is one of the other family, with 132 of the other's kind.
    pub fn ad(self) -> Vec<u8> {
        let other = self.family.other();
        if self.has(43) {
            return Faults::none(other).ad();
        }
        let mut record = self.fields().record();
        record[0] = self.pick(&[(131, 2), (132, other.ad_kind())], record[0]);
        record.push(0x30);
        let size = self.family.ad_len();
        record.truncate(self.pick(&[(41, size - 1), (42, size + 1)], size));
        record
    }

    /// Capacity 2, clock 2,000, an ad of the service by a peer whose first byte differs, accepted at 1,000. With 171 it is withdrawn; with
    /// 176 and 177 another of the same pair follows, accepted at 2,000; with 178 the number of the expired is the last before 2^64.
    pub fn cache(self) -> Vec<u8> {
        let mut ad = self.good(false).fields();
        ad.peer[0] = self.pick(&[(61, 0x80)], 0x81);
        let mut held = Entry::new(self.pick(&[(16, 2001)], 1000), ad.clone());
        held.withdrawn = self.has(171);
        let mut entries = vec![held];
        if self.has(176) || self.has(177) {
            entries.push(Entry::new(2000, ad));
        }
        let clock = self.pick(&[(17, CLOCK_MAX + 1), (31, 3001)], 2000);
        let mut cache = Cache::holding(self.family, 2, clock, entries);
        // Wrong counts have the sum that would be right for them.
        let count = self.pick(&[(13, 3), (15, 2)], cache.confirmed);
        cache.expired = self.pick(&[(178, u64::MAX)], 0x0102_0304_0506_0708);
        cache.confirmed = cache.expired.wrapping_add(count);
        self.spoilt(cache.bytes(), count as u8)
    }

    /// The sum, the head's kind and capacity, its count, an entry's kind, a second entry of zeros, the last byte. With 1, 2 and 3 the head's kind
    /// and the entry's are the other family's.
    fn spoilt(self, mut bytes: Vec<u8>, count: u8) -> Vec<u8> {
        let (own, other) = (self.family, self.family.other());
        let (second, last) = (own.cache_len(1), bytes.len() - 1);
        bytes[20] ^= self.pick(&[(10, 1)], 0);
        bytes[0] = self.pick(&[(11, 4), (1, other.head_kind())], bytes[0]);
        bytes[2] = self.pick(&[(12, 3)], 2);
        bytes[4] = count;
        let kinds = [
            (14, 4),
            (2, other.entry_kind()),
            (3, other.withdrawn_kind()),
        ];
        bytes[29] = self.pick(&kinds, bytes[29]);
        bytes[second] = self.pick(&[(15, own.entry_kind())], bytes[second]);
        bytes[last] = self.pick(&[(18, 1)], bytes[last]);
        bytes
    }

    /// How much of the cache is lent.
    pub fn cache_len(self) -> usize {
        let size = self.family.cache_len(2);
        self.pick(&[(19, size - 1)], size)
    }

    pub fn vouched(self) -> u8 {
        self.pick(&[(51, 0), (52, 2), (53, 255)], 1)
    }

    /// A ticket for the good ad, which may have a wrong stamp. With 101 and 102 the hash is another by its first or its last byte.
    pub fn ticket_fields(self) -> Ticket {
        let issued = [
            (92, 3001),
            (95, CLOCK_MAX + 1),
            (96, CLOCK_MAX),
            (111, 2501),
        ];
        let mut ad_hash = self.good(true).fields().hash();
        ad_hash[0] ^= self.pick(&[(101, 1)], 0);
        ad_hash[31] ^= self.pick(&[(102, 1)], 0);
        Ticket {
            ad_hash,
            first: self.pick(&[(91, 2501)], 1000),
            issued: self.pick(&issued, 2500),
            wait: self.pick(&[(93, 0), (94, LIFETIME + 1), (97, LIFETIME)], 500),
        }
    }

    /// The ticket's 89 bytes, the tag right for whatever they are but where it is the fault.
    pub fn whole_ticket(self) -> Vec<u8> {
        let key = run(0x10, 32);
        let mut record = self.ticket_fields().record(&key);
        record[0] = self.pick(&[(73, 2)], 8);
        let tag = hmac(&key, &record[..57]);
        record[57..].copy_from_slice(&tag);
        record[88] ^= self.pick(&[(81, 1)], 0);
        record
    }

    /// The same, of another length where that is the fault.
    pub fn ticket(self) -> Vec<u8> {
        let mut record = self.whole_ticket();
        record.push(0);
        record.truncate(self.pick(&[(71, 88), (72, 90), (74, 0)], 89));
        record
    }
}
