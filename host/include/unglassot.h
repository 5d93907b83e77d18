/*
 * Unglassot: a registrar for Logos Capability Discovery, as a library for a host program.
 *
 * The host does the network and the signatures. It keeps a cache of advertisements in memory of its own, and hands the cache, a clock
 * and the bytes of a request to one of the calls below. A call keeps nothing: no allocation, no global state, no input or output.
 * Two calls on different caches may run at the same time, and so may calls on one cache that only read it (const); docs/HOSTS.md says more of
 * threads, of storing a cache and of the stack.
 *
 * A cache holds advertisements of one family of addresses, IPv4 or IPv6. The host tells which when it opens the cache; every later call
 * reads it off the kind of the cache's head (UNGLASSOT_KIND_HEAD, UNGLASSOT_KIND_HEAD_V6). The rules are the same in both, over 32 bits of an
 * address or 128. Of two constants that differ by _V6 one is IPv6's and the other IPv4's; every other constant holds for both. A host that
 * serves both families keeps a cache for each.
 *
 * Link with libunglassot.a (objects in ELF for Linux on x86-64).
 *
 * Answers
 *   Every call answers an int64_t. A negative number -n is refusal n (UNGLASSOT_REFUSED_...): nothing was written, and the cache, its
 *   clock and every lent buffer are as they were. 0 is done, confirmed or none; a positive number is a wait in milliseconds, a count,
 *   a length or the version. Where several refusals apply, the one that stands first in the call's list is given. The numbers do not rise along
 *   every list: an advertisement is checked for 4, 13 and 14, one directly after the other.
 *
 * The caller's duties
 *   - A buffer is a pointer and the number of bytes that the call may use there. The pointer may be NULL only where that number is 0.
 *     A wrong length is no breach: it is answered with a refusal.
 *   - A pointer without a length (an array of fixed size, a uint16_t * or uint64_t *) is never NULL, and a number's is aligned.
 *   - A buffer that a call writes (any pointer without const) overlaps no other buffer of the same call.
 *   - The key is secret and stays the same as long as tickets written under it are to be taken.
 *
 * Time
 *   A clock is in milliseconds from an epoch that the host chooses, 0 to UNGLASSOT_CLOCK_MAX: 34 years. Milliseconds since 1970 have been
 *   above that since 2004, so a host that hands in its system's clock as it is gets refusal 3 from every call with a clock. Choose a time
 *   shortly before the registrar first runs, in milliseconds since 1970, and hand in the system's clock less that. Entries and tickets
 *   carry clocks, so the epoch is kept as long as the cache and the key: with a later one calls are refused (3) until the clock has
 *   caught up, with an earlier one entries expire too soon. When the 34 years are over, begin anew: another epoch, the cache opened
 *   again, another key. A system's clock that was set back gives refusal 3 until it has caught up; a host may hand in the cache's own
 *   clock (UNGLASSOT_HEAD_CLOCK) for that time.
 *   A host that exchanges messages of Protocol Buffers, whose timestamps are Unix seconds, chooses an epoch at a whole second.
 *
 * Version
 *   UNGLASSOT_VERSION is the number of the interface that this header describes, and unglassot_version() that of the archive. It rises
 *   with every change of a call's shape or of a length. Compare them at the start, with unglassot_is_this_version(): a linker does not
 *   notice another list of parameters.
 *   A host that was compiled for an earlier version has to be compiled anew; CHANGELOG.md has what each version changed, and what becomes of
 *   the caches and tickets of an earlier one.
 *
 * Small registrars
 *   The six calls with small_ in their names are a set beside the full ones: the small-registrar profile (document 02's hall-desk profile, the
 *   old-swatch label). Take it for a small registrar, with a cache of at most UNGLASSOT_SMALL_CAPACITY_MAX places, that also wants stamps judged. Each
 *   takes what the full call takes, but for the window, which is UNGLASSOT_SMALL_WINDOW. Under it
 *   - a cache of more places is refused (1);
 *   - an advertisement whose stamp is after the clock, or more than UNGLASSOT_STAMP_AGE_MAX ms before it, is not registered (20), neither at a first
 *     request nor at a return: who waited until its stamp was too old renews it, which is another advertisement, and starts afresh;
 *   - an entry whose stamp has since grown older than that is neither listed nor handed out. It keeps its place, counts in everybody's wait, brings
 *     refusal 6, can be withdrawn and expires as every other.
 *   In all else the calls answer what the full ones answer with that window, and leave the same bytes.
 *   A stamp is compared with the clock that the host hands in. So advertisers stamp in milliseconds of the registrar's epoch, which the host lets them
 *   know: Unix milliseconds are after now and refused, and so is an advertiser whose clock is ahead by a millisecond.
 *   The same cache may be served by both sets. What the full REGISTER admits may have any stamp, also one after now, which is listed here as it has not
 *   grown older. An advertisement by itself, messages, tickets and identifiers know no profile.
 *
 * Numbers in records are big-endian.
 */
#ifndef UNGLASSOT_H
#define UNGLASSOT_H

#include <stddef.h>
#include <stdint.h>

#ifdef __cplusplus
extern "C" {
#endif

/* The number of this interface. */
#define UNGLASSOT_VERSION 6

/* Settings. */
#define UNGLASSOT_LIFETIME 900000           /* ms that an accepted advertisement is live */
#define UNGLASSOT_USUAL_WINDOW 10000        /* ms after the end of a ticket's wait in which it is taken: for a host without a reason for another */
#define UNGLASSOT_WINDOW_MIN 1              /* the shortest window that a call takes */
#define UNGLASSOT_WINDOW_MAX 60000          /* the longest */
#define UNGLASSOT_CAPACITY_MAX 1000         /* advertisements that a cache can hold, 1 to this */
#define UNGLASSOT_BOUNDS_MAX 1000           /* places that a buffer of bounds can have, 1 to this */
#define UNGLASSOT_LISTED_MAX 10             /* advertisements in a listing */
#define UNGLASSOT_PROTOCOL_MAX 255          /* bytes of a protocol ID, 1 to this */
#define UNGLASSOT_CLOCK_MAX ((UINT64_C(1) << 40) - 1)    /* ms from the host's epoch */
#define UNGLASSOT_EPOCH_MAX ((UINT64_C(1) << 33) - 1)    /* an epoch that messages are read and written under, in Unix seconds */

/* Settings of the small-registrar profile. */
#define UNGLASSOT_SMALL_CAPACITY_MAX 64     /* advertisements that a cache can hold, 1 to this */
#define UNGLASSOT_SMALL_WINDOW 10000        /* ms after the end of a ticket's wait in which it is taken */
#define UNGLASSOT_STAMP_AGE_MAX UINT64_C(2592000000)     /* ms that a stamp may be before the clock: thirty days */

/* The families of addresses, as unglassot_open is told them. */
#define UNGLASSOT_FAMILY_V4 4
#define UNGLASSOT_FAMILY_V6 6

/* Sizes in bytes. */
#define UNGLASSOT_KEY_LEN 32
#define UNGLASSOT_ID_LEN 32                 /* a service identifier, a peer identifier */
#define UNGLASSOT_ADDRESS_LEN 4             /* IPv4 */
#define UNGLASSOT_ADDRESS_V6_LEN 16
#define UNGLASSOT_SIGNATURE_LEN 64
#define UNGLASSOT_DIGEST_LEN 32             /* a SHA-256 digest, an HMAC-SHA-256 tag */
#define UNGLASSOT_AD_LEN 143
#define UNGLASSOT_AD_V6_LEN 155
#define UNGLASSOT_TICKET_LEN 89
#define UNGLASSOT_MESSAGE_MAX 150           /* the longest message; the shortest has 146 */
#define UNGLASSOT_LIST_LEN 1430             /* UNGLASSOT_LISTED_MAX advertisements */
#define UNGLASSOT_LIST_V6_LEN 1550
#define UNGLASSOT_HEAD_LEN 29
#define UNGLASSOT_ENTRY_LEN 151
#define UNGLASSOT_ENTRY_V6_LEN 163
#define UNGLASSOT_BOUND_LEN 45              /* a lower bound, a place of a buffer of bounds */
#define UNGLASSOT_BOUND_V6_LEN 57
#define UNGLASSOT_CACHE_LEN(capacity) (UNGLASSOT_HEAD_LEN + UNGLASSOT_ENTRY_LEN * UNGLASSOT_SIZE(capacity))
#define UNGLASSOT_CACHE_V6_LEN(capacity) (UNGLASSOT_HEAD_LEN + UNGLASSOT_ENTRY_V6_LEN * UNGLASSOT_SIZE(capacity))
#define UNGLASSOT_BOUNDS_LEN(places) (UNGLASSOT_BOUND_LEN * UNGLASSOT_SIZE(places))
#define UNGLASSOT_BOUNDS_V6_LEN(places) (UNGLASSOT_BOUND_V6_LEN * UNGLASSOT_SIZE(places))
#ifdef __cplusplus
#define UNGLASSOT_SIZE(number) static_cast<size_t>(number)
#else
#define UNGLASSOT_SIZE(number) ((size_t)(number))
#endif

/* The first byte of a record. */
#define UNGLASSOT_KIND_AD 1
#define UNGLASSOT_KIND_ENTRY 3
#define UNGLASSOT_KIND_TICKET 8
#define UNGLASSOT_KIND_AD_V6 10
#define UNGLASSOT_KIND_ENTRY_V6 11
#define UNGLASSOT_KIND_HEAD_V6 12
#define UNGLASSOT_KIND_WITHDRAWN 13         /* an entry that is withdrawn */
#define UNGLASSOT_KIND_HEAD 14
#define UNGLASSOT_KIND_WITHDRAWN_V6 16
#define UNGLASSOT_KIND_BOUND 17             /* in both families */

/* Where the fields of an advertisement begin. The kind is at 0. In an IPv6 one the address is longer, and what follows it begins later. */
#define UNGLASSOT_AD_SERVICE 1              /* 32 bytes */
#define UNGLASSOT_AD_PEER 33                /* 32 bytes */
#define UNGLASSOT_AD_ADDRESS 65             /* 4 bytes; 16 in an IPv6 one */
#define UNGLASSOT_AD_PORT 69                /* 2 bytes, not 0 */
#define UNGLASSOT_AD_STAMP 71               /* 8 bytes, carried; the full calls do not judge it, those of small registrars do */
#define UNGLASSOT_AD_SIGNATURE 79           /* 64 bytes, for the host to check */
#define UNGLASSOT_AD_V6_PORT 81
#define UNGLASSOT_AD_V6_STAMP 83
#define UNGLASSOT_AD_V6_SIGNATURE 91

/* Where the fields of a ticket begin, for an advertisement of either family. The kind is at 0. */
#define UNGLASSOT_TICKET_AD_HASH 1          /* 32 bytes, SHA-256 of the advertisement's 143 or 155 bytes, its kind and all that follows */
#define UNGLASSOT_TICKET_FIRST 33           /* 8 bytes, time of the first request */
#define UNGLASSOT_TICKET_ISSUED 41          /* 8 bytes, time at which this ticket was written */
#define UNGLASSOT_TICKET_WAIT 49            /* 8 bytes, ms from issued until it is taken */
#define UNGLASSOT_TICKET_TAG 57             /* 32 bytes, HMAC-SHA-256 of the 57 bytes before it under the registrar's key */

/*
 * Where the fields of a cache begin, in both families. Entries follow the head, oldest first, withdrawn ones in their places among them, then
 * zeros: the entry in place i, from 0 on, begins at UNGLASSOT_CACHE_LEN(i), in an IPv6 cache at UNGLASSOT_CACHE_V6_LEN(i). Both counters are
 * since the opening and modulo 2^64, and confirmed is expired plus count, modulo 2^64: a cache in which it is not is refused (1). All
 * entries are of the head's family: kinds 3 and 13 behind a head of kind 14, kinds 11 and 16 behind one of kind 12. The head's kind tells the
 * family and the length does not: 24,642 bytes, and five other lengths, are an IPv4 cache or an IPv6 cache.
 */
#define UNGLASSOT_HEAD_CAPACITY 1           /* 2 bytes */
#define UNGLASSOT_HEAD_COUNT 3              /* 2 bytes, entries held, expired and withdrawn ones too */
#define UNGLASSOT_HEAD_CLOCK 5              /* 8 bytes, clock of the last REGISTER or WITHDRAW that was not refused */
#define UNGLASSOT_HEAD_CONFIRMED 13         /* 8 bytes, how many REGISTERs were confirmed */
#define UNGLASSOT_HEAD_EXPIRED 21           /* 8 bytes, how many entries were removed as expired, withdrawn ones too */
#define UNGLASSOT_ENTRY_ACCEPTED 1          /* 8 bytes, from the entry's start */
#define UNGLASSOT_ENTRY_BODY 9              /* 142 bytes, 154 in an IPv6 cache: an advertisement without its kind */

/*
 * Where the fields of a lower bound begin. The kind is at 0. A buffer of bounds has no head: bounds stand at its front in the order in which they
 * were entered, each pair of service and address once, with an until of at most UNGLASSOT_CLOCK_MAX + UNGLASSOT_LIFETIME, then zeros. The cache
 * that it is lent with tells the family, and the length does not: 2,565 bytes are 57 places of IPv4 or 45 of IPv6.
 */
#define UNGLASSOT_BOUND_SERVICE 1           /* 32 bytes */
#define UNGLASSOT_BOUND_ADDRESS 33          /* 4 bytes; 16 in an IPv6 one */
#define UNGLASSOT_BOUND_UNTIL 37            /* 8 bytes, the clock from which on it holds nobody back */
#define UNGLASSOT_BOUND_V6_UNTIL 49

/* Refusals. A call answers the negative of the number. */
#define UNGLASSOT_REFUSED_CACHE 1           /* the cache is not well formed, or a small registrar's has more than 64 places; for opening, no capacity fits its length */
#define UNGLASSOT_REFUSED_LENGTH 2          /* a key, an identifier, a field or a buffer for the answer has a wrong length, or the window is out of range */
#define UNGLASSOT_REFUSED_CLOCK 3           /* the clock is before the cache's last clock, or above UNGLASSOT_CLOCK_MAX */
#define UNGLASSOT_REFUSED_AD_LENGTH 4       /* the advertisement is not 143 bytes, for IPv6 not 155: one of the other family falls here */
#define UNGLASSOT_REFUSED_SIGNATURE 5       /* the host does not vouch for the signature */
#define UNGLASSOT_REFUSED_HELD 6            /* a live entry has this service and peer */
#define UNGLASSOT_REFUSED_TICKET 7          /* the ticket is neither empty nor 89 bytes, or not of kind 8 */
#define UNGLASSOT_REFUSED_TAG 8             /* the ticket's tag is not this registrar's */
#define UNGLASSOT_REFUSED_TIMES 9           /* not first <= issued <= clock, or wait not 1 to 900,000 */
#define UNGLASSOT_REFUSED_OTHER 10          /* the ticket is for another advertisement: one that differs in any byte */
#define UNGLASSOT_REFUSED_WINDOW 11         /* the ticket is brought before issued + wait or after issued + wait + window */
#define UNGLASSOT_REFUSED_PROTOCOL 12       /* the protocol ID is not 1 to 255 bytes */
#define UNGLASSOT_REFUSED_AD_KIND 13        /* the advertisement is not of kind 1, for IPv6 not of kind 10 */
#define UNGLASSOT_REFUSED_AD_PORT 14        /* the advertisement has port 0 */
#define UNGLASSOT_REFUSED_MESSAGE 15        /* the message is not in the accepted form, or its second is before the epoch or past UNGLASSOT_CLOCK_MAX */
#define UNGLASSOT_REFUSED_NO_MESSAGE 16     /* the epoch is out of range, or the advertisement (4, 13, 14) or its stamp cannot be told in a message */
#define UNGLASSOT_REFUSED_NOT_HELD 17       /* there is no live entry of this service and peer that is not withdrawn */
#define UNGLASSOT_REFUSED_BOUNDS 18         /* the bounds are not of their form (above, where their fields stand) */
#define UNGLASSOT_REFUSED_NO_PLACE 19       /* a ticket would be issued, this service and address have no bound, and every place has one with until > clock */
#define UNGLASSOT_REFUSED_STAMP 20          /* for a small registrar: the advertisement's stamp is after the clock, or more than 2,592,000,000 ms before it */

/* What an answer below 0 says, in a sentence without its full stop; for any other number, that it is no refusal. */
static inline const char *unglassot_refusal_text(int64_t answer) {
    switch (answer) {
    case -UNGLASSOT_REFUSED_CACHE:
        return "the cache is not well formed, or no capacity fits its length (a small registrar's: of at most 64), or the family is neither 4 nor 6";
    case -UNGLASSOT_REFUSED_LENGTH:
        return "a key, an identifier, a field or a buffer for the answer has a wrong length, or the window is not 1 to 60,000 ms";
    case -UNGLASSOT_REFUSED_CLOCK:
        return "the clock is before the cache's last clock, or above 2^40 - 1";
    case -UNGLASSOT_REFUSED_AD_LENGTH:
        return "the advertisement is not 143 bytes (IPv4) or 155 (IPv6)";
    case -UNGLASSOT_REFUSED_SIGNATURE:
        return "the signature is not vouched for";
    case -UNGLASSOT_REFUSED_HELD:
        return "a live entry already has this service and peer";
    case -UNGLASSOT_REFUSED_TICKET:
        return "the ticket is not 89 bytes of kind 8";
    case -UNGLASSOT_REFUSED_TAG:
        return "the ticket's tag is not this registrar's";
    case -UNGLASSOT_REFUSED_TIMES:
        return "the ticket's times are out of order, in the future, or its wait is not 1 to 900,000 ms";
    case -UNGLASSOT_REFUSED_OTHER:
        return "the ticket is for another advertisement";
    case -UNGLASSOT_REFUSED_WINDOW:
        return "the ticket is brought before its wait has passed, or after the window that follows";
    case -UNGLASSOT_REFUSED_PROTOCOL:
        return "the protocol ID is not 1 to 255 bytes";
    case -UNGLASSOT_REFUSED_AD_KIND:
        return "the advertisement is not of kind 1 (IPv4) or 10 (IPv6)";
    case -UNGLASSOT_REFUSED_AD_PORT:
        return "the advertisement has port 0";
    case -UNGLASSOT_REFUSED_MESSAGE:
        return "the message is not an Advertisement in the accepted form, or its timestamp is outside the clock's range";
    case -UNGLASSOT_REFUSED_NO_MESSAGE:
        return "the epoch is not below 2^33, or the advertisement has no message: its check refuses it, or its stamp is above 2^40 - 1 or no whole second";
    case -UNGLASSOT_REFUSED_NOT_HELD:
        return "there is no live entry of this service and peer that is not withdrawn";
    case -UNGLASSOT_REFUSED_BOUNDS:
        return "the bounds are not 1 to 1,000 places of the cache's family, with no until past its range, each service and address once and zeros behind the last";
    case -UNGLASSOT_REFUSED_NO_PLACE:
        return "the wait is not over, and every place of the bounds is in force for another service or address";
    case -UNGLASSOT_REFUSED_STAMP:
        return "the advertisement's stamp is after the clock, or more than 2,592,000,000 ms before it";
    default:
        return "no refusal";
    }
}

/*
 * Returns the number of the interface that the archive has. It never refuses.
 */
int64_t unglassot_version(void);

/* Whether the archive is of this header's version. If not, make no other call. */
static inline int unglassot_is_this_version(void) {
    return unglassot_version() == UNGLASSOT_VERSION;
}

/*
 * Makes an empty cache of all of the cache_len bytes, whatever they were. Of the family UNGLASSOT_FAMILY_V4 it has UNGLASSOT_CACHE_LEN(C) bytes
 * for a capacity of C, of UNGLASSOT_FAMILY_V6 it has UNGLASSOT_CACHE_V6_LEN(C). Every other call finds the family in the cache.
 * Returns 0. Refusals: 1 (also a family that is neither).
 */
int64_t unglassot_open(uint8_t *cache, size_t cache_len, uint64_t family);

/*
 * REGISTER: admits an advertisement, or says how long to wait and writes a ticket to come back with.
 *
 *   cache    what unglassot_open made, or any other well-formed cache
 *   key      32 bytes, the registrar's secret
 *   window   for how many ms after the end of its wait a ticket is taken, 1 to 60,000; UNGLASSOT_USUAL_WINDOW if nothing speaks for
 *            another. The window of the call that brings a ticket back decides, not that of the call that wrote it.
 *   clock    now, from the host's epoch; not before the clock of the last REGISTER or WITHDRAW that was not refused (the cache keeps it)
 *   ad       the advertisement that the advertiser sent: 143 bytes for an IPv4 cache, 155 for an IPv6 cache
 *   vouched  1 where the host has checked the advertisement's signature and found it good; any other value is no
 *   ticket   what the advertiser brought back; length 0 for a first request
 *   reply    89 bytes, for the new ticket: never the buffer of ticket, nor one that overlaps it (the caller's duties), also where the new
 *            ticket is to replace the old one; copy it there after the call
 *   moves    gets how many held entries changed their place in the call, which is what it had to carry: those that stay, if at least
 *            one expired, and else 0. The newcomer is not counted, so it is at most the capacity less 1. A refusal leaves it as it was.
 *
 * A ticket belongs to the very advertisement that it was written for, every byte of it: service and peer, and address, port, stamp and
 * signature too. With any other it is refused (10), however long its bearer has stayed: who moves to another address, or renews the
 * stamp or the signature, starts afresh, with ticket_len 0. It names the advertisement by its SHA-256. Two advertisements with one hash
 * would be taken for each other; that would be a collision of SHA-256, which nothing here excludes.
 *
 * Returns 0: confirmed. Expired entries have left the cache, the advertisement is in it behind the others, reply is untouched. The counter
 * of confirmed advertisements is one more, and with either answer that of expired entries is more by as many as have left.
 * Returns a positive number: the milliseconds to wait, 1 to 900,000. Expired entries have left the cache, its clock is clock, and reply
 * has a ticket that is taken with this advertisement from clock + wait to clock + wait + window, by a call with that window. The end of
 * that wait promises no admission: the wait is reckoned anew on return, less the time since the first request.
 * Refusals: 1, 2 (key, reply, window), 3, 4, 13, 14, 5, 6, 7, and where ticket_len is not 0 also 8, 9, 10, 11.
 */
int64_t unglassot_register(uint8_t *cache, size_t cache_len, const uint8_t *key, size_t key_len, uint64_t window, uint64_t clock,
                           const uint8_t *ad, size_t ad_len, uint8_t vouched, const uint8_t *ticket, size_t ticket_len, uint8_t *reply,
                           size_t reply_len, uint64_t *moves);

/*
 * REGISTER with lower bounds: asking again from the start never shortens a wait. Who drops a ticket and asks again when the registrar looks emptier
 * is told to come back no earlier than before.
 *
 *   bounds   what the last such call on this cache left, or zeros: UNGLASSOT_BOUNDS_LEN(n) bytes for an IPv4 cache, UNGLASSOT_BOUNDS_V6_LEN(n) for
 *            an IPv6 cache, of 1 to UNGLASSOT_BOUNDS_MAX places. Lend as many places as pairs of service and address may be waiting at once.
 *   others   as for REGISTER; no two buffers that are written overlap, cache, bounds and reply
 *
 * A bound says until when whoever asks for a service from an address is to wait. The wait used here is the larger of REGISTER's and until - clock, of
 * the bound of the advertisement's service and address, if there is one. Who stayed that long is confirmed; a ticket tells what is left of it, and all
 * else of the answer, the cache, the reply and moves is REGISTER's.
 *
 * When a ticket is issued, bounds with until <= clock are dropped, the pair's own is rewritten in its place, or a new one is written behind the
 * others; its until is clock plus the wait used, or plus 900,000 where that is less, before the time stayed is taken off. CONFIRMED and refusals leave
 * the bounds as they were, and no other call looks at them. Who keeps its ticket loses nothing by its own bound; it may be confirmed before until.
 *
 * Zeros are empty bounds, and there is no call that opens them: set them to zero whenever you open the cache, and store them with it. The promise is
 * over calls that are each given the cache and the bounds as the last left them. REGISTER on the same cache knows no bounds, so a host that wants the
 * promise registers by this call alone. Peers behind one address that ask for one service share a bound, so that one's ticket can hold another back.
 * Where every place is in force, nobody else gets a ticket (19).
 *
 * The bounds are checked before anything of the request is looked at: with 1,000 in force a call takes about two and a half times what REGISTER takes
 * on a cache of 1,000 places, some 5 us more, before it is known whether the advertisement is vouched for (docs/BENCHMARKS.md). It takes up to 12,800
 * bytes of the stack. That each pair stands once is seen by a hash that goes by a digest of the key, so that pairs that make it slow are hard to choose without the
 * key; that is tried and not proved.
 *
 * Returns as REGISTER. Refusals: 1, 18, 2 (key, reply, window), 3, 4, 13, 14, 5, 6, 7, where ticket_len is not 0 also 8, 9, 10, 11, and last 19.
 */
int64_t unglassot_register_bounded(uint8_t *cache, size_t cache_len, uint8_t *bounds, size_t bounds_len, const uint8_t *key,
                                   size_t key_len, uint64_t window, uint64_t clock, const uint8_t *ad, size_t ad_len, uint8_t vouched,
                                   const uint8_t *ticket, size_t ticket_len, uint8_t *reply, size_t reply_len, uint64_t *moves);

/*
 * WITHDRAW: takes a peer's advertisement for a service off the list at once.
 *
 *   cache    as for REGISTER
 *   service  32 bytes
 *   peer     32 bytes
 *   clock    as for REGISTER
 *   vouched  1 where the host has checked the peer's signature of this request and found it good; any other value is no
 *
 * Of the live entries of this service and peer that are not withdrawn, the oldest (the first in place) becomes one of kind
 * UNGLASSOT_KIND_WITHDRAWN, in an IPv6 cache of kind UNGLASSOT_KIND_WITHDRAWN_V6; nothing else of it changes. In a cache that the calls
 * here filled there is one at most. A withdrawn entry is not listed. It keeps its place, counts like any other in everybody's wait, and is
 * why a REGISTER of its service and peer is refused (6), until it expires: leaving and returning gains nothing.
 *
 * Returns 0: done. Expired entries have left the cache, and its clock is clock. Refusals: 1, 2 (service, peer), 3, 5, 17.
 */
int64_t unglassot_withdraw(uint8_t *cache, size_t cache_len, const uint8_t *service, size_t service_len, const uint8_t *peer,
                           size_t peer_len, uint64_t clock, uint8_t vouched);

/*
 * GET_ADS: writes the live advertisements of a service that are not withdrawn, oldest first, at most ten, one after the other to the
 * front of list.
 *
 *   cache    as for REGISTER
 *   clock    as for REGISTER; a listing leaves the cache's clock as it was
 *   service  32 bytes
 *   list     1,430 bytes for an IPv4 cache (UNGLASSOT_LIST_LEN), 1,550 for an IPv6 cache (UNGLASSOT_LIST_V6_LEN); the other length is refused
 *            (2). The bytes after the last advertisement written stay as they were.
 *
 * Returns how many were written, 0 to 10. The cache is not changed. Refusals: 1, 2 (service, list), 3.
 */
int64_t unglassot_get_ads(const uint8_t *cache, size_t cache_len, uint64_t clock, const uint8_t *service, size_t service_len,
                          uint8_t *list, size_t list_len);

/*
 * The newest advertisement of a service in two caches: of the live ones that are not withdrawn the one that was accepted last, past a
 * listing's ten too. At equal times the later place in one cache, and the first of the two caches. Both may be the same bytes. They may
 * differ in family.
 *
 *   first, second  caches, each as for REGISTER; neither is changed
 *   clock          as for REGISTER; not below either cache's
 *   service        32 bytes
 *   offset         gets where the advertisement's body begins in the cache that holds it, so that nothing is copied: 142 bytes of an IPv4
 *                  cache, 154 of an IPv6 cache; left as it was where there is none, and where a refusal applies
 *
 * Returns 1 where the first cache holds it, 2 where the second does, 0 where neither does. Refusals: all of the first cache's, 1, 2
 * (service), 3, then all of the second's.
 */
int64_t unglassot_newest(const uint8_t *first, size_t first_len, const uint8_t *second, size_t second_len, uint64_t clock,
                         const uint8_t *service, size_t service_len, uint64_t *offset);

/*
 * Opening for a small registrar (above, "Small registrars"): as unglassot_open, for a capacity of 1 to UNGLASSOT_SMALL_CAPACITY_MAX. A cache that
 * unglassot_open made of so many places serves as well.
 * Returns 0. Refusals: 1 (also a length for more places, and a family that is neither).
 */
int64_t unglassot_small_open(uint8_t *cache, size_t cache_len, uint64_t family);

/*
 * REGISTER for a small registrar: as unglassot_register with the window UNGLASSOT_SMALL_WINDOW, where the advertisement's stamp is not after clock and at
 * most UNGLASSOT_STAMP_AGE_MAX ms before it; a stamp of exactly clock, and one of exactly that age, are taken.
 *
 * Returns as unglassot_register. Refusals: 1 (also more than UNGLASSOT_SMALL_CAPACITY_MAX places), 2 (key, reply), 3, 4, 13, 14, 5, 20, 6, 7, and where
 * ticket_len is not 0 also 8, 9, 10, 11. A stale advertisement of a pair that is held is refused by 20, one that nobody vouches for by 5.
 */
int64_t unglassot_small_register(uint8_t *cache, size_t cache_len, const uint8_t *key, size_t key_len, uint64_t clock, const uint8_t *ad,
                                 size_t ad_len, uint8_t vouched, const uint8_t *ticket, size_t ticket_len, uint8_t *reply,
                                 size_t reply_len, uint64_t *moves);

/*
 * REGISTER with lower bounds for a small registrar: as unglassot_register_bounded, with the window and the stamps of unglassot_small_register. Both calls
 * with bounds may take turns on one cache and one buffer of bounds.
 *
 * Returns as unglassot_register. Refusals: 1 (also more than UNGLASSOT_SMALL_CAPACITY_MAX places), 18, 2 (key, reply), 3, 4, 13, 14, 5, 20, 6, 7, where
 * ticket_len is not 0 also 8, 9, 10, 11, and last 19.
 */
int64_t unglassot_small_register_bounded(uint8_t *cache, size_t cache_len, uint8_t *bounds, size_t bounds_len, const uint8_t *key,
                                         size_t key_len, uint64_t clock, const uint8_t *ad, size_t ad_len, uint8_t vouched,
                                         const uint8_t *ticket, size_t ticket_len, uint8_t *reply, size_t reply_len, uint64_t *moves);

/*
 * WITHDRAW for a small registrar: as unglassot_withdraw. An entry whose stamp has grown too old can be withdrawn too.
 * Returns 0: done. Refusals: 1 (also more than UNGLASSOT_SMALL_CAPACITY_MAX places), 2 (service, peer), 3, 5, 17.
 */
int64_t unglassot_small_withdraw(uint8_t *cache, size_t cache_len, const uint8_t *service, size_t service_len, const uint8_t *peer,
                                 size_t peer_len, uint64_t clock, uint8_t vouched);

/*
 * GET_ADS for a small registrar: as unglassot_get_ads, of those whose stamp is at most UNGLASSOT_STAMP_AGE_MAX ms before clock, or after it. The others
 * are passed over and use up none of the ten.
 * Returns how many were written, 0 to 10. Refusals: 1 (also more than UNGLASSOT_SMALL_CAPACITY_MAX places), 2 (service, list), 3.
 */
int64_t unglassot_small_get_ads(const uint8_t *cache, size_t cache_len, uint64_t clock, const uint8_t *service, size_t service_len,
                                uint8_t *list, size_t list_len);

/*
 * The newest advertisement of a service in two caches, for a small registrar: as unglassot_newest, of those whose stamp is at most
 * UNGLASSOT_STAMP_AGE_MAX ms before clock, or after it.
 * Returns 1, 2 or 0 as unglassot_newest. Refusals: all of the first cache's, 1 (also more than UNGLASSOT_SMALL_CAPACITY_MAX places), 2 (service), 3, then
 * all of the second's.
 */
int64_t unglassot_small_newest(const uint8_t *first, size_t first_len, const uint8_t *second, size_t second_len, uint64_t clock,
                               const uint8_t *service, size_t service_len, uint64_t *offset);

/*
 * Writes the identifier of a service, the SHA-256 of its protocol ID of 1 to 255 bytes, to the 32 bytes of id.
 * Returns 0. Refusals: 2 (id), 12.
 */
int64_t unglassot_service_id(const uint8_t *protocol, size_t protocol_len, uint8_t *id, size_t id_len);

/*
 * Writes an IPv4 advertisement of these fields to the 143 bytes of out. Service and peer have 32 bytes each, the address 4 (in the order of
 * the network), the signature 64; the port is not 0.
 * Returns 0. Refusals: 2 (out, a field), 14.
 */
int64_t unglassot_write_ad(uint8_t *out, size_t out_len, const uint8_t *service, size_t service_len, const uint8_t *peer,
                           size_t peer_len, const uint8_t *address, size_t address_len, uint16_t port, uint64_t stamp,
                           const uint8_t *signature, size_t signature_len);

/*
 * Reads an IPv4 advertisement and writes each of its fields.
 * Returns 0. Refusals: 4, 13, 14.
 */
int64_t unglassot_read_ad(const uint8_t *ad, size_t ad_len, uint8_t service[32], uint8_t peer[32], uint8_t address[4], uint16_t *port,
                          uint64_t *stamp, uint8_t signature[64]);

/*
 * Writes an IPv6 advertisement: as unglassot_write_ad does, to the 155 bytes of out and with an address of 16.
 * Returns 0. Refusals: 2 (out, a field), 14.
 */
int64_t unglassot_write_ad_v6(uint8_t *out, size_t out_len, const uint8_t *service, size_t service_len, const uint8_t *peer,
                              size_t peer_len, const uint8_t *address, size_t address_len, uint16_t port, uint64_t stamp,
                              const uint8_t *signature, size_t signature_len);

/*
 * Reads an IPv6 advertisement: as unglassot_read_ad does, from 155 bytes and with an address of 16. Which of the two is to be called the host
 * knows from the cache; it is not guessed from the bytes, and an advertisement of the other family is refused (4).
 * Returns 0. Refusals: 4, 13, 14.
 */
int64_t unglassot_read_ad_v6(const uint8_t *ad, size_t ad_len, uint8_t service[32], uint8_t peer[32], uint8_t address[16], uint16_t *port,
                             uint64_t *stamp, uint8_t signature[64]);

/*
 * Writes a ticket of these fields, with its tag under the 32-byte key, to the 89 bytes of out. The hash is that of the advertisement which
 * the ticket is for, the unglassot_sha256 of its 143 or 155 bytes.
 * Returns 0. Refusals: 2 (key, out, ad_hash), 9 (not first <= issued <= UNGLASSOT_CLOCK_MAX, or wait not 1 to 900,000).
 */
int64_t unglassot_write_ticket(const uint8_t *key, size_t key_len, uint8_t *out, size_t out_len, const uint8_t *ad_hash,
                               size_t ad_hash_len, uint64_t first, uint64_t issued, uint64_t wait);

/*
 * Reads a ticket that was written under the 32-byte key and writes each of its fields.
 * Returns 0. Refusals: 2 (key), 7 (an empty one too), 8, 9 (as for writing).
 */
int64_t unglassot_read_ticket(const uint8_t *key, size_t key_len, const uint8_t *ticket, size_t ticket_len, uint8_t ad_hash[32],
                              uint64_t *first, uint64_t *issued, uint64_t *wait);

/*
 * Reads an Advertisement message of Logos Capability Discovery in Protocol Buffers wire form and writes it as an IPv4 advertisement to the
 * 143 bytes of ad; messages are IPv4's. epoch is the registrar's, in Unix seconds, 0 to UNGLASSOT_EPOCH_MAX; the message's timestamp is in
 * Unix seconds, from epoch to epoch + 1,099,511,627, and the advertisement's stamp in milliseconds since epoch.
 *
 * One form of a message is accepted: the fields 1, 2, 3, 4 and 6 in this order, each once, the timestamp too where it is 0; service and
 * peer of 32 bytes, one address, which is a multiaddr of 8 bytes (04, four bytes, 06, a port that is not 0), a signature of 64 bytes; no
 * metadata and no other field; every varint in its shortest form; nothing behind the last field. So no two messages give one advertisement.
 * Returns 0. Refusals: 2 (ad), 16 (epoch), 15.
 */
int64_t unglassot_read_message(const uint8_t *message, size_t message_len, uint64_t epoch, uint8_t *ad, size_t ad_len);

/*
 * Writes an IPv4 advertisement as such a message to the front of out: 146 to UNGLASSOT_MESSAGE_MAX bytes. The advertisement's stamp is in whole
 * seconds, a multiple of 1,000 up to UNGLASSOT_CLOCK_MAX. The bytes of out behind the message stay as they were.
 * Returns the message's length. Refusals: 16 (an advertisement that 4, 13 or 14 would refuse, its stamp, epoch), 2 (out is shorter than
 * this message).
 */
int64_t unglassot_write_message(const uint8_t *ad, size_t ad_len, uint64_t epoch, uint8_t *out, size_t out_len);

/*
 * Writes the SHA-256 (FIPS 180-4) of a message of any length to the 32 bytes of digest.
 * Returns 0. Refusals: 2 (digest).
 */
int64_t unglassot_sha256(const uint8_t *message, size_t message_len, uint8_t *digest, size_t digest_len);

/*
 * Writes the HMAC-SHA-256 (RFC 2104) of a message under a key, each of any length, to the 32 bytes of tag.
 * Returns 0. Refusals: 2 (tag).
 */
int64_t unglassot_hmac(const uint8_t *key, size_t key_len, const uint8_t *message, size_t message_len, uint8_t *tag, size_t tag_len);

#ifdef __cplusplus
}
#endif

#endif
