/*
 * A host's day in small: compares versions, opens a cache, asks, comes too early, waits, comes with another stamp, returns, is listed,
 * and expires, so that another entry moves up; that one withdraws; then the same in short with IPv6, where one asks afresh in vain; then a
 * small registrar, which judges stamps; prints what happened.
 *
 * Build and run, from this folder (host/c/run does it):
 *   cc -std=c99 -Wall -Wextra -O2 -I../include example.c ../../target/staticlib/libunglassot.a -o example && ./example
 */
#include "unglassot.h"

#include <inttypes.h>
#include <stdio.h>
#include <string.h>

enum { CAPACITY = 256, PLACES = 100 };

/* A cache of one family, and the lengths that the family has of its own. */
struct cache {
    const char *name;
    uint64_t family;
    uint8_t *bytes;
    size_t len, ad_len, list_len;
};

static uint8_t bytes_v4[UNGLASSOT_CACHE_LEN(CAPACITY)], bytes_v6[UNGLASSOT_CACHE_V6_LEN(CAPACITY)];
static const struct cache v4 = {"IPv4", UNGLASSOT_FAMILY_V4, bytes_v4, sizeof bytes_v4, UNGLASSOT_AD_LEN, UNGLASSOT_LIST_LEN};
static const struct cache v6 = {"IPv6", UNGLASSOT_FAMILY_V6, bytes_v6, sizeof bytes_v6, UNGLASSOT_AD_V6_LEN, UNGLASSOT_LIST_V6_LEN};
/* Lower bounds for the IPv6 cache, of as many places as pairs of service and address may be waiting at once. Zeros are empty. */
static uint8_t bounds_v6[UNGLASSOT_BOUNDS_V6_LEN(PLACES)];
static const uint8_t key[UNGLASSOT_KEY_LEN] = "a key of 32 bytes for this demo";

/* Where the registrar's clock begins: 2026-01-01 00:00 UTC, in milliseconds since 1970. Kept as long as the cache and the key. */
#define EPOCH UINT64_C(1767225600000)

/* The system's clock, in milliseconds since 1970. A host asks the system; the example has its own time pass. */
static uint64_t system_clock = EPOCH + 1000;

/* The registrar's clock. A time before the epoch wraps around to one past UNGLASSOT_CLOCK_MAX, which is refused (3). */
static uint64_t registrar_clock(void) {
    return system_clock - EPOCH;
}

/* Prints what REGISTER answered. */
static void reported(uint64_t clock, const char *who, int64_t answer) {
    if (answer < 0) {
        printf("%7" PRIu64 "  %s is refused, %" PRId64 ": %s\n", clock, who, -answer, unglassot_refusal_text(answer));
    } else if (answer == 0) {
        printf("%7" PRIu64 "  %s is confirmed\n", clock, who);
    } else {
        printf("%7" PRIu64 "  %s is to come back in %" PRId64 " ms\n", clock, who, answer);
    }
}

/* Makes an empty cache; 0 where the library refused. */
static int opened(const struct cache *cache) {
    if (unglassot_open(cache->bytes, cache->len, cache->family) != 0) {
        return 0;
    }
    printf("a cache for %d %s advertisements is open: %zu bytes\n", CAPACITY, cache->name, cache->len);
    return 1;
}

/* Asks with an advertisement and the ticket of an earlier answer (length 0 for none); a new ticket replaces the old one. */
static int64_t ask(const struct cache *cache, uint64_t clock, const char *who, const uint8_t *ad, size_t ad_len,
                   uint8_t ticket[UNGLASSOT_TICKET_LEN], size_t ticket_len) {
    uint8_t reply[UNGLASSOT_TICKET_LEN];
    uint64_t moves = 0;
    const uint8_t vouched = 1; /* a host checks the signature here */
    int64_t answer = unglassot_register(cache->bytes, cache->len, key, sizeof key, UNGLASSOT_USUAL_WINDOW, clock, ad, ad_len, vouched,
                                        ticket, ticket_len, reply, sizeof reply, &moves);
    if (answer > 0) {
        memcpy(ticket, reply, sizeof reply);
    }
    reported(clock, who, answer);
    if (moves > 0) {
        printf("         %" PRIu64 " moved up\n", moves);
    }
    return answer;
}

/* A first request with lower bounds. A host that wants their promise registers by this call alone, and keeps the bounds as long as the cache. */
static void ask_bounded(uint64_t clock, const char *who, const uint8_t ad[UNGLASSOT_AD_V6_LEN]) {
    uint8_t reply[UNGLASSOT_TICKET_LEN];
    uint64_t moves = 0;
    const uint8_t vouched = 1;
    reported(clock, who,
             unglassot_register_bounded(v6.bytes, v6.len, bounds_v6, sizeof bounds_v6, key, sizeof key, UNGLASSOT_USUAL_WINDOW, clock, ad,
                                        UNGLASSOT_AD_V6_LEN, vouched, NULL, 0, reply, sizeof reply, &moves));
}

/* Prints an address of 4 or 16 bytes, in the order of the network, and a port. */
static void print_place(const struct cache *cache, const uint8_t *address, unsigned port) {
    if (cache->family == UNGLASSOT_FAMILY_V4) {
        printf("%d.%d.%d.%d", address[0], address[1], address[2], address[3]);
    } else {
        for (int i = 0; i < UNGLASSOT_ADDRESS_V6_LEN; i += 2) {
            printf("%s%x", i > 0 ? ":" : "", (unsigned)(address[i] << 8 | address[i + 1]));
        }
    }
    printf(" port %u\n", port);
}

/* Lists a service and prints each advertisement's address. The cache's family tells which call reads an advertisement of it. */
static void list(const struct cache *cache, uint64_t clock, const uint8_t service[UNGLASSOT_ID_LEN]) {
    uint8_t records[UNGLASSOT_LIST_V6_LEN];
    int64_t count = unglassot_get_ads(cache->bytes, cache->len, clock, service, UNGLASSOT_ID_LEN, records, cache->list_len);
    printf("%7" PRIu64 "  listed: %" PRId64 "\n", clock, count);
    for (int64_t i = 0; i < count; i++) {
        const uint8_t *ad = records + (size_t)i * cache->ad_len;
        uint8_t found[32], peer[32], address[16], signature[64];
        uint16_t port;
        uint64_t stamp;
        int64_t answer = cache->family == UNGLASSOT_FAMILY_V4
                             ? unglassot_read_ad(ad, cache->ad_len, found, peer, address, &port, &stamp, signature)
                             : unglassot_read_ad_v6(ad, cache->ad_len, found, peer, address, &port, &stamp, signature);
        if (answer == 0) {
            fputs("         ", stdout);
            print_place(cache, address, port);
        }
    }
}

/* Takes a peer's advertisement off the list. */
static void take_back(const struct cache *cache, uint64_t clock, const char *who, const uint8_t service[UNGLASSOT_ID_LEN],
                      const uint8_t peer[UNGLASSOT_ID_LEN]) {
    const uint8_t vouched = 1; /* a host checks the peer's signature of the request here */
    int64_t answer = unglassot_withdraw(cache->bytes, cache->len, service, UNGLASSOT_ID_LEN, peer, UNGLASSOT_ID_LEN, clock, vouched);
    if (answer < 0) {
        printf("%7" PRIu64 "  %s is refused, %" PRId64 ": %s\n", clock, who, -answer, unglassot_refusal_text(answer));
    } else {
        printf("%7" PRIu64 "  %s is withdrawn\n", clock, who);
    }
}

/* A number of eight bytes of a cache's head. */
static uint64_t head_number(const struct cache *cache, size_t at) {
    uint64_t number = 0;
    for (size_t i = at; i < at + 8; i++) {
        number = number << 8 | cache->bytes[i];
    }
    return number;
}

/* An advertisement of the service by a peer at 10.0.0.n; 0 where the library refused to write it. */
static int advertise(uint8_t ad[UNGLASSOT_AD_LEN], const uint8_t service[UNGLASSOT_ID_LEN], uint8_t n, uint64_t stamp) {
    uint8_t peer[UNGLASSOT_ID_LEN], signature[UNGLASSOT_SIGNATURE_LEN];
    const uint8_t address[UNGLASSOT_ADDRESS_LEN] = {10, 0, 0, n};
    memset(peer, n, sizeof peer);
    memset(signature, 0, sizeof signature);
    return unglassot_write_ad(ad, UNGLASSOT_AD_LEN, service, UNGLASSOT_ID_LEN, peer, sizeof peer, address, sizeof address, 30303, stamp,
                              signature, sizeof signature) == 0;
}

/* The same by a peer at 2001:db8:network::n. */
static int advertise_v6(uint8_t ad[UNGLASSOT_AD_V6_LEN], const uint8_t service[UNGLASSOT_ID_LEN], uint8_t network, uint8_t n) {
    uint8_t peer[UNGLASSOT_ID_LEN], signature[UNGLASSOT_SIGNATURE_LEN];
    const uint8_t address[UNGLASSOT_ADDRESS_V6_LEN] = {0x20, 0x01, 0x0d, 0xb8, network, [15] = n};
    memset(peer, 0x60 + n, sizeof peer);
    memset(signature, 0, sizeof signature);
    return unglassot_write_ad_v6(ad, UNGLASSOT_AD_V6_LEN, service, UNGLASSOT_ID_LEN, peer, sizeof peer, address, sizeof address, 30303, 0,
                                 signature, sizeof signature) == 0;
}

/* The newest advertisement of the service in both caches, which is read in the one that holds it. */
static void find_newest(uint64_t clock, const uint8_t service[UNGLASSOT_ID_LEN]) {
    uint64_t offset;
    int64_t which = unglassot_newest(v4.bytes, v4.len, v6.bytes, v6.len, clock, service, UNGLASSOT_ID_LEN, &offset);
    if (which > 0) {
        const struct cache *holder = which == 1 ? &v4 : &v6;
        const uint8_t *body = holder->bytes + offset; /* begins with what follows the kind */
        const uint8_t *port = body + (which == 1 ? UNGLASSOT_AD_PORT : UNGLASSOT_AD_V6_PORT) - 1;
        printf("%7" PRIu64 "  the newest is %s's: ", clock, holder->name);
        print_place(holder, body + UNGLASSOT_AD_ADDRESS - 1, (unsigned)(port[0] << 8 | port[1]));
    }
}

/* IPv6 in short: another family's advertisement, a first one, and how much longer a neighbour waits than who comes from far. */
static int served_v6(uint64_t clock, const uint8_t service[UNGLASSOT_ID_LEN], const uint8_t foreign[UNGLASSOT_AD_LEN]) {
    uint8_t first[UNGLASSOT_AD_V6_LEN], near[UNGLASSOT_AD_V6_LEN], far[UNGLASSOT_AD_V6_LEN], ticket[UNGLASSOT_TICKET_LEN];
    if (!opened(&v6) || !advertise_v6(first, service, 0, 1) || !advertise_v6(near, service, 0, 2) ||
        !advertise_v6(far, service, 0x80, 3)) {
        return 0;
    }
    ask(&v6, clock, "an IPv4 advertisement", foreign, UNGLASSOT_AD_LEN, ticket, 0);
    int64_t wait = ask(&v6, clock, "the first of IPv6", first, sizeof first, ticket, 0);
    clock += (uint64_t)wait;
    ask(&v6, clock, "the first of IPv6, back,", first, sizeof first, ticket, sizeof ticket);
    ask(&v6, clock, "one of the same network", near, sizeof near, ticket, 0);
    ask(&v6, clock, "one of another network", far, sizeof far, ticket, 0);
    list(&v6, clock, service);
    find_newest(clock, service);

    /* 100 s before the first expires a neighbour is told to wait; when it has expired, asking afresh by REGISTER would pay. */
    clock += UNGLASSOT_LIFETIME - 100000;
    ask_bounded(clock, "the neighbour, with bounds,", near);
    clock += 100000;
    ask(&v6, clock, "the neighbour, afresh,", near, sizeof near, ticket, 0);
    ask_bounded(clock, "the neighbour, afresh with bounds,", near);
    return 1;
}

/* IPv4 at length; when it ended. */
static uint64_t served_v4(const uint8_t service[UNGLASSOT_ID_LEN], const uint8_t first[UNGLASSOT_AD_LEN],
                          const uint8_t renewed[UNGLASSOT_AD_LEN], const uint8_t second[UNGLASSOT_AD_LEN]) {
    const size_t ad_len = UNGLASSOT_AD_LEN;
    uint8_t ticket[UNGLASSOT_TICKET_LEN], other[UNGLASSOT_TICKET_LEN];

    /* Without an epoch, the system's clock is out of range. */
    ask(&v4, system_clock, "the first, by the system's clock,", first, ad_len, ticket, 0);

    uint64_t clock = registrar_clock();
    int64_t wait = ask(&v4, clock, "the first", first, ad_len, ticket, 0);
    ask(&v4, clock, "the first, too early,", first, ad_len, ticket, sizeof ticket);
    list(&v4, clock, service);
    system_clock += (uint64_t)wait;
    clock = registrar_clock();
    /* A ticket belongs to the very advertisement, the stamp too. The refusal changes nothing. */
    ask(&v4, clock, "the first, with another stamp,", renewed, ad_len, ticket, sizeof ticket);
    ask(&v4, clock, "the first, back in time,", first, ad_len, ticket, sizeof ticket);
    list(&v4, clock, service);
    ask(&v4, clock, "the first, again,", first, ad_len, ticket, 0);

    /* A neighbour in the same network has to stay nearly as long as the first is live. */
    wait = ask(&v4, clock, "a neighbour", second, ad_len, other, 0);
    while (wait > 0) {
        system_clock += (uint64_t)wait;
        clock = registrar_clock();
        wait = ask(&v4, clock, "the neighbour, back,", second, ad_len, other, sizeof other);
    }
    list(&v4, clock, service);

    /* 900,000 ms after it was accepted, the first is no longer listed. */
    clock = 1001 + UNGLASSOT_LIFETIME;
    list(&v4, clock, service);
    /* The next call takes it out of the cache, and the neighbour's entry moves up into its place. */
    ask(&v4, clock, "the first, afresh,", renewed, ad_len, ticket, 0);

    /* The neighbour wants off the list at once. Its entry counts on until it expires, so it gains nothing by coming back. */
    take_back(&v4, clock, "the neighbour", service, second + UNGLASSOT_AD_PEER);
    list(&v4, clock, service);
    take_back(&v4, clock, "the neighbour, again,", service, second + UNGLASSOT_AD_PEER);
    ask(&v4, clock, "the neighbour, back again,", second, ad_len, other, 0);
    printf("since the opening %" PRIu64 " confirmed and %" PRIu64 " expired\n", head_number(&v4, UNGLASSOT_HEAD_CONFIRMED),
           head_number(&v4, UNGLASSOT_HEAD_EXPIRED));
    return clock;
}

/* Asks a small registrar; a new ticket replaces the old one. */
static void ask_small(uint8_t *cache, size_t cache_len, uint64_t clock, const char *who, const uint8_t ad[UNGLASSOT_AD_LEN],
                      uint8_t ticket[UNGLASSOT_TICKET_LEN], size_t ticket_len) {
    uint8_t reply[UNGLASSOT_TICKET_LEN];
    uint64_t moves = 0;
    const uint8_t vouched = 1;
    int64_t answer = unglassot_small_register(cache, cache_len, key, sizeof key, clock, ad, UNGLASSOT_AD_LEN, vouched, ticket, ticket_len,
                                              reply, sizeof reply, &moves);
    if (answer > 0) {
        memcpy(ticket, reply, sizeof reply);
    }
    reported(clock, who, answer);
}

/* A small registrar, thirty days after its epoch. It compares stamps with its own clock, so that one of the system's clock is after now. */
static int served_small(const uint8_t service[UNGLASSOT_ID_LEN]) {
    static uint8_t cache[UNGLASSOT_CACHE_LEN(UNGLASSOT_SMALL_CAPACITY_MAX)];
    uint8_t unix_stamp[UNGLASSOT_AD_LEN], old[UNGLASSOT_AD_LEN], list[UNGLASSOT_LIST_LEN], ticket[UNGLASSOT_TICKET_LEN];
    uint64_t clock = UNGLASSOT_STAMP_AGE_MAX;
    if (unglassot_small_open(cache, sizeof cache, UNGLASSOT_FAMILY_V4) != 0 || !advertise(unix_stamp, service, 1, EPOCH + clock) ||
        !advertise(old, service, 1, 1)) {
        return 0;
    }
    printf("a cache of a small registrar is open: %zu bytes\n", sizeof cache);
    ask_small(cache, sizeof cache, clock, "one with a stamp by the system's clock", unix_stamp, ticket, 0);
    ask_small(cache, sizeof cache, clock, "one with an old stamp", old, ticket, 0);
    clock += 1;
    ask_small(cache, sizeof cache, clock, "the same, back,", old, ticket, sizeof ticket);
    /* Its stamp is thirty days old now, and a millisecond later it is too old to be listed. The full call does not judge it. */
    for (int i = 0; i < 2; i++, clock++) {
        int64_t count = unglassot_small_get_ads(cache, sizeof cache, clock, service, UNGLASSOT_ID_LEN, list, sizeof list);
        int64_t all = unglassot_get_ads(cache, sizeof cache, clock, service, UNGLASSOT_ID_LEN, list, sizeof list);
        printf("%7" PRIu64 "  listed: %" PRId64 ", by the full call %" PRId64 "\n", clock, count, all);
    }
    ask_small(cache, sizeof cache, clock, "the same, again,", old, ticket, 0);
    return 1;
}

int main(void) {
    static const char protocol[] = "/waku/store/1.0.0";
    uint8_t service[UNGLASSOT_ID_LEN];
    uint8_t first[UNGLASSOT_AD_LEN], renewed[UNGLASSOT_AD_LEN], second[UNGLASSOT_AD_LEN];
    if (!unglassot_is_this_version()) {
        fprintf(stderr, "the archive is of version %" PRId64 " and the header of version %d\n", unglassot_version(), UNGLASSOT_VERSION);
        return 1;
    }
    if (!opened(&v4) || unglassot_service_id((const uint8_t *)protocol, strlen(protocol), service, sizeof service) != 0 ||
        !advertise(first, service, 1, 0) || !advertise(renewed, service, 1, 1) || !advertise(second, service, 2, 0)) {
        fputs("the library refused to begin\n", stderr);
        return 1;
    }
    uint64_t clock = served_v4(service, first, renewed, second);
    if (!served_v6(clock, service, first)) {
        fputs("the library refused to begin with IPv6\n", stderr);
        return 1;
    }
    if (!served_small(service)) {
        fputs("the library refused to begin with a small registrar\n", stderr);
        return 1;
    }
    return 0;
}
