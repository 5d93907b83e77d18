/*
 * How much of the stack each call takes, its arguments with it: prints a line for each, the name and the bytes.
 *
 * A call is made on a stack of its own that was painted before, in two colours one after the other, and what is no longer painted was used; what
 * a function takes that does nothing is taken off. Each is made with caches of 1,000 slots of both families, those of small registrars of 64, and,
 * where it has several ways to go, on each of them; the most counts. The program is linked with -z now, so that no symbol is looked up on the painted stack.
 */
#include "unglassot.h"

#include <stdio.h>
#include <stdlib.h>
#include <string.h>
#include <ucontext.h>

enum { STACK = 1 << 18, CAPACITY = 1000, CALLS = 21 };

struct family {
    uint64_t number;
    size_t entry_len, ad_len, list_len, bound_len;
    uint8_t entry_kind;
};

static const struct family families[2] = {
    {UNGLASSOT_FAMILY_V4, UNGLASSOT_ENTRY_LEN, UNGLASSOT_AD_LEN, UNGLASSOT_LIST_LEN, UNGLASSOT_BOUND_LEN, UNGLASSOT_KIND_ENTRY},
    {UNGLASSOT_FAMILY_V6, UNGLASSOT_ENTRY_V6_LEN, UNGLASSOT_AD_V6_LEN, UNGLASSOT_LIST_V6_LEN, UNGLASSOT_BOUND_V6_LEN,
     UNGLASSOT_KIND_ENTRY_V6},
};
static size_t capacity = CAPACITY; /* of the caches at hand */

static size_t cache_len(int family) {
    return UNGLASSOT_HEAD_LEN + families[family].entry_len * capacity;
}

static uint8_t caches[2][UNGLASSOT_CACHE_V6_LEN(CAPACITY)], before[2][UNGLASSOT_CACHE_V6_LEN(CAPACITY)], stack[STACK];
static uint8_t bounds[UNGLASSOT_BOUNDS_V6_LEN(UNGLASSOT_BOUNDS_MAX)];
static uint8_t key[32], service[32], peer[32], hash[32], address[16], signature[64];
static uint8_t ad[UNGLASSOT_AD_V6_LEN], ticket[UNGLASSOT_TICKET_LEN], reply[UNGLASSOT_TICKET_LEN];
static uint8_t list[UNGLASSOT_LIST_V6_LEN], message[UNGLASSOT_MESSAGE_MAX];
static uint64_t clock_now, a, b, c;
static uint16_t port;
static size_t message_len;
static int64_t answer;
static int v6; /* the family at hand: 0 or 1 */

static void nothing(void) {
    answer = 0;
}
static void open_cache(void) {
    answer = unglassot_open(caches[v6], cache_len(v6), families[v6].number);
}
static void write_ad(void) {
    answer = v6 ? unglassot_write_ad_v6(ad, sizeof ad, service, 32, peer, 32, address, 16, 4001, 1000, signature, 64)
                : unglassot_write_ad(ad, UNGLASSOT_AD_LEN, service, 32, peer, 32, address, 4, 4001, 1000, signature, 64);
}
static void read_ad(void) {
    answer = v6 ? unglassot_read_ad_v6(ad, sizeof ad, service, peer, address, &port, &a, signature)
                : unglassot_read_ad(ad, UNGLASSOT_AD_LEN, service, peer, address, &port, &a, signature);
}
static void register_with(size_t ticket_len) {
    answer = unglassot_register(caches[v6], cache_len(v6), key, 32, UNGLASSOT_USUAL_WINDOW, clock_now, ad, families[v6].ad_len, 1,
                                ticket, ticket_len, reply, sizeof reply, &a);
}
static void first_ask(void) {
    register_with(0);
}
static void comes_back(void) {
    register_with(sizeof ticket);
}
static void bounded_with(size_t ticket_len) {
    answer = unglassot_register_bounded(caches[v6], cache_len(v6), bounds, families[v6].bound_len * UNGLASSOT_BOUNDS_MAX, key, 32,
                                        UNGLASSOT_USUAL_WINDOW, clock_now, ad, families[v6].ad_len, 1, ticket, ticket_len, reply,
                                        sizeof reply, &a);
}
static void first_ask_bounded(void) {
    bounded_with(0);
}
static void comes_back_bounded(void) {
    bounded_with(sizeof ticket);
}
static void withdraw(void) {
    answer = unglassot_withdraw(caches[v6], cache_len(v6), service, 32, peer, 32, clock_now, 1);
}
static void get_ads(void) {
    answer = unglassot_get_ads(caches[v6], cache_len(v6), clock_now, service, 32, list, families[v6].list_len);
}
static void newest(void) {
    answer = unglassot_newest(caches[v6], cache_len(v6), caches[!v6], cache_len(!v6), clock_now, service, 32, &a);
}
static void open_small(void) {
    answer = unglassot_small_open(caches[v6], cache_len(v6), families[v6].number);
}
static void small_with(size_t ticket_len) {
    answer = unglassot_small_register(caches[v6], cache_len(v6), key, 32, clock_now, ad, families[v6].ad_len, 1, ticket, ticket_len, reply,
                                      sizeof reply, &a);
}
static void first_ask_small(void) {
    small_with(0);
}
static void comes_back_small(void) {
    small_with(sizeof ticket);
}
static void small_bounded_with(size_t ticket_len) {
    answer = unglassot_small_register_bounded(caches[v6], cache_len(v6), bounds, families[v6].bound_len * UNGLASSOT_BOUNDS_MAX, key, 32,
                                              clock_now, ad, families[v6].ad_len, 1, ticket, ticket_len, reply, sizeof reply, &a);
}
static void first_ask_small_bounded(void) {
    small_bounded_with(0);
}
static void comes_back_small_bounded(void) {
    small_bounded_with(sizeof ticket);
}
static void withdraw_small(void) {
    answer = unglassot_small_withdraw(caches[v6], cache_len(v6), service, 32, peer, 32, clock_now, 1);
}
static void get_ads_small(void) {
    answer = unglassot_small_get_ads(caches[v6], cache_len(v6), clock_now, service, 32, list, families[v6].list_len);
}
static void newest_small(void) {
    answer = unglassot_small_newest(caches[v6], cache_len(v6), caches[!v6], cache_len(!v6), clock_now, service, 32, &a);
}
static void write_message(void) {
    answer = unglassot_write_message(ad, UNGLASSOT_AD_LEN, 1000, message, sizeof message);
}
static void read_message(void) {
    answer = unglassot_read_message(message, message_len, 1000, ad, UNGLASSOT_AD_LEN);
}
static void service_id(void) {
    answer = unglassot_service_id(list, UNGLASSOT_PROTOCOL_MAX, hash, 32);
}
static void write_ticket(void) {
    answer = unglassot_write_ticket(key, 32, ticket, sizeof ticket, hash, 32, 1, 2, 3);
}
static void read_ticket(void) {
    answer = unglassot_read_ticket(key, 32, ticket, sizeof ticket, hash, &a, &b, &c);
}
static void sha256(void) {
    answer = unglassot_sha256(list, sizeof list, hash, 32);
}
static void hmac(void) {
    answer = unglassot_hmac(list, 65, list, sizeof list, hash, 32);
}

static const char *const names[CALLS] = {"open",
                                         "register",
                                         "register_bounded",
                                         "withdraw",
                                         "get_ads",
                                         "newest",
                                         "small_open",
                                         "small_register",
                                         "small_register_bounded",
                                         "small_withdraw",
                                         "small_get_ads",
                                         "small_newest",
                                         "write_ad",
                                         "read_ad",
                                         "write_message",
                                         "read_message",
                                         "service_id",
                                         "write_ticket",
                                         "read_ticket",
                                         "sha256",
                                         "hmac"};
static size_t most[CALLS];
static ucontext_t here, there;
static void (*called)(void);

static void enter(void) {
    called();
}

/* The bytes of a stack of this colour that a function uses. The caches are as they were, after it too. */
static size_t painted(void (*function)(void), int colour) {
    memcpy(before, caches, sizeof caches);
    memset(stack, colour, STACK);
    getcontext(&there);
    there.uc_stack.ss_sp = stack;
    there.uc_stack.ss_size = STACK;
    there.uc_link = &here;
    called = function;
    makecontext(&there, enter, 0);
    swapcontext(&here, &there);
    memcpy(caches, before, sizeof caches);
    size_t clean = 0;
    while (clean < STACK && stack[clean] == colour) {
        clean++;
    }
    return STACK - clean;
}

/* Counts one way of a call, which has to give an answer from least to greatest. */
static void measure(const char *name, void (*function)(void), int64_t least, int64_t greatest) {
    int at = 0;
    while (strcmp(names[at], name) != 0) {
        at++;
    }
    for (int colour = 0x5a; colour <= 0xa5; colour += 0x4b) {
        size_t used = painted(function, colour) - painted(nothing, colour);
        if (painted(function, colour) == 0 || answer < least || answer > greatest) {
            fprintf(stderr, "%s answers %lld\n", name, (long long)answer);
            exit(1);
        }
        most[at] = used > most[at] ? used : most[at];
    }
}

static void put(uint8_t *at, uint64_t number) {
    for (int i = 0; i < 8; i++) {
        at[i] = (uint8_t)(number >> (56 - 8 * i));
    }
}

/* Fills both caches with so many entries, accepted from 1,000,000 on a millisecond after the other: service i % 200, peer i % 256. */
static void fill(unsigned count) {
    for (int f = 0; f < 2; f++) {
        uint8_t *head = caches[f], *entry = head + UNGLASSOT_HEAD_LEN;
        unglassot_open(head, cache_len(f), families[f].number);
        put(head + UNGLASSOT_HEAD_CONFIRMED, count);
        put(head + UNGLASSOT_HEAD_CLOCK, 1000000 + count);
        head[UNGLASSOT_HEAD_COUNT] = (uint8_t)(count >> 8);
        head[UNGLASSOT_HEAD_COUNT + 1] = (uint8_t)count;
        for (unsigned i = 0; i < count; i++, entry += families[f].entry_len) {
            entry[0] = families[f].entry_kind;
            put(entry + UNGLASSOT_ENTRY_ACCEPTED, 1000000 + i);
            memset(entry + UNGLASSOT_ENTRY_BODY, (int)(i % 200), 32);
            memset(entry + UNGLASSOT_ENTRY_BODY + 32, (int)(i % 256), 32);
            entry[UNGLASSOT_ENTRY_BODY + 64] = (uint8_t)(i * 37);
        }
    }
}

static void brings(uint64_t first, uint64_t issued, uint64_t wait) {
    unglassot_sha256(ad, families[v6].ad_len, hash, 32);
    unglassot_write_ticket(key, 32, ticket, sizeof ticket, hash, 32, first, issued, wait);
}

/* A first ask, a return that waits, one that is confirmed, one that is confirmed while others expire, a forged ticket. */
static void measure_register(void) {
    memset(service, 250, 32);
    write_ad();
    fill(990);
    clock_now = 1001000;
    measure("register", first_ask, 1, 900000);
    brings(1000000, 1000500, 500);
    measure("register", comes_back, 1, 900000);
    fill(100);
    clock_now = 1899000;
    brings(10000, 1898000, 1000);
    measure("register", comes_back, 0, 0);
    clock_now = 1900050;
    brings(10000, 1900000, 50);
    measure("register", comes_back, 0, 0);
    ticket[UNGLASSOT_TICKET_LEN - 1] ^= 1;
    measure("register", comes_back, -8, -8);
}

/* So many bounds, half of them past their time at 1,500,000: service i % 200, and an address of its own. */
static void fill_bounds(unsigned count) {
    const size_t len = families[v6].bound_len;
    memset(bounds, 0, sizeof bounds);
    for (unsigned i = 0; i < count; i++) {
        uint8_t *bound = bounds + i * len;
        bound[0] = UNGLASSOT_KIND_BOUND;
        memset(bound + UNGLASSOT_BOUND_SERVICE, (int)(i % 200), 32);
        bound[UNGLASSOT_BOUND_ADDRESS] = (uint8_t)(i / 200);
        put(bound + len - 8, i % 2 == 0 ? 1500000 : 2000000);
    }
}

/* As REGISTER, with no bound, with one, with many of which none or half is dropped, with every place in force, and with a pair twice. */
static void measure_bounded(void) {
    memset(service, 250, 32);
    write_ad();
    for (unsigned count = 0; count < UNGLASSOT_BOUNDS_MAX; count = count * 31 + 1) {
        fill(990);
        fill_bounds(count);
        clock_now = 1001000;
        measure("register_bounded", first_ask_bounded, 1, 900000);
        brings(1000000, 1000500, 500);
        measure("register_bounded", comes_back_bounded, 1, 900000);
        fill(100);
        fill_bounds(count);
        clock_now = 1600000;
        measure("register_bounded", first_ask_bounded, 1, 900000);
        fill_bounds(count);
        clock_now = 1899000;
        brings(10000, 1898000, 1000);
        measure("register_bounded", comes_back_bounded, 0, 0);
    }
    fill(990);
    fill_bounds(UNGLASSOT_BOUNDS_MAX);
    clock_now = 1001000;
    measure("register_bounded", first_ask_bounded, -19, -19);
    memcpy(bounds, bounds + families[v6].bound_len * (UNGLASSOT_BOUNDS_MAX - 1), families[v6].bound_len);
    measure("register_bounded", first_ask_bounded, -18, -18);
}

/* Entries of service and peer 5, and of service 105 and peer 249, which is left when half of the others have expired. */
static void measure_cache(void) {
    fill(999);
    memset(service, 5, 32);
    memset(peer, 5, 32);
    clock_now = 1001000;
    measure("withdraw", withdraw, 0, 0);
    measure("get_ads", get_ads, 5, 5);
    measure("newest", newest, 1, 1);
    memset(service, 105, 32);
    memset(peer, 505 % 256, 32);
    clock_now = 1900400;
    measure("withdraw", withdraw, 0, 0);
}

/* The calls of small registrars on the ways of the full ones, and a stamp that is refused. */
static void measure_small(void) {
    capacity = UNGLASSOT_SMALL_CAPACITY_MAX;
    measure("small_open", open_small, 0, 0);
    memset(service, 250, 32);
    write_ad();
    fill(60);
    clock_now = 1000060;
    brings(1000000, 1000050, 10);
    measure("small_register", first_ask_small, 1, 900000);
    measure("small_register", comes_back_small, 1, 900000);
    for (unsigned count = 0; count < UNGLASSOT_BOUNDS_MAX; count = count * 31 + 1) {
        fill_bounds(count);
        measure("small_register_bounded", first_ask_small_bounded, 1, 900000);
        measure("small_register_bounded", comes_back_small_bounded, 1, 900000);
    }
    fill_bounds(UNGLASSOT_BOUNDS_MAX);
    measure("small_register_bounded", first_ask_small_bounded, -19, -19);
    fill(10);
    clock_now = 1900005;
    brings(10000, 1900000, 5);
    measure("small_register", comes_back_small, 0, 0);
    fill_bounds(0);
    measure("small_register_bounded", comes_back_small_bounded, 0, 0);
    clock_now += UNGLASSOT_STAMP_AGE_MAX;
    measure("small_register", first_ask_small, -20, -20);
    fill(63);
    memset(service, 5, 32);
    memset(peer, 5, 32);
    clock_now = 1000063;
    measure("small_withdraw", withdraw_small, 0, 0);
    measure("small_get_ads", get_ads_small, 1, 1);
    measure("small_newest", newest_small, 1, 1);
    memset(service, 60, 32);
    memset(peer, 60, 32);
    clock_now = 1900005;
    measure("small_withdraw", withdraw_small, 0, 0);
    capacity = CAPACITY;
}

int main(void) {
    memset(key, 7, sizeof key);
    memset(address, 200, sizeof address);
    for (v6 = 0; v6 < 2; v6++) {
        measure("open", open_cache, 0, 0);
        measure("write_ad", write_ad, 0, 0);
        measure("read_ad", read_ad, 0, 0);
        measure_register();
        measure_bounded();
        measure_cache();
        measure_small();
    }
    v6 = 0;
    write_ad();
    measure("write_message", write_message, 146, 150);
    message_len = (size_t)answer;
    measure("read_message", read_message, 0, 0);
    measure("service_id", service_id, 0, 0);
    measure("write_ticket", write_ticket, 0, 0);
    measure("read_ticket", read_ticket, 0, 0);
    measure("sha256", sha256, 0, 0);
    measure("hmac", hmac, 0, 0);
    for (int i = 0; i < CALLS; i++) {
        printf("%-23s%6zu\n", names[i], most[i]);
    }
    return 0;
}
