/* Pseudo-random calls of every export, one after another on one unit: signed requests, spoilt tags, damaged records, wrong lengths, every alignment, guard
 * bytes around each slice. Prints every number with the record and the answer bytes that the call left, then how often each call was served and
 * refused. The same file runs on x86-64 and on the boards; what it prints must be the same bytes. */
#include "phone.h"
#include <stdio.h>
#include <unistd.h>
#ifdef __arm__
#include "board.h"
static uintptr_t called_at;
#define AT_CALL() __asm volatile("mov %0, sp" : "=r"(called_at))
#else
#define AT_CALL() ((void)0)
static void stack_paint(void) {}
#endif

#ifndef CALLS
#define CALLS 25000
#endif
#ifndef SEED
#define SEED 1
#endif

enum { GUARD = 16, LONGEST = TAG_RECORD_SIZE + 85, ROOM = GUARD + 8 + LONGEST + GUARD, ARGUMENTS = 4, REFUSALS = 32, IDS = 16 };

struct argument {
    uint8_t *at;
    uint64_t bytes;
    uint32_t number;
};

/* What an argument is: how its bytes or its number are drawn, and whether the call may write them. */
struct kind {
    void (*draw)(struct argument *a);
    int written;
};

static uint8_t unit[TAG_RECORD_SIZE]; /* the unit that the calls are made on */
static int unit_lent;                 /* the record of this call is the unit as it stands */
static uint8_t rooms[ARGUMENTS][ROOM] __attribute__((aligned(8)));
static uint64_t before[ARGUMENTS]; /* a sum over the bytes of each room that the call may not write */
static const uint8_t zeros[TAG_LONGEST_MESSAGE + 1]; /* in flash on a chip */

/* ---- chance: the same numbers everywhere */
static uint64_t state = SEED * 0x9E3779B97F4A7C15u | 1;

static uint32_t chance(void) {
    state ^= state >> 12;
    state ^= state << 25;
    state ^= state >> 27;
    return (uint32_t)((state * 0x2545F4914F6CDD1Du) >> 32);
}

static uint32_t below(uint32_t n) { return chance() % n; }

static int one_in(uint32_t n) { return below(n) == 0; }

static void random_bytes(uint8_t *at, uint32_t bytes) {
    for (uint32_t i = 0; i < bytes; i++) at[i] = (uint8_t)chance();
}

/* ---- the kinds of arguments */

/* Random bytes of the right length; now and then of another, up to some more than it. */
static void sized(struct argument *a, uint32_t right) {
    a->bytes = one_in(10) ? below(right + 5) : right;
    random_bytes(a->at, (uint32_t)a->bytes);
}

static void damage(struct argument *a) {
    static const uint8_t values[] = {0, 1, 2, 3, 0x7F, 0xFF};
    switch (below(8)) {
    case 0: a->bytes = below(TAG_RECORD_SIZE); break;
    case 1: a->at[a->bytes++] = 0; break;
    case 2: random_bytes(a->at, TAG_RECORD_SIZE); break;
    case 3: memset(a->at, one_in(2) ? 0 : 0xFF, TAG_RECORD_SIZE); break;
    default:
        for (uint32_t n = below(2); n < 2; n++) {
            uint32_t place = below(TAG_RECORD_SIZE);
            a->at[place] = values[below(sizeof values)];
        }
    }
}

static void draw_record(struct argument *a) {
    memcpy(a->at, unit, TAG_RECORD_SIZE);
    a->bytes = TAG_RECORD_SIZE;
    unit_lent = !one_in(8);
    if (!unit_lent) damage(a);
}

static void draw_nonce(struct argument *a) {
    sized(a, TAG_NONCE_SIZE);
    if (one_in(15) && a->bytes == TAG_NONCE_SIZE) memcpy(a->at, unit + TAG_NONCES_NEWEST_AT, TAG_NONCE_SIZE);
}

static void draw_account_key(struct argument *a) {
    sized(a, TAG_ACCOUNT_KEY_SIZE);
    if (one_in(3) && a->bytes == TAG_ACCOUNT_KEY_SIZE) memcpy(a->at, unit + TAG_ACCOUNTS_KEYS_AT, TAG_ACCOUNT_KEY_SIZE);
}

/* The data of a request that could be served, and the key under which its tag is made. */
static uint32_t draw_data(uint8_t id, uint8_t *data, uint8_t *key, uint32_t *key_bytes) {
    static const uint8_t masks[] = {0, 1, 2, 3, 4, 7, 8, 0xFF};
    static const uint16_t tenths[] = {0, 1, 5, 30, 599, 600, 5999, 6000, 6001};
    uint8_t proof[TAG_DIGEST_SIZE];
    uint32_t count = unit[TAG_ACCOUNTS_COUNT_AT + 7], place = unit[TAG_OWNER_PLACE_AT + 7], bytes = 0;
    if (id < 2) place = below(count ? count : 1);
    if (place >= TAG_MOST_KEYS) place = 0;
    if (id < 4) {
        memcpy(key, unit + TAG_ACCOUNTS_KEYS_AT + place * TAG_ACCOUNT_KEY_SIZE, *key_bytes = TAG_ACCOUNT_KEY_SIZE);
    } else {
        derived_key(unit, id == 4 ? 1 : id < 7 ? 2 : 3, key);
        *key_bytes = TAG_TAG_SIZE;
    }
    if (id == 2) random_bytes(data, bytes = TAG_IDENTITY_KEY_SIZE);
    if (id == 3 || id == 8 || (id == 2 && (unit[TAG_IDENTITY_HELD_AT] || one_in(8)))) {
        key_proof(unit, proof);
        memcpy(data + bytes, proof, TAG_TAG_SIZE);
        bytes += TAG_TAG_SIZE;
    } else if (id == 5) {
        uint16_t left = tenths[below(sizeof tenths / sizeof *tenths)];
        data[0] = masks[below(sizeof masks)], data[1] = (uint8_t)(left >> 8), data[2] = (uint8_t)left, data[3] = (uint8_t)below(5);
        bytes = 4;
    } else if (id == 7 || id > 8) {
        random_bytes(data, bytes = below(2));
        if (bytes) data[0] &= 3;
    }
    return bytes;
}

static void draw_request(struct argument *a) {
    uint8_t data[LONGEST_DATA], key[TAG_DIGEST_SIZE];
    uint32_t key_bytes, bytes;
    if (one_in(12)) {
        a->bytes = below(one_in(2) ? 60 : LONGEST);
        random_bytes(a->at, (uint32_t)a->bytes);
        return;
    }
    uint8_t id = one_in(4) ? 5 : (uint8_t)below(one_in(20) ? IDS : 9);
    if (!unit[TAG_IDENTITY_HELD_AT] && !one_in(6)) id %= 3; /* without an identity key the others are refused */
    bytes = draw_data(id, data, key, &key_bytes);
    if (one_in(12) && bytes) data[below(bytes)] ^= (uint8_t)(1 << below(8));
    a->bytes = signed_request(unit, id, key, key_bytes, data, bytes, a->at);
    if (one_in(10)) a->at[2 + below(TAG_TAG_SIZE)] ^= (uint8_t)(1 << below(8));
    if (one_in(25)) a->bytes -= 1;
    if (one_in(40)) a->at[a->bytes++] = 0;
}

/* A frame, and texts near one: any identifier, kind and flags byte; now and then a wrong byte, cut short or too long. */
static void draw_frame(struct argument *a) {
    static const uint8_t head[] = {0x02, 0x01, 0x06, TAG_IDENTIFIER_SIZE + 4, 0x16, 0xAA, 0xFE, 0x40};
    uint32_t flagged = below(2);
    memcpy(a->at, head, sizeof head);
    random_bytes(a->at + sizeof head, TAG_IDENTIFIER_SIZE + 2);
    a->at[3] = (uint8_t)(a->at[3] + flagged);
    a->at[7] = (uint8_t)(a->at[7] + (flagged && one_in(2)));
    a->bytes = sizeof head + TAG_IDENTIFIER_SIZE + flagged;
    if (one_in(6)) a->at[below((uint32_t)a->bytes)] ^= (uint8_t)(1 << below(8));
    if (one_in(10)) a->bytes = below((uint32_t)a->bytes);
    if (one_in(12)) a->bytes++;
}

static void draw_parts(struct argument *a) {
    a->bytes = one_in(10) ? below(TAG_PARTS_WITH_R_SIZE) : TAG_PARTS_WITH_R_SIZE + below(3);
    random_bytes(a->at, (uint32_t)a->bytes);
}

/* An answer: random bytes, so that those which a call leaves are seen to stay. */
static void draw_answer(struct argument *a) {
    a->bytes = one_in(10) ? below(TAG_ANSWER_ROOM) : TAG_ANSWER_ROOM + below(4);
    random_bytes(a->at, (uint32_t)a->bytes);
}

/* A message, short but for the longest and one byte more. */
static void draw_message(struct argument *a) {
    a->bytes = below(one_in(4) ? LONGEST : 70);
    random_bytes(a->at, (uint32_t)a->bytes);
    if (one_in(60)) a->at = (uint8_t *)zeros, a->bytes = TAG_LONGEST_MESSAGE + below(2);
}

static void draw_identifier(struct argument *a) { sized(a, TAG_IDENTIFIER_SIZE); }
static void draw_block(struct argument *a) { sized(a, TAG_BLOCK_SIZE); }
static void draw_long_key(struct argument *a) { sized(a, 2 * TAG_BLOCK_SIZE); }
static void draw_digest(struct argument *a) { sized(a, TAG_DIGEST_SIZE); }
static void draw_power(struct argument *a) { a->number = one_in(20) ? chance() : below(124) - 102; }
static void draw_small(struct argument *a) { a->number = one_in(20) ? chance() : below(5); }
/* Mostly every part that the unit has. */
static void draw_reach(struct argument *a) { a->number = one_in(20) ? chance() : one_in(3) ? below(8) : (1u << (unit[TAG_SETTINGS_COMPONENTS_AT] & 3)) - 1; }
static void draw_switch(struct argument *a) { a->number = one_in(20) ? chance() : below(2); }

static void draw_tenths(struct argument *a) {
    static const uint32_t tenths[] = {0, 1, 4, 5, 6, 29, 600, 6000, 10240, 0xFFFFFFFF};
    a->number = one_in(2) ? below(300) : one_in(4) ? chance() : tenths[below(sizeof tenths / sizeof *tenths)];
}

static const struct kind record = {draw_record, 1}, lent_record = {draw_record, 0}, answer = {draw_answer, 1}, digest = {draw_digest, 1}, answer_block = {draw_block, 1}, nonce = {draw_nonce, 0},
                         request = {draw_request, 0}, account_key = {draw_account_key, 0}, identifier = {draw_identifier, 0}, frame_text = {draw_frame, 0}, parts = {draw_parts, 1}, message = {draw_message, 0},
                         block = {draw_block, 0}, long_key = {draw_long_key, 0}, power = {draw_power, 0}, small = {draw_small, 0}, on_or_off = {draw_switch, 0}, reach = {draw_reach, 0}, tenths = {draw_tenths, 0};

/* ---- the exports: name, how often (of the sum), its arguments in C, and the kind of each. One more export is one more line. */
#define S(i) a[i].at, a[i].bytes
#define U(i) a[i].number
#define I(i) (int32_t) a[i].number
#define EXPORTS(E)                                                                        \
    E(tag_new, 1, (S(0), I(1), U(2), U(3)), &record, &power, &small, &on_or_off)          \
    E(tag_read, 80, (S(0), S(1), S(2)), &record, &nonce, &answer)                         \
    E(tag_write, 10, (S(0), S(1), U(2), S(3)), &record, &request, &reach, &answer)        \
    E(tag_button, 20, (S(0), S(1)), &record, &answer)                                     \
    E(tag_elapsed, 20, (S(0), U(1), S(2)), &record, &tenths, &answer)                     \
    E(tag_sleep, 20, (S(0)), &lent_record)                                                \
    E(tag_pairing, 10, (S(0), U(1)), &record, &on_or_off)                                 \
    E(tag_battery, 10, (S(0), U(1)), &record, &small)                                     \
    E(tag_account_key, 20, (S(0), S(1)), &record, &account_key)                           \
    E(tag_disconnect, 20, (S(0)), &record)                                                \
    E(tag_frame, 24, (S(0), S(1)), &record, &answer)                                      \
    E(tag_frame_read, 16, (S(0), S(1)), &frame_text, &parts)                              \
    E(tag_frame_read_with_r, 16, (S(0), S(1), S(2)), &frame_text, &identifier, &parts)    \
    E(tag_sha256, 10, (S(0), S(1)), &message, &digest)                                    \
    E(tag_hmac_sha256, 10, (S(0), S(1), S(2)), &message, &message, &digest)               \
    E(tag_aes128_encrypt, 10, (S(0), S(1), S(2)), &block, &block, &answer_block)          \
    E(tag_aes128_decrypt, 10, (S(0), S(1), S(2)), &block, &block, &answer_block)          \
    E(tag_aes256_encrypt, 10, (S(0), S(1), S(2)), &long_key, &block, &answer_block)

#define CALLER(name, often, arguments, ...)                         \
    static uint64_t call_##name(const struct argument *a) {         \
        AT_CALL();                                                  \
        return name arguments;                                      \
    }
EXPORTS(CALLER)

struct export {
    const char *name;
    uint32_t often;
    uint64_t (*call)(const struct argument *a);
    const struct kind *kinds[ARGUMENTS];
};
#define ENTRY(name, often, arguments, ...) {#name, often, call_##name, {__VA_ARGS__}},
static const struct export exports[] = {EXPORTS(ENTRY)};
enum { COUNT = sizeof exports / sizeof *exports };

static uint32_t served[COUNT], answered[COUNT], ids[IDS];
static uint16_t refused[COUNT][REFUSALS]; /* for at most 65,535 calls */
static uint32_t stack[COUNT], spoilt;

/* ---- printing */
static char line[512];
static uint32_t column;

static void flush(void) {
    for (uint32_t done = 0; done < column;) {
        long n = write(1, line + done, column - done);
        if (n <= 0) _exit(3);
        done += (uint32_t)n;
    }
    column = 0;
}

static void put(char c) {
    if (column == sizeof line) flush();
    line[column++] = c;
}

static void put_text(const char *text) {
    while (*text) put(*text++);
}

static void put_hex(uint64_t number, int digits) {
    while (digits--) put("0123456789abcdef"[number >> (4 * digits) & 15]);
}

static void put_decimal(uint32_t number) {
    if (number > 9) put_decimal(number / 10);
    put((char)('0' + number % 10));
}

/* ---- one call */
static uint32_t pick(void) {
    uint32_t sum = 0, n, i = 0;
    /* a live nonce is mostly used */
    if (unit[TAG_NONCES_LIVE_AT] == 1 && !one_in(3))
        while (i < COUNT && strcmp(exports[i].name, "tag_write")) i++;
    if (i > 0 && i < COUNT) return i;
    for (i = 0; i < COUNT; i++) sum += exports[i].often;
    n = below(sum);
    for (i = 0; n >= exports[i].often; i++) n -= exports[i].often;
    return i;
}

/* A sum over the bytes of a room that are not of a slice which the call may write: another byte at any one place gives another sum. */
static uint64_t kept(const struct export *e, const struct argument *a, int i) {
    uint64_t sum = 0;
    for (int k = 0; k < ROOM; k++) {
        int inside = e->kinds[i]->written && &rooms[i][k] >= a[i].at && &rooms[i][k] < a[i].at + a[i].bytes;
        if (!inside) sum = sum * 0x100000001B3u + rooms[i][k] + 1;
    }
    return sum;
}

/* Lays the arguments out in rooms of guard bytes, each at some alignment. */
static void lay_out(const struct export *e, struct argument *a) {
    for (int i = 0; i < ARGUMENTS && e->kinds[i]; i++) {
        for (int k = 0; k < ROOM; k++) rooms[i][k] = (uint8_t)(0xC3 ^ k ^ (i << 5));
        a[i].at = rooms[i] + GUARD + below(8);
        a[i].bytes = 0;
        e->kinds[i]->draw(&a[i]);
    }
    for (int i = 0; i < ARGUMENTS && e->kinds[i]; i++) before[i] = kept(e, a, i);
}

/* Every byte that is not of a slice which the call may write must be as before. */
static void look_at_guards(const struct export *e, const struct argument *a) {
    for (int i = 0; i < ARGUMENTS && e->kinds[i]; i++) {
        if (kept(e, a, i) == before[i]) continue;
        spoilt++;
        put_text(" SPOILT");
        return;
    }
}

/* Where a refusal is counted. */
static uint32_t row(uint32_t refusal) { return refusal % 16 + (refusal & 0x80 ? 16 : 0); }

static void count(uint32_t which, const struct argument *a, uint64_t number) {
    uint32_t refusal = TAG_REFUSAL(number);
    if (TAG_REFUSED(number)) {
        refused[which][row(refusal)]++;
        return;
    }
    served[which]++;
    answered[which] += number > 0;
    if (!strcmp(exports[which].name, "tag_write") && a[1].at[0] < IDS) ids[a[1].at[0]]++;
}

static void one_call(uint32_t step) {
    struct argument a[ARGUMENTS];
    uint32_t which = pick();
    const struct export *e = &exports[which];
    unit_lent = 0;
    lay_out(e, a);
    stack_paint();
    uint64_t number = e->call(a);
#ifdef __arm__
    uint32_t used = stack_used(called_at);
    if (used > stack[which]) stack[which] = used;
#endif
    put_decimal(step), put(' '), put_text(e->name), put(' '), put_hex(number, 16);
    for (int i = 0; i < ARGUMENTS && e->kinds[i]; i++) {
        if (!e->kinds[i]->written) continue;
        put(' ');
        for (uint64_t k = 0; k < a[i].bytes; k++) put_hex(a[i].at[k], 2);
    }
    look_at_guards(e, a);
    put('\n');
    flush();
    if (unit_lent) memcpy(unit, a[0].at, TAG_RECORD_SIZE);
    count(which, a, number);
}

/* How often each call was served and refused; gives how many calls, request IDs and refusals never came. */
static int sum_up(void) {
    static const uint8_t known[] = {TAG_OUT_OF_RANGE, TAG_NOT_WELL_FORMED, TAG_WRONG_NONCE, TAG_WRONG_ACCOUNT_KEY, TAG_NO_FRAME, TAG_NO_ROOM,
                                    TAG_WRONG_SIZE, TAG_NOT_AUTHENTICATED, TAG_INVALID_VALUE, TAG_NO_CONSENT};
    int never = 0;
    for (uint32_t k = 0; k < sizeof known; k++) {
        uint32_t all = 0;
        for (uint32_t i = 0; i < COUNT; i++) all += refused[i][row(known[k])];
        never += !all;
    }
    for (uint32_t i = 0; i < COUNT; i++) {
        put_text(exports[i].name), put_text(": served "), put_decimal(served[i]), put_text(", with an answer "), put_decimal(answered[i]);
        never += !served[i];
        for (uint32_t r = 0; r < REFUSALS; r++)
            if (refused[i][r]) put_text(", refused 0x"), put_hex(r < 16 ? r : 0x70 + r, 2), put(' '), put_decimal(refused[i][r]);
        put('\n');
    }
    put_text("requests served:");
    for (uint32_t i = 0; i < IDS; i++)
        if (ids[i]) put_text(" 0x"), put_hex(i, 2), put(' '), put_decimal(ids[i]);
    for (uint32_t i = 0; i < 9; i++) never += !ids[i];
    put('\n');
    put_text("slices with spoilt surroundings: "), put_decimal(spoilt), put('\n');
    flush();
    return never;
}

int main(void) {
    tag_new(unit, sizeof unit, -20, 3, 1);
    for (uint32_t step = 0; step < CALLS; step++) one_call(step);
    int never = sum_up();
#ifndef TRAP_UNALIGNED /* the C library's printing does not bear it */
    for (uint32_t i = 0; i < COUNT; i++)
        if (stack[i]) fprintf(stderr, "%s %u\n", exports[i].name, (unsigned)stack[i]);
#endif
    return spoilt ? 1 : never ? 2 : 0;
}
