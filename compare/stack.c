/* The stack that each exported call takes: it runs on a painted stack of its own, and what is no longer painted is counted.
 * Build and run: gcc -O2 -Iinclude compare/stack.c target/staticlib/libfirmware.a -o target/compare/stack && target/compare/stack */
#include <stdint.h>
#include <stdio.h>
#include <string.h>
#include <ucontext.h>
#include "tag.h"

enum { SIZE = 1 << 20, PAINT = 0xA5 };
static uint8_t stack[SIZE], record[TAG_RECORD_SIZE], answer[64], key[16] = {7}, message[65535];
static ucontext_t here, there;
static uint64_t served;

static void nothing(void) {}
static void read_nonce(void) { static uint8_t n[8]; n[0]++; tag_read(record, sizeof record, n, 8, answer, TAG_ANSWER_ROOM); }
static void add_key(void) { tag_account_key(record, sizeof record, key, 16); }
static void button(void) { tag_button(record, sizeof record, answer, TAG_ANSWER_ROOM); }
static void elapsed(void) { tag_elapsed(record, sizeof record, 1000, answer, TAG_ANSWER_ROOM); }
static void frame(void) { tag_frame(record, sizeof record, answer, TAG_ANSWER_ROOM); }
static void hash(void) { tag_sha256(message, sizeof message, answer, 32); }
static void mac(void) { tag_hmac_sha256(key, 16, message, sizeof message, answer, 32); }
static void encrypt(void) { tag_aes128_encrypt(key, 16, key, 16, answer, 16); }
static void encrypt256(void) { tag_aes256_encrypt(message, 32, key, 16, answer, 16); }
static void decrypt(void) { tag_aes128_decrypt(key, 16, key, 16, answer, 16); }
/* A write that is served: its tag under a key, on the nonce last issued. The tag is made before it is measured. */
static uint8_t request[50];
static void sign(uint8_t id, const uint8_t *with, uint64_t size, const uint8_t *data, uint8_t data_size) {
    uint8_t covered[51] = {1}, tag[32];
    memcpy(covered + 1, record + TAG_NONCES_NEWEST_AT, TAG_NONCE_SIZE);
    request[0] = covered[9] = id, request[1] = covered[10] = (uint8_t)(TAG_TAG_SIZE + data_size);
    memcpy(covered + 11, data, data_size), memcpy(request + TAG_HEAD_SIZE, data, data_size);
    tag_hmac_sha256(with, size, covered, 11 + (uint64_t)data_size, tag, 32);
    memcpy(request + 2, tag, TAG_TAG_SIZE);
}
/* All three parts are in reach. */
static void write_request(void) { served = tag_write(record, sizeof record, request, 2 + (uint64_t)request[1], 7, answer, TAG_ANSWER_ROOM); }
/* The recovery, ring or protection key, or a key proof, made with these last bytes. */
static void made(uint8_t *out, const uint8_t *last, uint64_t size) {
    uint8_t message[40];
    memcpy(message, record + TAG_IDENTITY_BYTES_AT, 32), memcpy(message + 32, last, size);
    tag_sha256(message, 32 + size, out, 32);
}
static void sign_request(uint8_t id) {
    uint8_t derived[32], data[40] = {0};
    read_nonce();
    if (id == 0x02) made(derived, record + TAG_NONCES_NEWEST_AT, 8), memcpy(data + 32, derived, 8), sign(id, key, 16, data, 40);
    else if (id == 0x04) made(derived, (const uint8_t[]){1}, 1), sign(id, derived, 8, data, 0);
    else if (id == 0x05) made(derived, (const uint8_t[]){2}, 1), sign(id, derived, 8, (const uint8_t[]){1, 0, 9, 1}, 4);
    else sign(id, key, 16, data, 0);
}
/* An owner, an identity key in force, pairing on. */
static void provision(void) {
    uint8_t data[32] = {9};
    tag_new(record, sizeof record, -20, 3, 1), add_key();
    sign_request(0x01), write_request();
    read_nonce(), sign(0x02, key, 16, data, 32), write_request();
    tag_disconnect(record, sizeof record), tag_pairing(record, sizeof record, 1);
}

static size_t used(void (*f)(void)) {
    memset(stack, PAINT, SIZE);
    getcontext(&there);
    there.uc_stack.ss_sp = stack, there.uc_stack.ss_size = SIZE, there.uc_link = &here;
    makecontext(&there, f, 0);
    swapcontext(&here, &there);
    size_t i = 0;
    while (i < SIZE && stack[i] == PAINT) i++;
    return SIZE - i;
}

int main(void) {
    provision();
    size_t base = used(nothing);
    /* a write of this ID is signed before; a ring that is stopped or ends is also written before */
    enum { NONE = -1, RING = 5 };
    struct { const char *name; void (*call)(void); int id; } calls[] = {{"tag_account_key", add_key, NONE}, {"tag_read", read_nonce, NONE},
        {"tag_write 0x00", write_request, 0x00}, {"tag_write 0x01", write_request, 0x01}, {"tag_write 0x02", write_request, 0x02},
        {"tag_write 0x04", write_request, 0x04}, {"tag_write 0x05", write_request, RING}, {"tag_button", button, RING}, {"tag_elapsed", elapsed, RING},
        {"tag_frame", frame, NONE}, {"tag_sha256", hash, NONE}, {"tag_hmac_sha256", mac, NONE}, {"tag_aes128_encrypt", encrypt, NONE},
        {"tag_aes128_decrypt", decrypt, NONE}, {"tag_aes256_encrypt", encrypt256, NONE}};
    /* each once before it is measured: the first call also binds the C library's functions */
    for (size_t i = 0; i < sizeof calls / sizeof *calls; i++) used(calls[i].call);
    for (size_t i = 0; i < sizeof calls / sizeof *calls; i++) {
        if (calls[i].id != NONE) sign_request((uint8_t)calls[i].id);
        if (calls[i].id != NONE && calls[i].call != write_request) write_request();
        printf("%-20s %zu bytes\n", calls[i].name, used(calls[i].call) - base);
        if (calls[i].id != NONE && TAG_REFUSED(served)) return printf("refused\n"), 1;
    }
    return 0;
}
