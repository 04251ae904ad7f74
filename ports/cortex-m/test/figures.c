/* The instructions of three calls, counted by SysTick while QEMU gives every instruction the same time (-icount). */
#include "board.h"
#include "phone.h"
#include <stdio.h>

#define SYST_CSR (*(volatile uint32_t *)0xE000E010)
#define SYST_RVR (*(volatile uint32_t *)0xE000E014)
#define SYST_CVR (*(volatile uint32_t *)0xE000E018)
enum { WRAPPED = 1 << 16, NOPS = 8192 };

static uint8_t record[TAG_RECORD_SIZE], answer[TAG_ANSWER_ROOM], request[TAG_HEAD_SIZE + LONGEST_DATA], nonce[TAG_NONCE_SIZE];
static uint8_t bytes; /* of the request */
static uint64_t number;
static int faults;
static const uint8_t account_key[TAG_ACCOUNT_KEY_SIZE] = {4, 1, 2, 3}, some[TAG_IDENTITY_KEY_SIZE] = {7, 9, 1};

static void nothing(void) {}

static void nops(void) { __asm volatile(".rept 8192\n nop\n .endr"); }

static void write_request(void) { number = tag_write(record, sizeof record, request, bytes, 0x07, answer, sizeof answer); }

static void frame(void) { number = tag_frame(record, sizeof record, answer, sizeof answer); }

/* The ticks of a call, without those of calling nothing. */
static uint32_t ticks_of(void (*call)(void)) {
    uint32_t ticks[2];
    for (int i = 0; i < 2; i++) {
        SYST_CSR = 0;
        SYST_RVR = 0xFFFFFF;
        SYST_CVR = 0;
        SYST_CSR = 5;
        uint32_t start = SYST_CVR;
        (i ? call : nothing)();
        uint32_t now = SYST_CVR;
        ticks[i] = (start - now) & 0xFFFFFF;
    }
    if (SYST_CSR & WRAPPED) faults++, printf("SysTick ran over: give -icount a smaller shift\n");
    return ticks[1] - ticks[0];
}

static void show(const char *what, void (*call)(void)) {
    uint64_t all = ticks_of(nops), ticks = ticks_of(call);
    printf("%s %u\n", what, (unsigned)(((ticks * NOPS) + all / 2) / all));
    if (TAG_REFUSED(number)) faults++, printf("%s: refused with 0x%02x\n", what, (unsigned)TAG_REFUSAL(number));
}

/* The phone: a nonce is read, and a request made under a key. */
static void ask(uint8_t id, const uint8_t *key, uint32_t key_bytes, const uint8_t *data, uint32_t data_bytes) {
    nonce[0]++;
    tag_read(record, sizeof record, nonce, sizeof nonce, answer, sizeof answer);
    bytes = (uint8_t)signed_request(record, id, key, key_bytes, data, data_bytes, request);
}

int main(void) {
    static const uint8_t ring[4] = {0xFF, 0, 100, 0};
    uint8_t key[TAG_DIGEST_SIZE];
    tag_new(record, sizeof record, -20, 3, 0);
    tag_account_key(record, sizeof record, account_key, sizeof account_key);
    ask(0x00, account_key, sizeof account_key, some, 0);
    show("parameter read (0x00)", write_request);
    ask(0x01, account_key, sizeof account_key, some, 0);
    write_request();
    ask(0x02, account_key, sizeof account_key, some, sizeof some);
    write_request();
    tag_disconnect(record, sizeof record);
    derived_key(record, 2, key);
    ask(0x05, key, TAG_TAG_SIZE, ring, sizeof ring);
    show("ring write (0x05)", write_request);
    show("frame", frame);
    return faults ? 1 : 0;
}
