/* A host in C: provisions a unit, rings it, lets the ring time out, rings with a part and with all parts out of reach, stops one with the button, recovers the key, saves and reloads
 * the record, and reads its own frame. It plays the phone too, which makes the requests with the library's own primitives. */
#include "tag.h"
#include <stdio.h>
#include <stdlib.h>
#include <string.h>

static uint8_t record[TAG_RECORD_SIZE];
static uint8_t answer[TAG_ANSWER_ROOM];
static uint8_t nonce[TAG_NONCE_SIZE];

/* The parts that can be reached, which a real host asks its radio for: both components at first. */
static uint32_t reach = 0x03;

static const uint8_t account_key[TAG_ACCOUNT_KEY_SIZE] = {0x04, 1, 2, 3, 4, 5, 6, 7, 8, 9, 10, 11, 12, 13, 14, 15};
static const uint8_t identity[TAG_IDENTITY_KEY_SIZE] = {7, 7, 7, 7, 9, 9, 9, 9, 1, 2, 3, 4, 5, 6, 7, 8, 8, 7, 6, 5, 4, 3, 2, 1, 9, 9, 9, 9, 7, 7, 7, 7};

/* Says what a call gave, and stops the program where it was refused against expectation. */
static uint32_t expect(const char *what, uint64_t number) {
    if (TAG_REFUSED(number)) {
        printf("%s: refused with 0x%02x\n", what, (unsigned)TAG_REFUSAL(number));
        exit(1);
    }
    return TAG_CODE(number);
}

static void issue(void) {
    /* A real host takes random bytes: these only differ from each other. */
    for (int i = 7; i >= 0 && ++nonce[i] == 0; i--) {
    }
    expect("read", tag_read(record, sizeof record, nonce, sizeof nonce, answer, sizeof answer));
}

/* The phone: a request with its tag under a key, on a nonce just issued. */
static uint64_t request(uint8_t id, const uint8_t *key, size_t key_bytes, const uint8_t *data, size_t data_bytes) {
    uint8_t covered[64] = {1}, tag[32], write[64] = {id, (uint8_t)(8 + data_bytes)};
    issue();
    memcpy(covered + 1, nonce, 8);
    covered[9] = id;
    covered[10] = (uint8_t)(8 + data_bytes);
    memcpy(covered + 11, data, data_bytes);
    expect("hmac", tag_hmac_sha256(key, key_bytes, covered, 11 + data_bytes, tag, sizeof tag));
    memcpy(write + 2, tag, 8);
    memcpy(write + 10, data, data_bytes);
    return tag_write(record, sizeof record, write, 10 + data_bytes, reach, answer, sizeof answer);
}

/* The recovery (1), ring (2) or protection (3) key: 8 bytes of a digest. */
static void derived(uint8_t which, uint8_t *key) {
    uint8_t message[33];
    memcpy(message, identity, 32);
    message[32] = which;
    expect("sha256", tag_sha256(message, sizeof message, key, 32));
}

static void ring(uint16_t tenths) {
    uint8_t key[32], data[4] = {0xFF, (uint8_t)(tenths >> 8), (uint8_t)tenths, 2};
    derived(2, key);
    expect("ring", request(0x05, key, 8, data, sizeof data));
    printf("ring accepted: status %u, mask 0x%02x, %u tenths left\n", answer[10], answer[11], (unsigned)(answer[12] << 8 | answer[13]));
}

static void provision(void) {
    uint8_t data[32];
    expect("new", tag_new(record, sizeof record, -20, 2, 1));
    expect("account key", tag_account_key(record, sizeof record, account_key, sizeof account_key));
    expect("state", request(0x01, account_key, 16, data, 0));
    printf("state read: bits 0x%02x, so the key used is the owner and no identity key is held\n", answer[10]);
    for (int half = 0; half < 32; half += 16)
        expect("encrypt", tag_aes128_encrypt(account_key, 16, identity + half, 16, data + half, 16));
    expect("set key", request(0x02, account_key, 16, data, sizeof data));
    printf("key accepted: it %s\n", record[TAG_WAITING_HELD_AT] && !record[TAG_IDENTITY_HELD_AT] ? "waits for the phone to hang up" : "does not wait");
    expect("disconnect", tag_disconnect(record, sizeof record));
    printf("provisioned: identity key %s\n", record[TAG_IDENTITY_HELD_AT] ? "held" : "missing");
}

static void recover(void) {
    uint8_t key[32], back[32], none[1];
    uint64_t number;
    derived(1, key);
    number = request(0x04, key, 8, none, 0);
    printf("recovery without consent: refused with 0x%02x\n", (unsigned)TAG_REFUSAL(number));
    expect("button", tag_button(record, sizeof record, answer, sizeof answer));
    expect("recovery", request(0x04, key, 8, none, 0));
    for (int half = 0; half < 32; half += 16)
        expect("decrypt", tag_aes128_decrypt(account_key, 16, answer + 10 + half, 16, back + half, 16));
    printf("recovery after a press of the button: the identity key is %s\n", memcmp(back, identity, 32) ? "another" : "the same");
}

/* The frame on the air, and what it was made from. A frame takes a multiple on the curve: it is made anew only when one of these has changed. */
static uint8_t frame[TAG_ANSWER_ROOM], made_from[4 + 1 + TAG_IDENTITY_KEY_SIZE + 2];
static uint32_t frame_bytes;

static void advertise(void) {
    uint8_t now[sizeof made_from];
    memcpy(now, record + TAG_CLOCK_SECONDS_AT, 4);
    now[2] &= 0xFC, now[3] = 0; /* the window: the seconds with the low 10 bits cleared */
    memcpy(now + 4, record + TAG_IDENTITY_HELD_AT, 1 + TAG_IDENTITY_KEY_SIZE);
    now[sizeof now - 2] = record[TAG_PROTECTION_AT], now[sizeof now - 1] = record[TAG_BATTERY_AT];
    if (frame_bytes && !memcmp(now, made_from, sizeof now)) {
        printf("the frame on the air stays\n");
        return;
    }
    frame_bytes = expect("frame", tag_frame(record, sizeof record, frame, sizeof frame));
    memcpy(made_from, now, sizeof now);
    printf("a new frame of %u bytes\n", (unsigned)frame_bytes);
}

static void save_and_reload(const char *path) {
    FILE *file = fopen(path, "wb");
    if (!file || fwrite(record, 1, sizeof record, file) != sizeof record || fclose(file)) exit(1);
    memset(record, 0xFF, sizeof record);
    printf("after a reboot, with flash that holds no record: the frame is refused with %u\n",
           (unsigned)TAG_REFUSAL(tag_frame(record, sizeof record, answer, sizeof answer)));
    file = fopen(path, "rb");
    if (!file || fread(record, 1, sizeof record, file) != sizeof record || fclose(file)) exit(1);
    printf("record reloaded\n");
    advertise();
}

/* What a returns desk does: reads the frame that the unit sends. */
static void read_own_frame(void) {
    uint8_t parts[TAG_PARTS_SIZE], empty[1];
    uint64_t number;
    expect("battery", tag_battery(record, sizeof record, 2));
    advertise();
    expect("state", request(0x01, account_key, 16, empty, 0));
    expect("frame read", tag_frame_read(frame, frame_bytes, parts, sizeof parts));
    printf("frame of %u bytes read back: the identifier is %s, protection %u, flags byte %s\n", (unsigned)frame_bytes,
           memcmp(parts + TAG_PARTS_IDENTIFIER_AT, answer + 11, TAG_IDENTIFIER_SIZE) ? "another" : "that of 0x01", parts[TAG_PARTS_PROTECTION_AT],
           parts[TAG_PARTS_FLAGS_SHOWN_AT] ? "shown" : "left out");
    number = tag_frame_read(frame, frame_bytes - 1, parts, sizeof parts);
    printf("the frame cut by a byte: refused with %u at place %u\n", (unsigned)TAG_REFUSAL(number), (unsigned)TAG_PLACE(number));
}

int main(int count, char **words) {
    uint64_t number;
    uint32_t tenths;
    provision();
    ring(50);
    tenths = TAG_ENDED_AT(tag_sleep(record, sizeof record));
    printf("the chip sleeps for %u tenths, until time does something, and no further\n", (unsigned)tenths);
    number = tag_elapsed(record, sizeof record, tenths, answer, sizeof answer);
    printf("%u tenths later: notice of %u bytes, status %u, the ring ended at tenth %u\n", (unsigned)tenths, (unsigned)expect("elapsed", number), answer[10],
           (unsigned)TAG_ENDED_AT(number));
    reach = 0x02;
    ring(600);
    reach = 0x00;
    ring(50);
    reach = 0x03;
    expect("button", tag_button(record, sizeof record, answer, sizeof answer));
    printf("button: status %u, %s\n", answer[10], record[TAG_SOUND_KIND_AT] ? "ringing" : "silent");
    recover();
    advertise();
    save_and_reload(count > 1 ? words[1] : "unit.record");
    read_own_frame();
    tenths = TAG_ENDED_AT(tag_sleep(record, sizeof record));
    expect("elapsed", tag_elapsed(record, sizeof record, tenths, answer, sizeof answer));
    advertise();
    while (record[TAG_CLOCK_SECONDS_AT + 2] < 4) { /* on to the next window */
        tenths = TAG_ENDED_AT(tag_sleep(record, sizeof record));
        expect("elapsed", tag_elapsed(record, sizeof record, tenths, answer, sizeof answer));
    }
    printf("the next window:\n");
    advertise();
    return 0;
}
