/* The proved tag core for a host in C: link libfirmware.a.
 *
 * The host keeps the unit as a record of TAG_RECORD_SIZE bytes, which it may copy, save to flash and load again as it likes. Every call
 * takes the record, changes it where the call changes the unit, and gives one number:
 *   below TAG_REFUSAL_BASE   the answer bytes written, 0 where there are none;
 *   TAG_REFUSAL_BASE + n     refusal n; no answer byte was written;
 *   for tag_elapsed also TAG_ENDED_BASE times the tenth, counted from the call's start, at which a ring ended;
 *   for tag_sleep TAG_ENDED_BASE times the tenths that it tells;
 *   for refusal 8 also TAG_ENDED_BASE times the place of the first wrong byte, counted from 0.
 * The macros TAG_CODE, TAG_REFUSED, TAG_ENDED_AT and TAG_PLACE take the number apart.
 *
 * Any bytes may be handed in, of any lengths. Bytes that are no record of a well-formed unit are refused with 2 and stay as they were:
 * those of another length or version, zeroed memory and erased flash among them.
 * Slices that a call writes (record, answer) must not overlap each other or any other slice of the call; a slice of no bytes still takes
 * a pointer that is not null. Refusals are tested in the order in which a call's comment lists them.
 *
 * The host's duties:
 *   - a nonce is random, and never lent twice (the last 16 are refused);
 *   - tag_elapsed is called with the tenths that passed, before any other call that follows them, and at least as often as the host wants
 *     the stop notice of a ring that ends;
 *   - the bytes that tag_write, tag_button and tag_elapsed give are sent as notifications; those of a write before the write is answered;
 *   - the answer to a write is an error where the call is refused: TAG_NOT_AUTHENTICATED, TAG_INVALID_VALUE, TAG_NO_CONSENT, and another
 *     error of the host's own for the rest;
 *   - tag_disconnect is called at the end of each connection, before the next one begins;
 *   - the record is saved after each call that changed it: a reboot must not bring an old nonce, key or clock back;
 *   - the record holds the keys in the clear: it is the host's to keep them secret.
 */
#ifndef TAG_H
#define TAG_H

#include <stdint.h>

#ifdef __cplusplus
extern "C" {
#endif

/* Sizes in bytes. */
#define TAG_NONCE_SIZE 8
#define TAG_ACCOUNT_KEY_SIZE 16
#define TAG_IDENTITY_KEY_SIZE 32
#define TAG_IDENTIFIER_SIZE 20 /* of r too */
#define TAG_TAG_SIZE 8 /* the tag of a request or an answer, a key proof, a key made from the identity key */
#define TAG_HEAD_SIZE (2 + TAG_TAG_SIZE) /* ID, length and tag, before the data of a request or an answer */
#define TAG_ANSWER_ROOM (TAG_HEAD_SIZE + TAG_IDENTITY_KEY_SIZE) /* the fewest answer bytes that a call with an answer takes */
#define TAG_DIGEST_SIZE 32
#define TAG_BLOCK_SIZE 16 /* of a key of AES-128 too */
#define TAG_LONGEST_MESSAGE 65535
#define TAG_MOST_NONCES 16
#define TAG_MOST_KEYS 10

#define TAG_REFUSAL_BASE 256
#define TAG_ENDED_BASE 65536

#define TAG_CODE(number) ((uint32_t)((number) % TAG_ENDED_BASE))
#define TAG_ENDED_AT(number) ((uint32_t)((number) / TAG_ENDED_BASE))
#define TAG_REFUSED(number) (TAG_CODE(number) >= TAG_REFUSAL_BASE)
#define TAG_REFUSAL(number) (TAG_CODE(number) - TAG_REFUSAL_BASE)
#define TAG_PLACE(number) TAG_ENDED_AT(number)

/* The refusals. The first three spend the nonce and leave the rest of the unit; the others leave the whole record. */
#define TAG_NOT_AUTHENTICATED 0x80
#define TAG_INVALID_VALUE 0x81
#define TAG_NO_CONSENT 0x82
#define TAG_OUT_OF_RANGE 1
#define TAG_NOT_WELL_FORMED 2
#define TAG_WRONG_NONCE 3
#define TAG_WRONG_ACCOUNT_KEY 4
#define TAG_NO_FRAME 5
#define TAG_NO_ROOM 6
#define TAG_WRONG_SIZE 7
#define TAG_WRONG_BYTE 8

/* The status byte of a ring notice. */
#define TAG_RING_STARTED 0
#define TAG_RING_FAILED 1 /* no part that was asked for, or that sounds, could be reached */
#define TAG_RING_TIMED_OUT 2
#define TAG_RING_BY_BUTTON 3
#define TAG_RING_BY_REQUEST 4

/* The record: where each field starts, right behind the one before it. Numbers are big-endian; a flag is 0 or 1; what is absent is zero.
 * The version is raised by every change of the layout; it is never 0x00 or 0xFF. */
#define TAG_VERSION 0x05
#define TAG_VERSION_AT 0 /* TAG_VERSION */
#define TAG_SETTINGS_POWER_AT (TAG_VERSION_AT + 1) /* 4 bytes, two's complement */
#define TAG_SETTINGS_COMPONENTS_AT (TAG_SETTINGS_POWER_AT + 4)
#define TAG_SETTINGS_SELECTABLE_AT (TAG_SETTINGS_COMPONENTS_AT + 1)
#define TAG_CLOCK_SECONDS_AT (TAG_SETTINGS_SELECTABLE_AT + 1) /* 4 bytes */
#define TAG_CLOCK_TENTH_AT (TAG_CLOCK_SECONDS_AT + 4)
#define TAG_NONCES_COUNT_AT (TAG_CLOCK_TENTH_AT + 1) /* how many issued nonces are held */
#define TAG_NONCES_LIVE_AT (TAG_NONCES_COUNT_AT + 1) /* whether the newest is live */
#define TAG_NONCES_NEWEST_AT (TAG_NONCES_LIVE_AT + 1)
#define TAG_NONCES_EARLIER_AT (TAG_NONCES_NEWEST_AT + TAG_NONCE_SIZE) /* those before it, newest first */
#define TAG_ACCOUNTS_COUNT_AT (TAG_NONCES_EARLIER_AT + (TAG_MOST_NONCES - 1) * TAG_NONCE_SIZE) /* 8 bytes: how many keys are held */
#define TAG_OWNER_KIND_AT (TAG_ACCOUNTS_COUNT_AT + 8) /* 0 nobody, 1 a place */
#define TAG_OWNER_PLACE_AT (TAG_OWNER_KIND_AT + 1) /* 8 bytes: the place of the owner's key, which moves with use */
#define TAG_ACCOUNTS_KEYS_AT (TAG_OWNER_PLACE_AT + 8) /* TAG_MOST_KEYS keys, the most recently used first */
#define TAG_IDENTITY_HELD_AT (TAG_ACCOUNTS_KEYS_AT + TAG_MOST_KEYS * TAG_ACCOUNT_KEY_SIZE)
#define TAG_IDENTITY_BYTES_AT (TAG_IDENTITY_HELD_AT + 1) /* the identity key in force */
#define TAG_WAITING_HELD_AT (TAG_IDENTITY_BYTES_AT + TAG_IDENTITY_KEY_SIZE) /* the identity key that waits for the connection to end */
#define TAG_WAITING_BYTES_AT (TAG_WAITING_HELD_AT + 1)
#define TAG_SOUND_KIND_AT (TAG_WAITING_BYTES_AT + TAG_IDENTITY_KEY_SIZE) /* 0 silent, 1 ringing */
#define TAG_SOUND_MASK_AT (TAG_SOUND_KIND_AT + 1)
#define TAG_SOUND_VOLUME_AT (TAG_SOUND_MASK_AT + 1)
#define TAG_SOUND_LEFT_AT (TAG_SOUND_VOLUME_AT + 1) /* 2 bytes: tenths left */
#define TAG_RING_NONCE_AT (TAG_SOUND_LEFT_AT + 2) /* the nonce of the accepted ring */
#define TAG_PROTECTION_AT (TAG_RING_NONCE_AT + TAG_NONCE_SIZE) /* 0 off, 1 on, 2 on with the flag that lets a ring skip authentication */
#define TAG_CONSENT_AT (TAG_PROTECTION_AT + 1) /* 2 bytes: tenths left */
#define TAG_PAIRING_AT (TAG_CONSENT_AT + 2)
#define TAG_BATTERY_AT (TAG_PAIRING_AT + 1)
#define TAG_RECORD_SIZE (TAG_BATTERY_AT + 1)

/* A new unit, fresh, in a record of TAG_RECORD_SIZE bytes: power -100 to 20, components 0 to 3, volume selectable 0 or 1.
 * Refusals: 2 for a record of another length, 1 for settings out of range; the bytes then stay as they were. Gives 0. */
uint64_t tag_new(uint8_t *record, uint64_t record_bytes, int32_t power, uint32_t components, uint32_t selectable);

/* Read: issues the lent nonce of TAG_NONCE_SIZE bytes, which replaces any other. Answer: 0x01 and the nonce. Refusals: 6, 2, and 3 for another
 * length or for a nonce that is one of the last TAG_MOST_NONCES issued, live or spent, a clear (0x03) included. Gives 9. */
uint64_t tag_read(uint8_t *record, uint64_t record_bytes, const uint8_t *nonce, uint64_t nonce_bytes, uint8_t *answer, uint64_t answer_bytes);

/* Write: a request of the phone's, with the mask of the parts that can be reached now, which only 0x05 looks at: a ring leaves out the parts that
 * cannot be reached; with none of them, and a stop with none of those that sound, it fails with a notice of status 1 and changes neither ring nor
 * time left. Answer: what to notify. Refusals: 6, 2, 1 for a mask with a bit that names no component, and then, with the nonce spent, 0x81 for its
 * shape, 0x80, 0x81 for its values, 0x82. Gives the answer's bytes, 10 to 42. */
uint64_t tag_write(uint8_t *record, uint64_t record_bytes, const uint8_t *request, uint64_t request_bytes, uint32_t reach, uint8_t *answer, uint64_t answer_bytes);

/* The button: stops a ring, with a notice of status 3; while silent gives consent for 600 tenths. Refusals: 6, 2. Gives 14 or 0. */
uint64_t tag_button(uint8_t *record, uint64_t record_bytes, uint8_t *answer, uint64_t answer_bytes);

/* Time: that many tenths of a second passed. A ring that ends gives a notice of status 2. Refusals: 6, 2.
 * Gives 0, or 14 and TAG_ENDED_BASE times the tenth at which the ring ended. */
uint64_t tag_elapsed(uint8_t *record, uint64_t record_bytes, uint32_t tenths, uint8_t *answer, uint64_t answer_bytes);

/* How long the unit may sleep: the tenths until the next thing that time alone would do, which is a ring's end, consent's end, a new window or the return
 * of the seconds to 0; 1 to 10,240. The record is only read. Refusal: 2. Gives TAG_ENDED_BASE times the tenths: TAG_ENDED_AT takes them out. */
uint64_t tag_sleep(const uint8_t *record, uint64_t record_bytes);

/* Pairing mode: 0 is off, anything else on. Refusal: 2. Gives 0. */
uint64_t tag_pairing(uint8_t *record, uint64_t record_bytes, uint32_t on);

/* The battery level: 0 unsupported, 1 normal, 2 low, 3 critical. Refusals: 2, 1. Gives 0. */
uint64_t tag_battery(uint8_t *record, uint64_t record_bytes, uint32_t level);

/* Adds an account key of TAG_ACCOUNT_KEY_SIZE bytes, the most recently used; one already held changes nothing. Of TAG_MOST_KEYS the least
 * recently used that is not the owner's makes room for it. Refusals: 2, 4 for another length. Gives 0. */
uint64_t tag_account_key(uint8_t *record, uint64_t record_bytes, const uint8_t *key, uint64_t key_bytes);

/* The phone has hung up: an identity key that waits since an accepted 0x02 comes into force, and a ring then ends without a notice. Without a waiting
 * key nothing changes. Refusal: 2. Gives 0. */
uint64_t tag_disconnect(uint8_t *record, uint64_t record_bytes);

/* The advertised frame, with the identifier that the unit works out for the current window from the identity key in force. Each call computes a multiple
 * on the curve, as does each 0x01 that is served with a key in force: by far the dearest calls. So ask for a frame when the window, the key in force,
 * protection or the battery level has changed (tag_sleep tells when the window does), and keep it until then. The record stays as it is.
 * Refusals: 6, 2, 5 without an identity key in force or where r is 0. Gives 28 or 29. */
uint64_t tag_frame(uint8_t *record, uint64_t record_bytes, uint8_t *answer, uint64_t answer_bytes);

/* The reader of frames, of this tag or another, without a record: any bytes may be handed in. A frame is read into parts that the caller lends:
 *   from TAG_PARTS_IDENTIFIER_AT, TAG_IDENTIFIER_SIZE bytes   the identifier;
 *   at TAG_PARTS_PROTECTION_AT                                1 under unwanted tracking protection, else 0;
 *   at TAG_PARTS_FLAGS_SHOWN_AT                               1 where the frame has a flags byte, else 0;
 *   at TAG_PARTS_FLAGS_BYTE_AT                                the flags byte as sent, or 0 where there is none;
 *   at TAG_PARTS_BATTERY_AT, with r only                      the battery level, 0 to 3. */
#define TAG_PARTS_IDENTIFIER_AT 0
#define TAG_PARTS_PROTECTION_AT (TAG_PARTS_IDENTIFIER_AT + TAG_IDENTIFIER_SIZE)
#define TAG_PARTS_FLAGS_SHOWN_AT (TAG_PARTS_PROTECTION_AT + 1)
#define TAG_PARTS_FLAGS_BYTE_AT (TAG_PARTS_FLAGS_SHOWN_AT + 1)
#define TAG_PARTS_SIZE (TAG_PARTS_FLAGS_BYTE_AT + 1)
#define TAG_PARTS_BATTERY_AT TAG_PARTS_SIZE
#define TAG_PARTS_WITH_R_SIZE (TAG_PARTS_BATTERY_AT + 1)

/* Reads a frame. Refusals: 6 where parts has fewer than TAG_PARTS_SIZE bytes; 8 with the place of the first wrong byte, which for a frame cut short is
 * its length, for one too long that of the first byte too many. Gives TAG_PARTS_SIZE. */
uint64_t tag_frame_read(const uint8_t *frame, uint64_t frame_bytes, uint8_t *parts, uint64_t parts_bytes);

/* Reads a frame with the r of its identifier. Refusals: 6 where parts has fewer than TAG_PARTS_WITH_R_SIZE bytes; 8 as above, whatever r; 1 for an r of
 * other than TAG_IDENTIFIER_SIZE bytes; 8 at the flags byte where this r shows that our writer did not make it. Gives TAG_PARTS_WITH_R_SIZE. */
uint64_t tag_frame_read_with_r(const uint8_t *frame, uint64_t frame_bytes, const uint8_t *r, uint64_t r_bytes, uint8_t *parts, uint64_t parts_bytes);

/* The primitives. Messages and HMAC keys have up to TAG_LONGEST_MESSAGE bytes, blocks and keys of AES-128 TAG_BLOCK_SIZE, keys of AES-256
 * twice as many; a hash answer has TAG_DIGEST_SIZE bytes, a block answer TAG_BLOCK_SIZE. Refusal: 7. They give their answer's bytes. */
uint64_t tag_sha256(const uint8_t *message, uint64_t message_bytes, uint8_t *answer, uint64_t answer_bytes);
uint64_t tag_hmac_sha256(const uint8_t *key, uint64_t key_bytes, const uint8_t *message, uint64_t message_bytes, uint8_t *answer, uint64_t answer_bytes);
uint64_t tag_aes128_encrypt(const uint8_t *key, uint64_t key_bytes, const uint8_t *block, uint64_t block_bytes, uint8_t *answer, uint64_t answer_bytes);
uint64_t tag_aes128_decrypt(const uint8_t *key, uint64_t key_bytes, const uint8_t *block, uint64_t block_bytes, uint8_t *answer, uint64_t answer_bytes);
uint64_t tag_aes256_encrypt(const uint8_t *key, uint64_t key_bytes, const uint8_t *block, uint64_t block_bytes, uint8_t *answer, uint64_t answer_bytes);

#ifdef __cplusplus
}
#endif

#endif
