/* Koyandefa's calls with named answers: what a driver calls. koyandefa.h includes this file; its head says what holds of every call.
 *
 * Each function here makes one call of koyandefa.h and names what that told, and nothing else is done here:
 *
 *   telegrams     koy_telegram_read, koy_telegram_read_strict, koy_telegram_write, koy_token_write, koy_confirmation_write
 *   station list  koy_stations_witness_pass, koy_stations_report; the other calls of the list take list.state and have no second form
 *   diagnostics   koy_walk_over, koy_walk_next, koy_block_has_module, koy_store_fill
 *   settings      koy_settings_own_peer, koy_settings_from_text, koy_settings_to_text
 *   head end      koy_head_end_new, ..._submit, ..._silence, ..._hear, ..._restart, ..._phase
 *   cabinet       koy_cabinet_new, ..._hear, ..._answer, ..._restart, ..._phase
 *   codes         koy_code_text, koy_is_refusal
 *
 * Every answer has a `code`. What is not named for a code is 0, an absent byte KOY_ABSENT and a part empty, so that no answer holds
 * anything of the call before it. A pointer may be NULL where its length is 0.
 */
#ifndef KOYANDEFA_NAMED_H
#define KOYANDEFA_NAMED_H

#include "koyandefa.h"

#ifdef __cplusplus
extern "C" {
#endif

/* ---- lent bytes ---- */

/* A part of the bytes that a call was lent: `length` bytes from `bytes` on, which is place `start` of what was lent. It is no copy:
 * take it before the buffer is used again. */
typedef struct {
    const uint8_t *bytes;
    size_t start;
    size_t length;
} koy_part;

static inline koy_part koy_part_of(const uint8_t *lent, size_t start, size_t length)
{
    koy_part part = {lent, start, length};
    if (start > 0)
        part.bytes = lent + start;
    return part;
}

/* In the place of NULL a call is lent a byte that it neither reads nor writes, since the length is 0. */
static inline const uint8_t *koy_lent(const uint8_t *bytes)
{
    static const uint8_t nothing[1] = {0};
    return bytes != NULL ? bytes : nothing;
}

static inline uint8_t *koy_lent_room(uint8_t *buf)
{
    static uint8_t nothing[1] = {0};
    return buf != NULL ? buf : nothing;
}

/* ---- codes ---- */

static inline bool koy_is_refusal(size_t code)
{
    return code > 0 && code < KOY_INCOMPLETE;
}

/* What a code says, in the words of the Rust wrapper; of a number that no call answers, that it is none. */
static inline const char *koy_code_text(size_t code)
{
    switch (code) {
    case KOY_DONE: return "done, or nothing to do";
    case KOY_UNKNOWN_START: return "the first byte begins no telegram";
    case KOY_LENGTHS_DIFFER: return "second and third byte of an SD2 telegram differ";
    case KOY_LENGTH_TOO_SMALL: return "the length byte of an SD2 telegram is below 3";
    case KOY_FUNCTION_CODE: return "the byte is no function code";
    case KOY_SAP_MISSING: return "a SAP that an address announces is missing";
    case KOY_CHECKSUM: return "the checksum is another";
    case KOY_END_DELIMITER: return "the last byte is no end delimiter";
    case KOY_ADDRESS_TOO_LARGE: return "da or sa is above 127";
    case KOY_TOO_LONG: return "the length byte is above 249, or a link reply above 246 bytes";
    case KOY_NO_ROOM: return "the buffer is too short; link calls that may write want 255 bytes";
    case KOY_NOT_A_STATION: return "the own, set or removed address is above 125";
    case KOY_BLOCK_CUT_OFF: return "the block is cut off";
    case KOY_BLOCK_RESERVED: return "the block's header is reserved";
    case KOY_BLOCK_LENGTH_ZERO: return "the block's length is zero";
    case KOY_CYCLE_INACTIVE: return "an inactive frame count bit is not cycled";
    case KOY_ORDER_LENGTH: return "the order is empty or above 246 bytes";
    case KOY_ORDER_PENDING: return "an order is already pending";
    case KOY_LINK_ADDRESSES: return "a link address is above 125, or both are equal";
    case KOY_TRIES: return "the tries are outside 1 to 8";
    case KOY_SETTINGS_FORM: return "the settings text has another form";
    case KOY_NO_REPLY_OWED: return "an answer is given where none is owed, or for another order";
    case KOY_INPUT_TOO_LONG: return "the lister's input is above 4,096 bytes";
    case KOY_LENGTH_NOT_STANDARD: return "the length byte of an SD2 telegram is 3 or above 249, in strict mode";
    case KOY_FOURTH_BYTE: return "the fourth byte of an SD2 telegram is not 68, in strict mode";
    case KOY_INCOMPLETE: return "incomplete: too few bytes to tell";
    case KOY_AT_END: return "no more blocks";
    case KOY_SENT: return "a telegram to send";
    case KOY_CONFIRMED: return "confirmed: carried out exactly once";
    case KOY_NOT_SENT: return "not sent: never carried out";
    case KOY_UNKNOWN: return "unknown: carried out at most once, perhaps later than this report";
    case KOY_HANDED_UP: return "an order to carry out";
    default: return "no code of this library";
    }
}

/* ---- telegrams ---- */

/* A token pass, or who writes to whom: from sa to da. koy_from_to(9, 2) is the pass from 9 to 2. */
typedef struct {
    uint8_t sa;
    uint8_t da;
} koy_pass;

static inline koy_pass koy_from_to(uint8_t sa, uint8_t da)
{
    koy_pass pass = {sa, da};
    return pass;
}

/* code: KOY_DONE; KOY_INCOMPLETE, more bytes are needed; 1 to 7, in strict mode also 24 and 25, refused. A short confirmation has no
 * address, a token no SAP and no function code: KOY_ABSENT, which no byte equals. */
typedef struct {
    uint8_t code;
    uint8_t kind; /* KOY_SHORT_CONFIRMATION, KOY_TOKEN, KOY_DATA; 0 where none was read */
    size_t length; /* of the whole telegram */
    size_t sa;
    size_t da;
    size_t ssap;
    size_t dsap;
    size_t fc;
    koy_part pdu;
} koy_telegram;

/* Names what koy_read or koy_read_strict told; of a refused call told is not looked at. */
static inline koy_telegram koy_telegram_named(uint8_t code, const size_t told[9], const uint8_t *bytes)
{
    koy_telegram telegram = {code, 0, 0, KOY_ABSENT, KOY_ABSENT, KOY_ABSENT, KOY_ABSENT, KOY_ABSENT, {bytes, 0, 0}};
    if (code != KOY_DONE)
        return telegram;
    telegram.kind = (uint8_t)told[0];
    telegram.length = told[1];
    telegram.da = told[2];
    telegram.sa = told[3];
    telegram.dsap = told[4];
    telegram.ssap = told[5];
    telegram.fc = told[6];
    telegram.pdu = koy_part_of(bytes, told[7], told[8]);
    return telegram;
}

/* The telegram that the bytes begin with. */
static inline koy_telegram koy_telegram_read(const uint8_t *bytes, size_t bytes_len)
{
    size_t told[9] = {0, 0, 0, 0, 0, 0, 0, 0, 0};
    uint8_t code = koy_read(koy_lent(bytes), bytes_len, told);
    return koy_telegram_named(code, told, bytes);
}

/* The same in strict mode, for who hunts couplers that send sloppy SD2 telegrams; a driver keeps koy_telegram_read. */
static inline koy_telegram koy_telegram_read_strict(const uint8_t *bytes, size_t bytes_len)
{
    size_t told[9] = {0, 0, 0, 0, 0, 0, 0, 0, 0};
    uint8_t code = koy_read_strict(koy_lent(bytes), bytes_len, told);
    return koy_telegram_named(code, told, bytes);
}

/* From whom to whom a token or a data telegram goes; of no other telegram. */
static inline koy_pass koy_telegram_pass(koy_telegram telegram)
{
    return koy_from_to((uint8_t)telegram.sa, (uint8_t)telegram.da);
}

/* The header of a data telegram. Make it with koy_header_from_to, which leaves both SAPs absent, and set the SAPs by name: 0 in
 * their place is SAP 0. */
typedef struct {
    koy_pass pass;
    uint8_t fc;
    size_t ssap;
    size_t dsap;
} koy_header;

static inline koy_header koy_header_from_to(uint8_t sa, uint8_t da, uint8_t fc)
{
    koy_header header = {{sa, da}, fc, KOY_ABSENT, KOY_ABSENT};
    return header;
}

/* KOY_DONE: the front of the buffer has `length` bytes to send, and `replier` is the station that is to reply, or KOY_ABSENT. */
typedef struct {
    uint8_t code;
    size_t length;
    size_t replier;
} koy_written;

/* 4, 8, 9, 10 in this order. */
static inline koy_written koy_telegram_write(koy_header header, const uint8_t *pdu, size_t pdu_len, uint8_t *buf, size_t buf_len)
{
    size_t told[2] = {0, KOY_ABSENT};
    koy_written written;
    written.code = koy_write_data(header.pass.da, header.pass.sa, header.dsap, header.ssap, header.fc, koy_lent(pdu), pdu_len,
                                  koy_lent_room(buf), buf_len, told);
    written.length = told[0];
    written.replier = told[1];
    return written;
}

static inline koy_written koy_written_whole(uint8_t code, size_t length)
{
    koy_written written = {code, code == KOY_DONE ? length : 0, KOY_ABSENT};
    return written;
}

/* 10. */
static inline koy_written koy_token_write(koy_pass pass, uint8_t *buf, size_t buf_len)
{
    return koy_written_whole(koy_write_token(pass.da, pass.sa, koy_lent_room(buf), buf_len), KOY_TOKEN_LENGTH);
}

/* 10. */
static inline koy_written koy_confirmation_write(uint8_t *buf, size_t buf_len)
{
    return koy_written_whole(koy_write_confirmation(koy_lent_room(buf), buf_len), KOY_SHORT_CONFIRMATION_LENGTH);
}

/* ---- the station list ---- */

/* koy_stations_new(list.state, 7), koy_stations_claim(list.state), koy_stations_remove(list.state, 5) ... and: */
typedef struct {
    uint8_t state[KOY_STATIONS_SIZE];
} koy_station_list;

static inline void koy_stations_witness_pass(koy_station_list *list, koy_pass pass)
{
    koy_stations_witness(list->state, pass.sa, pass.da);
}

/* phase: KOY_UNINITIALIZED, KOY_DISCOVERY, KOY_VERIFICATION, KOY_VALID */
typedef struct {
    uint8_t phase;
    uint8_t own;
    uint8_t next;
    uint8_t previous;
} koy_station_report;

static inline koy_station_report koy_stations_report(const koy_station_list *list)
{
    size_t told[4];
    koy_station_report report;
    koy_stations_about(list->state, told);
    report.phase = (uint8_t)told[0];
    report.own = (uint8_t)told[1];
    report.next = (uint8_t)told[2];
    report.previous = (uint8_t)told[3];
    return report;
}

/* ---- extended diagnostics ---- */

/* A walk over diagnostics bytes; `cursor` is where the next block begins. */
typedef struct {
    const uint8_t *bytes;
    size_t length;
    size_t cursor;
} koy_walk;

static inline koy_walk koy_walk_over(const uint8_t *bytes, size_t length)
{
    koy_walk walk = {bytes, length, 0};
    return walk;
}

/* code: KOY_DONE, a block; KOY_AT_END; 12, 13, 14, refused, and the walk is at its end. */
typedef struct {
    uint8_t code;
    uint8_t kind; /* KOY_IDENTIFIER_BLOCK, KOY_DEVICE_BLOCK: body; KOY_CHANNEL_BLOCK: the rest */
    koy_part body;
    uint8_t module;
    uint8_t channel;
    bool input;
    bool output;
    uint8_t type;  /* KOY_TYPE_... */
    uint8_t error; /* KOY_ERROR_... */
} koy_block;

static inline koy_block koy_walk_next(koy_walk *walk)
{
    size_t told[9] = {0, 0, 0, 0, 0, 0, 0, 0, 0};
    koy_block block;
    block.code = koy_diagnostics_step(koy_lent(walk->bytes), walk->length, walk->length, &walk->cursor, told);
    block.kind = (uint8_t)told[0];
    block.body = koy_part_of(walk->bytes, told[1], told[2]);
    block.module = (uint8_t)told[3];
    block.channel = (uint8_t)told[4];
    block.input = told[5] != 0;
    block.output = told[6] != 0;
    block.type = (uint8_t)told[7];
    block.error = (uint8_t)told[8];
    return block;
}

/* Whether an identifier block names a module. */
static inline bool koy_block_has_module(koy_block block, size_t module)
{
    return koy_diagnostics_module(koy_lent(block.body.bytes), block.body.length, module);
}

/* A store of `room` bytes, of which the first `length` are walked: koy_walk_over(store.bytes, store.length). */
typedef struct {
    uint8_t *bytes;
    size_t room;
    size_t length;
} koy_store;

/* The bytes go to the front of the store: true. No store, or too short a one: false, and all stays. */
static inline bool koy_store_fill(koy_store *store, const uint8_t *bytes, size_t bytes_len)
{
    return koy_diagnostics_fill(koy_lent_room(store->bytes), store->room, &store->length, koy_lent(bytes), bytes_len);
}

/* ---- settings of a link ---- */

/* Each end has its own: the cabinet's `own` is the head end's `peer`. The cabinet does not look at `tries`. */
typedef struct {
    uint8_t own;
    uint8_t peer;
    uint8_t tries;
} koy_settings;

/* No number of tries stated: KOY_DEFAULT_TRIES. */
static inline koy_settings koy_settings_own_peer(uint8_t own, uint8_t peer)
{
    koy_settings settings = {own, peer, KOY_DEFAULT_TRIES};
    return settings;
}

/* code: KOY_DONE; 20, 18, 19 in this order. */
typedef struct {
    uint8_t code;
    koy_settings settings;
} koy_settings_told;

/* The length is the text's without a closing 0. */
static inline koy_settings_told koy_settings_from_text(const char *text, size_t text_len)
{
    size_t told[3] = {0, 0, 0};
    koy_settings_told read;
    read.code = koy_settings_read(koy_lent((const uint8_t *)text), text_len, told);
    read.settings.own = (uint8_t)told[0];
    read.settings.peer = (uint8_t)told[1];
    read.settings.tries = (uint8_t)told[2];
    return read;
}

/* No 0 is written behind the text. KOY_LONGEST_SETTINGS bytes are always enough. 18, 19, 10 in this order. */
static inline koy_written koy_settings_to_text(koy_settings settings, char *buf, size_t buf_len)
{
    size_t told[1] = {0};
    uint8_t code =
        koy_settings_write(settings.own, settings.peer, settings.tries, koy_lent_room((uint8_t *)buf), buf_len, told);
    return koy_written_whole(code, told[0]);
}

/* ---- the order link, guarded: what is heard and what is answered ---- */

/* Heard bytes, with the stamp of the moment at which the last of them came in (not at which they were read from a queue). */
typedef struct {
    size_t received;
    const uint8_t *bytes;
    size_t length;
} koy_heard;

static inline koy_heard koy_heard_at(size_t received, const uint8_t *bytes, size_t length)
{
    koy_heard heard = {received, bytes, length};
    return heard;
}

/* The application's reply, with the number of the order that it answers. */
typedef struct {
    size_t number;
    const uint8_t *bytes;
    size_t length;
} koy_answer;

static inline koy_answer koy_answer_to(size_t number, const uint8_t *bytes, size_t length)
{
    koy_answer answer = {number, bytes, length};
    return answer;
}

/* `now` below is the stamp of the call, of the clock or count that stamps what is heard (koyandefa.h, "the order link, guarded", says
 * what it has to be). buf wants KOY_ROOM bytes: 10 otherwise. */

/* ---- the head end ---- */

/* the record and its guard, one for each link: never copied back or loaded */
typedef koy_guarded_initiator koy_head_end;

typedef struct {
    uint8_t code;
    size_t to_send; /* KOY_SENT: send so many bytes of buf */
    koy_part reply; /* KOY_CONFIRMED: a part of the heard bytes */
    uint8_t tries;  /* KOY_CONFIRMED, KOY_NOT_SENT, KOY_UNKNOWN: the telegrams written in the order's last phase */
} koy_head_end_told;

/* Names what a call of the head end told, also koy_initiator_... with its told[3]; of a refused call told is not looked at. */
static inline koy_head_end_told koy_head_end_named(uint8_t code, const size_t told[3], const uint8_t *heard)
{
    koy_head_end_told named = {code, 0, {heard, 0, 0}, 0};
    if (code == KOY_SENT)
        named.to_send = told[0];
    if (code == KOY_CONFIRMED)
        named.reply = koy_part_of(heard, told[0], told[1]);
    if (code == KOY_CONFIRMED || code == KOY_NOT_SENT || code == KOY_UNKNOWN)
        named.tries = (uint8_t)told[2];
    return named;
}

/* A link that is closed: the first call, and the one after a loss of power. 18, 19. */
static inline uint8_t koy_head_end_new(koy_head_end *end, size_t now, koy_settings settings)
{
    return koy_guarded_initiator_new(end->state, end->last, settings.own, settings.peer, settings.tries, now);
}

/* Submits an order of 1 to KOY_LONGEST_ORDER bytes, which is kept in the record. KOY_SENT; 10, 17, 16 in this order. */
static inline koy_head_end_told koy_head_end_submit(koy_head_end *end, size_t now, const uint8_t *order,
                                                    size_t order_len, uint8_t *buf, size_t buf_len)
{
    size_t told[3] = {0, 0, 0};
    uint8_t code = koy_guarded_initiator_submit(end->state, end->last, now, koy_lent(order), order_len, koy_lent_room(buf),
                                                buf_len, told);
    return koy_head_end_named(code, told, NULL);
}

/* Nothing was heard in time. KOY_SENT, KOY_NOT_SENT, KOY_UNKNOWN, or KOY_NOTHING, none is pending; 10. */
static inline koy_head_end_told koy_head_end_silence(koy_head_end *end, size_t now, uint8_t *buf, size_t buf_len)
{
    size_t told[3] = {0, 0, 0};
    uint8_t code = koy_guarded_initiator_silence(end->state, end->last, now, koy_lent_room(buf), buf_len, told);
    return koy_head_end_named(code, told, NULL);
}

/* KOY_SENT, KOY_CONFIRMED, or KOY_NOTHING, keep waiting; 10. */
static inline koy_head_end_told koy_head_end_hear(koy_head_end *end, size_t now, koy_heard heard, uint8_t *buf,
                                                  size_t buf_len)
{
    size_t told[3] = {0, 0, 0};
    uint8_t code = koy_guarded_initiator_hear(end->state, end->last, heard.received, now, koy_lent(heard.bytes), heard.length,
                                              koy_lent_room(buf), buf_len, told);
    return koy_head_end_named(code, told, heard.bytes);
}

/* After a restart with the record at hand. KOY_NOT_SENT, KOY_UNKNOWN, or KOY_NOTHING, none was pending. */
static inline koy_head_end_told koy_head_end_restart(koy_head_end *end)
{
    size_t told[3] = {0, 0, 0};
    uint8_t code = koy_initiator_restart(end->state, told);
    return koy_head_end_named(code, told, NULL);
}

/* KOY_HEAD_END_...: an order is pending in the last three. */
static inline uint8_t koy_head_end_phase(const koy_head_end *end)
{
    uint8_t phase = end->state[KOY_HEAD_END_PHASE_AT];
    return phase <= KOY_HEAD_END_ORDER_HIGH ? phase : KOY_HEAD_END_CLOSED;
}

/* ---- the cabinet ---- */

/* likewise */
typedef koy_guarded_responder koy_cabinet;

typedef struct {
    uint8_t code;
    size_t to_send; /* KOY_SENT: send so many bytes of buf, if still within the slot */
    koy_part order; /* KOY_HANDED_UP: carry it out once; a part of the heard bytes */
    size_t number;  /* KOY_HANDED_UP: the order's, for koy_answer_to */
} koy_cabinet_told;

/* Names what a call of the cabinet told, also koy_responder_..., with a told[3] of zeros; of a refused call told is not looked at. */
static inline koy_cabinet_told koy_cabinet_named(uint8_t code, const size_t told[3], const uint8_t *heard)
{
    koy_cabinet_told named = {code, 0, {heard, 0, 0}, 0};
    if (code == KOY_SENT)
        named.to_send = told[0];
    if (code == KOY_HANDED_UP) {
        named.order = koy_part_of(heard, told[0], told[1]);
        named.number = told[2];
    }
    return named;
}

/* A cabinet that remembers nothing: the first call, and the one after a loss of power. 18. */
static inline uint8_t koy_cabinet_new(koy_cabinet *end, size_t now, koy_settings settings)
{
    return koy_guarded_responder_new(end->state, end->guard, settings.own, settings.peer, now);
}

/* KOY_SENT, KOY_HANDED_UP, or KOY_NOTHING, send nothing; 10. */
static inline koy_cabinet_told koy_cabinet_hear(koy_cabinet *end, size_t now, koy_heard heard, uint8_t *buf,
                                                size_t buf_len)
{
    size_t told[3] = {0, 0, 0};
    uint8_t code = koy_guarded_responder_hear(end->state, end->guard, heard.received, now, koy_lent(heard.bytes), heard.length,
                                              koy_lent_room(buf), buf_len, told);
    return koy_cabinet_named(code, told, heard.bytes);
}

/* A reply of up to KOY_LONGEST_REPLY bytes. KOY_SENT; 21, the order was cancelled or answered: drop the reply; 10; 9. */
static inline koy_cabinet_told koy_cabinet_answer(koy_cabinet *end, size_t now, koy_answer answer, uint8_t *buf,
                                                  size_t buf_len)
{
    size_t told[3] = {0, 0, 0};
    uint8_t code = koy_guarded_responder_answer(end->state, end->guard, answer.number, now, koy_lent(answer.bytes),
                                                answer.length, koy_lent_room(buf), buf_len, told);
    return koy_cabinet_named(code, told, NULL);
}

/* After a restart with the record at hand: forgets all but the addresses. */
static inline void koy_cabinet_restart(koy_cabinet *end)
{
    koy_responder_restart(end->state);
}

/* KOY_CABINET_... */
static inline uint8_t koy_cabinet_phase(const koy_cabinet *end)
{
    uint8_t phase = end->state[KOY_CABINET_PHASE_AT];
    return phase <= KOY_CABINET_HOLDS_HIGH ? phase : KOY_CABINET_BLANK;
}

#ifdef __cplusplus
}
#endif

#endif
