/* Koyandefa: telegrams, the station list, diagnostics and the order link of PROFIBUS, as proved functions.
 *
 * This file has the numbers and the 35 calls as the archives export them. koyandefa_named.h, which it includes at its end, has what
 * a driver calls: the same calls with named answers (koy_telegram_read gives kind, length, sa, da ... where koy_read fills an array
 * of nine), with names for addresses, SAPs and stamps, which the plain calls take as bare numbers and da and sa in both orders, and
 * with the text of every code. Read this head and the numbers, then that file; of the calls here, the notes on the order link.
 * docs/DRIVERS.md says what a driver owes; bindings/c/lossy_line.c and noisy_stream.c are drivers.
 *
 * Linking: `pkg-config --cflags --libs koyandefa` where it was installed (bindings/c/install PREFIX). In the tree libexports.a, and
 * for the order link libexports_link.a (bindings/archives makes both); neither needs the other.
 *
 * Machine: x86-64 alone, as the archives are; C99, C11, or C++ from C++17 on. The calls allocate nothing, keep no state of their
 * own, call nothing but memcpy and memset, and return from every call. Each is proved to answer every number, every length and
 * every content of the bytes that it is lent as document 01 says, the guarded ones and strict reading as is said below.
 *
 * Stack that a call took at most, in bytes, as measured: the station list 400, the guarded link 193, the plain link 193, settings
 * 104, reading 89, writing 56, diagnostics 40 (docs/SPEED.md, its first part). A named form takes up to 112 more, by gcc 12.2 with -O2.
 *
 * Threads: any call from any number of threads at once, but a state that a call writes is lent to one call at a time: one lock for
 * each record, or one thread.
 *
 * What the caller owes, as with memcpy: a pointer and a length name bytes that are there; WHERE THE LENGTH IS 0 THE POINTER MAY BE
 * NULL; an array has as many elements as its type says; what a call is lent to write to overlaps nothing else that it is lent.
 *
 * Codes. A call that may refuse returns 0 for done or the number of the refusal: 1 to 22 are document 01's, 24 and 25 those of strict
 * reading; and some calls one of the codes from 100 on. A REFUSED CALL LEAVES ALL THAT IT WAS LENT AS IT CAME; only a refused walk
 * moves its cursor.
 *
 * State is lent as bytes of a stated size and belongs to the caller. The layout is given below and every content is answered. The
 * station list may be copied, stored and sent. A LINK'S RECORD IS NEVER COPIED BACK OR LOADED: see "the order link".
 *
 * Buffers. To write, KOY_ROOM bytes (255) are always enough. To receive, take KOY_LONGEST_TELEGRAM: noise as 68 FF FF 68 ...
 * announces 261 bytes, and koy_read answers KOY_INCOMPLETE until they are there; a buffer of 255 would wait for them for ever.
 */
#ifndef KOYANDEFA_H
#define KOYANDEFA_H

#include <stdbool.h>
#include <stddef.h>
#include <stdint.h>

#ifndef __x86_64__
#error "koyandefa: the archives are for x86-64"
#endif
#if SIZE_MAX != UINT64_MAX
#error "koyandefa: size_t must have 64 bits"
#endif

/* the version of this header and of the archives that it goes with */
#define KOY_VERSION_MAJOR 0
#define KOY_VERSION_MINOR 4
#define KOY_VERSION_PATCH 0
#define KOY_VERSION "0.4.0"

#ifdef __cplusplus
extern "C" {
#endif

/* ---- codes ---- */

#define KOY_DONE 0
/* the same number, from an end of the link: nothing to do */
#define KOY_NOTHING 0
/* refusals of document 01 (koy_code_text has its words); no call here gives 15 or 22 */
#define KOY_UNKNOWN_START 1
#define KOY_LENGTHS_DIFFER 2
#define KOY_LENGTH_TOO_SMALL 3
#define KOY_FUNCTION_CODE 4
#define KOY_SAP_MISSING 5
#define KOY_CHECKSUM 6
#define KOY_END_DELIMITER 7
#define KOY_ADDRESS_TOO_LARGE 8
#define KOY_TOO_LONG 9
#define KOY_NO_ROOM 10
#define KOY_NOT_A_STATION 11
#define KOY_BLOCK_CUT_OFF 12
#define KOY_BLOCK_RESERVED 13
#define KOY_BLOCK_LENGTH_ZERO 14
#define KOY_CYCLE_INACTIVE 15
#define KOY_ORDER_LENGTH 16
#define KOY_ORDER_PENDING 17
#define KOY_LINK_ADDRESSES 18
#define KOY_TRIES 19
#define KOY_SETTINGS_FORM 20
#define KOY_NO_REPLY_OWED 21
#define KOY_INPUT_TOO_LONG 22
/* refusals of later requests (there is no 23), given in strict reading alone */
#define KOY_LENGTH_NOT_STANDARD 24
#define KOY_FOURTH_BYTE 25
/* answers that are no refusals */
#define KOY_INCOMPLETE 100 /* reading: too few bytes to tell */
#define KOY_AT_END 101     /* the walk: no more blocks */
#define KOY_SENT 102       /* a telegram stands at the front of the buffer */
#define KOY_CONFIRMED 103  /* the pending order was carried out exactly once */
#define KOY_NOT_SENT 104   /* the pending order was never carried out */
#define KOY_UNKNOWN 105    /* the pending order is carried out at most once, perhaps later than this report */
#define KOY_HANDED_UP 106  /* carry this order out, then answer */

/* ---- numbers ---- */

/* stands where a byte is absent: an address, a SAP, a function code. No byte equals it. */
#define KOY_ABSENT 256

/* the room of a receive buffer; so many bytes are never KOY_INCOMPLETE */
#define KOY_LONGEST_TELEGRAM 261
/* the room of a write buffer: enough for every telegram, and what each call of the link that may write wants */
#define KOY_ROOM 255
/* PDU and SAPs of a data telegram together; an order, which has 1 byte at least; a reply, which may be empty */
#define KOY_LONGEST_PDU 246
#define KOY_LONGEST_ORDER 246
#define KOY_LONGEST_REPLY 246
#define KOY_TOKEN_LENGTH 3
#define KOY_SHORT_CONFIRMATION_LENGTH 1
/* the longest settings text */
#define KOY_LONGEST_SETTINGS 25

/* the highest address of a station, and of a data telegram; 127 is for all stations */
#define KOY_LAST_STATION 125
#define KOY_ALL_STATIONS 127

/* telegrams in each phase of an order, before it is given up */
#define KOY_LEAST_TRIES 1
#define KOY_MOST_TRIES 8
#define KOY_DEFAULT_TRIES 4

/* kinds of telegrams */
#define KOY_SHORT_CONFIRMATION 1
#define KOY_TOKEN 2
#define KOY_DATA 3

/* function codes: a request is one of these and a frame count part ... */
#define KOY_FC_TIME_EVENT 0x40
#define KOY_FC_SDA_LOW 0x43
#define KOY_FC_SDN_LOW 0x44
#define KOY_FC_SDA_HIGH 0x45
#define KOY_FC_SDN_HIGH 0x46
#define KOY_FC_MULTICAST_SRD 0x47
#define KOY_FC_FDL_STATUS 0x49
#define KOY_FC_SRD_LOW 0x4C
#define KOY_FC_SRD_HIGH 0x4D
#define KOY_FC_IDENT 0x4E
#define KOY_FC_LSAP_STATUS 0x4F
#define KOY_FC_CLOCK_VALUE 0xC0
/* (FCV, FCB) */
#define KOY_FC_INACTIVE 0x00
#define KOY_FC_LOW 0x10
#define KOY_FC_FIRST 0x20
#define KOY_FC_HIGH 0x30
/* ... and a response, which has this bit clear, a state and a status */
#define KOY_FC_REQUEST 0x40
#define KOY_FC_SLAVE 0x00
#define KOY_FC_MASTER_NOT_READY 0x10
#define KOY_FC_MASTER_WITHOUT_TOKEN 0x20
#define KOY_FC_MASTER_IN_RING 0x30
#define KOY_FC_OK 0x00
#define KOY_FC_USER_ERROR 0x01
#define KOY_FC_NO_RESOURCES 0x02
#define KOY_FC_SAP_NOT_ENABLED 0x03
#define KOY_FC_DATA_LOW 0x08
#define KOY_FC_NO_DATA_READY 0x09
#define KOY_FC_DATA_HIGH 0x0A
#define KOY_FC_NOT_RECEIVED_DATA_LOW 0x0C
#define KOY_FC_NOT_RECEIVED_DATA_HIGH 0x0D

/* phases of a station list */
#define KOY_UNINITIALIZED 0
#define KOY_DISCOVERY 1
#define KOY_VERIFICATION 2
#define KOY_VALID 3

/* kinds of diagnostics blocks; of a channel's block the types, and the errors (16 to 31 are the vendor's, others reserved) */
#define KOY_IDENTIFIER_BLOCK 1
#define KOY_DEVICE_BLOCK 2
#define KOY_CHANNEL_BLOCK 3
#define KOY_TYPE_BIT 1
#define KOY_TYPE_BIT2 2
#define KOY_TYPE_BIT4 3
#define KOY_TYPE_BYTE 4
#define KOY_TYPE_WORD 5
#define KOY_TYPE_DWORD 6
#define KOY_TYPE_INVALID 7
#define KOY_ERROR_SHORT_CIRCUIT 1
#define KOY_ERROR_UNDER_VOLTAGE 2
#define KOY_ERROR_OVER_VOLTAGE 3
#define KOY_ERROR_OVER_LOAD 4
#define KOY_ERROR_OVER_TEMPERATURE 5
#define KOY_ERROR_LINE_BREAK 6
#define KOY_ERROR_UPPER_LIMIT_OVERSHOOT 7
#define KOY_ERROR_LOWER_LIMIT_UNDERSHOOT 8
#define KOY_ERROR_ERROR 9
#define KOY_ERROR_FIRST_OF_VENDOR 16
#define KOY_ERROR_LAST_OF_VENDOR 31

/* phases of the head end and of the cabinet, in their records */
#define KOY_HEAD_END_CLOSED 0
#define KOY_HEAD_END_READY_LOW 1
#define KOY_HEAD_END_READY_HIGH 2
#define KOY_HEAD_END_OPENING 3
#define KOY_HEAD_END_ORDER_LOW 4
#define KOY_HEAD_END_ORDER_HIGH 5
#define KOY_CABINET_BLANK 0
#define KOY_CABINET_OPENED 1
#define KOY_CABINET_OWES_LOW 2
#define KOY_CABINET_OWES_HIGH 3
#define KOY_CABINET_HOLDS_LOW 4
#define KOY_CABINET_HOLDS_HIGH 5

/* the places of these phases */
#define KOY_HEAD_END_PHASE_AT 3
#define KOY_CABINET_PHASE_AT 2

/* ---- telegrams ---- */

/* Reads the telegram that the bytes begin with. 0: told is
 *   [0] kind: 1 short confirmation, 2 token, 3 data   [1] the telegram's length in bytes
 *   [2] da  [3] sa  [4] DSAP  [5] SSAP  [6] function code, each KOY_ABSENT where the telegram has none
 *   [7] where the PDU starts in the bytes  [8] the PDU's length
 * The function code is the one that would be written: a response's bit 7 is clear.
 * 1 to 7: refused; KOY_INCOMPLETE: more bytes are needed. told stays. */
uint8_t koy_read(const uint8_t *bytes, size_t bytes_len, size_t told[9]);

/* The same in strict mode, to hunt couplers that send sloppy SD2 telegrams. Drivers keep koy_read, as the order link does: what a
 * sloppy coupler sends is still a telegram. Of an SD2 telegram, behind 2 and 3 and before its total length is looked at, in this order:
 *   24: the length byte is 3 or above 249
 *   25: the fourth byte is not 68
 * All else is answered as by koy_read: what is read here, koy_read reads alike, and fewer than 6 bytes of an SD2 telegram are
 * KOY_INCOMPLETE. Where a call is refused or incomplete, told stays. */
uint8_t koy_read_strict(const uint8_t *bytes, size_t bytes_len, size_t told[9]);

/* Writes a data telegram to the front of buf. A dsap or ssap of 256 and above is absent. 0: told is
 *   [0] the bytes written   [1] the station that is to reply, or KOY_ABSENT
 * 4: fc is no function code; 8, 9, 10 in this order. (FDL status request: fc KOY_FC_FDL_STATUS, no PDU.) */
uint8_t koy_write_data(uint8_t da, uint8_t sa, size_t dsap, size_t ssap, uint8_t fc, const uint8_t *pdu, size_t pdu_len,
                       uint8_t *buf, size_t buf_len, size_t told[2]);

/* Writes a token, 3 bytes. DA COMES FIRST. 10. */
uint8_t koy_write_token(uint8_t da, uint8_t sa, uint8_t *buf, size_t buf_len);

/* Writes a short confirmation, 1 byte. 10. */
uint8_t koy_write_confirmation(uint8_t *buf, size_t buf_len);

/* ---- the station list ---- */

/* These bytes may be copied, stored and sent.
 * [0] phase: 0 Uninitialized, 1 Discovery, 2 Verification, 3 Valid; any other counts as 0
 * [1] own  [2] next  [3] previous station  [4..131] a flag for each address; any byte but 0 counts as set */
#define KOY_STATIONS_SIZE 132

/* A call that may change the list writes all 132 bytes anew unless it refuses: then a phase above 3 becomes 0 and a flag above 1
 * becomes 1. Bytes that these calls made are the same again; others may change where the list does not. */

/* A fresh list. 11. */
uint8_t koy_stations_new(uint8_t state[132], uint8_t own);
/* A token pass sa to da was seen. With an address above 125 the list stays as it is (its bytes are written anew, as above). SA COMES
 * FIRST HERE, and da in koy_write_token: koy_stations_witness_pass and koy_token_write take a struct. */
void koy_stations_witness(uint8_t state[132], uint8_t sa, uint8_t da);
/* The token was claimed: the phase is Valid. */
void koy_stations_claim(uint8_t state[132]);
/* Sets the next station. 11. */
uint8_t koy_stations_set_next(uint8_t state[132], uint8_t address);
/* Removes a station. 11. */
uint8_t koy_stations_remove(uint8_t state[132], uint8_t address);
/* told: [0] phase  [1] own  [2] next  [3] previous */
void koy_stations_about(const uint8_t state[132], size_t told[4]);
bool koy_stations_is_active(const uint8_t state[132], uint8_t address);
/* The first active station from an address upward, or KOY_ABSENT. */
size_t koy_stations_first_from(const uint8_t state[132], uint8_t address);
/* The last active station up to an address, or KOY_ABSENT. */
size_t koy_stations_last_to(const uint8_t state[132], uint8_t address);

/* ---- extended diagnostics ---- */

/* One step of the walk over the first `walked` bytes of the store, from cursor[0] on (0 to begin). 0: cursor[0] stands behind the
 * block, and told is
 *   [0] kind: 1 identifier, 2 device, 3 channel
 *   [1] start and [2] length of the body in the store (identifier, device; else 0)
 *   [3] module  [4] channel  [5] input  [6] output  [7] type, 1 to 7  [8] error, 0 to 31 (channel; else 0)
 * KOY_AT_END: nothing moves. 12, 13, 14: told stays and cursor[0] moves to the end. */
uint8_t koy_diagnostics_step(const uint8_t *store, size_t store_len, size_t walked, size_t cursor[1], size_t told[9]);
/* The bytes go to the front of the store and walked[0] becomes their number: true. No store, or too short a one: false, all stays. */
bool koy_diagnostics_fill(uint8_t *store, size_t store_len, size_t walked[1], const uint8_t *bytes, size_t bytes_len);
/* Whether a module's bit is set in the body of an identifier block. */
bool koy_diagnostics_module(const uint8_t *body, size_t body_len, size_t module);

/* ---- settings of a link ---- */

/* Reads a settings text. 0: told is [0] own [1] peer [2] tries. 20, 18, 19 in this order. */
uint8_t koy_settings_read(const uint8_t *text, size_t text_len, size_t told[3]);
/* Writes one to the front of buf; told[0] is its length. 18, 19, 10 in this order. */
uint8_t koy_settings_write(uint8_t own, uint8_t peer, uint8_t tries, uint8_t *buf, size_t buf_len, size_t told[1]);

/* ---- the order link: what its records ask of a driver ---- */

/* That no order is carried out twice, and no old reply shown for a new order, holds while every call is lent the record as the
 * call before it left it. So keep one record for each end of a link, with its guard, and
 *   after a loss of power, or where the record is gone: koy_..._new; an order pending then was carried out at most once
 *   after a restart with the record at hand, as the last call left it: koy_..._restart; the initiator's tells what became of a
 *     pending order
 *   never: an older copy put back or loaded from a store, or two threads on one record without a lock.
 * What goes wrong otherwise, at the head end and at the cabinet:
 *   order 1 confirmed; STORED; close-18 confirmed; power lost; LOADED; open-19 submitted: confirmed by close-18's reply, never carried out
 *   order 1 confirmed; STORED; close-18 carried out, its reply and power lost; LOADED; close-18 repeated: carried out a second time */

/* What else a driver owes, in short; docs/DRIVERS.md has each rule with the run that goes wrong without it.
 *   Silence is reported when the line has been idle for the slot time after the last byte sent or received, and not before.
 *   Of several telegrams that wait only the last is heard, and none that is older than this end's own last telegram.
 *   An answer that comes after its slot is given all the same, and what it wrote is not sent: the head end's repeat fetches it.
 *   An opening cancels an owed answer without notice; an answer names the order that it is for.
 *   0 after hearing: nothing to do, keep waiting. KOY_UNKNOWN: find out what the feeder does before the order is given again.
 *   The two ends name each other, and nothing else on the line bears both addresses. */

/* ---- the order link, guarded: for every driver (libexports_link.a) ---- */

/* Document 01's link wants a telegram heard before the next call of either end, or never, and an answer to the order that was
 * handed up last. These calls look at both. Each is the plain call of the same name further down, and beside the record it is lent
 * a guard, which belongs to the record and is kept, made anew and never put back as it is.
 *
 * Stamps are the driver's, at each end its own: of any clock or count that never goes back. `moment` is the stamp of the call,
 * `received` that of the moment at which the last byte heard came in (not at which it was read from a queue). BYTES THAT WERE NOT
 * RECEIVED AFTER THE END'S OWN LAST TELEGRAM WAS WRITTEN ARE IGNORED: code 0, each number told is 0, all else stays. The same
 * stamp is not after: the clock must tick between writing and receiving, or be a count that is stepped at each event. A smaller
 * `moment` than one before changes nothing of what is ignored.
 *
 * Numbers. An order that is handed up has a number, which the answer names: AN ANSWER TO ANOTHER ORDER IS REFUSED, 21. Numbers count
 * on from the stamp with which the record was made (behind the greatest size_t they go on at 0). So give a record made anew the stamp of a
 * clock that went on meanwhile, or let the application begin anew with it: else a number of before may come again.
 *
 * Restart is koy_initiator_restart or koy_responder_restart on the state; the guard stays as it is. */

/* a record and its guard: [0] the stamp of the last telegram written, or of the making */
typedef struct {
    uint8_t state[252];
    size_t last[1];
} koy_guarded_initiator;

/* [0] likewise  [1] the number of the order handed up last; before the first one, the stamp of the making */
typedef struct {
    uint8_t state[250];
    size_t guard[2];
} koy_guarded_responder;

/* told is as with the plain calls of the head end. */

/* A link that is closed: the first call, and the one after a loss of power. tries 1 to 8 (KOY_DEFAULT_TRIES). 18, 19. */
uint8_t koy_guarded_initiator_new(uint8_t state[252], size_t last[1], uint8_t own, uint8_t peer, uint8_t tries, size_t moment);
/* Submits an order of 1 to 246 bytes. KOY_SENT; 10, 17, 16 in this order. */
uint8_t koy_guarded_initiator_submit(uint8_t state[252], size_t last[1], size_t moment, const uint8_t *order, size_t order_len,
                                     uint8_t *buf, size_t buf_len, size_t told[3]);
/* Nothing was heard in time. KOY_SENT, KOY_NOT_SENT, KOY_UNKNOWN or 0; 10. */
uint8_t koy_guarded_initiator_silence(uint8_t state[252], size_t last[1], size_t moment, uint8_t *buf, size_t buf_len,
                                      size_t told[3]);
/* These bytes were received. KOY_SENT, KOY_CONFIRMED or 0; 10, but stale bytes are ignored whatever the room. */
uint8_t koy_guarded_initiator_hear(uint8_t state[252], size_t last[1], size_t received, size_t moment, const uint8_t *heard,
                                   size_t heard_len, uint8_t *buf, size_t buf_len, size_t told[3]);

/* A responder that remembers nothing: the first call, and the one after a loss of power. 18. */
uint8_t koy_guarded_responder_new(uint8_t state[250], size_t guard[2], uint8_t own, uint8_t peer, size_t moment);
/* These bytes were received. KOY_SENT: told[0] is the telegram's length. KOY_HANDED_UP: the order is heard[told[0]], told[1]
 * bytes; told[2] is its number. 0: nothing to do. 10, but stale bytes are ignored whatever the room. */
uint8_t koy_guarded_responder_hear(uint8_t state[250], size_t guard[2], size_t received, size_t moment, const uint8_t *heard,
                                   size_t heard_len, uint8_t *buf, size_t buf_len, size_t told[3]);
/* The application's reply of up to 246 bytes to the order of this number. KOY_SENT: told[0] is the telegram's length. 21 where
 * the order handed up last has another number, whatever the room; then 10, 21, 9 in this order. After 21 the reply is for
 * nobody: drop it. */
uint8_t koy_guarded_responder_answer(uint8_t state[250], size_t guard[2], size_t number, size_t moment, const uint8_t *reply,
                                     size_t reply_len, uint8_t *buf, size_t buf_len, size_t told[3]);

/* ---- the order link, document 01's plain calls, for drivers that hold its rules themselves: head end (libexports_link.a) ---- */

/* [0] own  [1] peer  [2] tries  [3] phase: 0 closed, 1 ready for Low, 2 ready for High, 3 opening, 4 order under Low, 5 order
 * under High; any other counts as 0  [4] telegrams written in the phase  [5] the order's length, above 246 counts as 246
 * [6..251] the order */
#define KOY_INITIATOR_SIZE 252

/* Calls that may write want 255 bytes of room: 10 otherwise. What they tell:
 *   KOY_SENT: [0] the telegram's length
 *   KOY_CONFIRMED: the reply is heard[told[0]], told[1] bytes; [2] tries
 *   KOY_NOT_SENT, KOY_UNKNOWN: [2] tries
 *   0: nothing to do. What is not named is 0.
 * tries are the telegrams written in the order's last phase. */

/* A link that is closed: the first call, and the one after a loss of power. tries 1 to 8 (KOY_DEFAULT_TRIES). 18, 19. */
uint8_t koy_initiator_new(uint8_t state[252], uint8_t own, uint8_t peer, uint8_t tries);
/* Submits an order of 1 to 246 bytes. KOY_SENT; 10, 17, 16 in this order. */
uint8_t koy_initiator_submit(uint8_t state[252], const uint8_t *order, size_t order_len, uint8_t *buf, size_t buf_len,
                             size_t told[3]);
/* Nothing was heard in time. KOY_SENT, KOY_NOT_SENT, KOY_UNKNOWN or 0; 10. */
uint8_t koy_initiator_silence(uint8_t state[252], uint8_t *buf, size_t buf_len, size_t told[3]);
/* These bytes were heard. KOY_SENT, KOY_CONFIRMED or 0; 10. */
uint8_t koy_initiator_hear(uint8_t state[252], const uint8_t *heard, size_t heard_len, uint8_t *buf, size_t buf_len,
                           size_t told[3]);
/* Closes the link and gives a pending order up. KOY_NOT_SENT, KOY_UNKNOWN or 0. */
uint8_t koy_initiator_restart(uint8_t state[252], size_t told[3]);

/* ---- likewise: cabinet (libexports_link.a) ---- */

/* [0] own  [1] peer  [2] 0 blank, 1 opened, 2 owes the reply to an order under Low, 3 under High, 4 holds the reply to an order
 * under Low, 5 under High; any other counts as 0  [3] the held reply's length, above 246 counts as 246
 * [4..249] the held reply */
#define KOY_RESPONDER_SIZE 250

/* A responder that remembers nothing: the first call, and the one after a loss of power. 18. */
uint8_t koy_responder_new(uint8_t state[250], uint8_t own, uint8_t peer);
/* These bytes were heard. KOY_SENT: told[0] is the telegram's length. KOY_HANDED_UP: the order is heard[told[0]], told[1]
 * bytes. 0: nothing to do. 10. */
uint8_t koy_responder_hear(uint8_t state[250], const uint8_t *heard, size_t heard_len, uint8_t *buf, size_t buf_len,
                           size_t told[2]);
/* The application's reply of up to 246 bytes to the order handed up. KOY_SENT; 10, 21, 9 in this order. */
uint8_t koy_responder_answer(uint8_t state[250], const uint8_t *reply, size_t reply_len, uint8_t *buf, size_t buf_len,
                             size_t told[2]);
/* Forgets all. */
void koy_responder_restart(uint8_t state[250]);

#ifdef __cplusplus
}
#endif

#include "koyandefa_named.h"

#endif
