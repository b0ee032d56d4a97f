/* Tests of koyandefa_named.h: each form tells what its plain call tells, under the right names; NULL with length 0; every number that has
 * a macro is the library's own. C99 and C++17. `run` builds it several ways, and sees that it fails on headers with a planted fault. */
#include <stdio.h>
#include <string.h>

#include "koyandefa.h"

static unsigned long checks, failures;

static void check(int holds, int line, const char *what)
{
    checks++;
    if (!holds) {
        failures++;
        printf("line %d: %s\n", line, what);
    }
}
#define CHECK(holds) check(holds, __LINE__, #holds)

/* what a call writes to */
static uint8_t buf[KOY_ROOM];

static uint32_t seed = 1;
static uint8_t random_byte(void)
{
    seed = seed * 1664525u + 1013904223u;
    return (uint8_t)(seed >> 24);
}

/* ---- telegrams ---- */

static int names(koy_telegram t, uint8_t code, const size_t told[9], const uint8_t *bytes)
{
    return t.code == code && t.kind == told[0] && t.length == told[1] && t.da == told[2] && t.sa == told[3] &&
           t.dsap == told[4] && t.ssap == told[5] && t.fc == told[6] && t.pdu.start == told[7] && t.pdu.length == told[8] &&
           t.pdu.bytes == bytes + told[7];
}

static int same_as_plain(const uint8_t *bytes, size_t length)
{
    size_t told[9] = {0, 0, KOY_ABSENT, KOY_ABSENT, KOY_ABSENT, KOY_ABSENT, KOY_ABSENT, 0, 0};
    uint8_t code = koy_read(bytes, length, told);
    return names(koy_telegram_read(bytes, length), code, told, bytes);
}

/* gives an SD2 telegram the checksum and the end that its length byte wants; its length */
static size_t closed(uint8_t *bytes)
{
    size_t end = (size_t)bytes[1] + 4;
    bytes[end] = 0;
    for (size_t i = 4; i < end; i++)
        bytes[end] = (uint8_t)(bytes[end] + bytes[i]);
    bytes[end + 1] = 0x16;
    return end + 2;
}

/* random bytes, mostly with a delimiter and lengths that fit, and now and then a right checksum and end */
static void reading_random_bytes(void)
{
    const uint8_t starts[6] = {0x10, 0x68, 0x68, 0xA2, 0xDC, 0xE5};
    uint8_t bytes[40];
    unsigned read = 0;
    for (int round = 0; round < 100000; round++) {
        size_t length = random_byte() % sizeof bytes;
        for (size_t i = 0; i < sizeof bytes; i++)
            bytes[i] = random_byte();
        bytes[0] = starts[random_byte() % 6];
        bytes[1] = bytes[2] = (uint8_t)(3 + random_byte() % 12);
        if (random_byte() < 128 && bytes[0] == 0x68)
            length = closed(bytes);
        CHECK(same_as_plain(bytes, length));
        read += koy_telegram_read(bytes, length).kind == KOY_DATA;
    }
    CHECK(read > 1000);
}

static void reading(void)
{
    const uint8_t saps[] = {0x68, 0x05, 0x05, 0x68, 0x85, 0x82, 0x6C, 0x3C, 0x3E, 0xED, 0x16};
    const uint8_t order[] = {0x68, 0x05, 0x05, 0x68, 0x05, 0x02, 0x5C, 0x01, 0x03, 0x67, 0x16};
    const uint8_t token[] = {0xDC, 0x05, 0x02}, confirmation[] = {0xE5};
    koy_telegram t = koy_telegram_read(saps, sizeof saps);
    CHECK(t.code == KOY_DONE && t.kind == KOY_DATA && t.length == 11 && t.da == 5 && t.sa == 2);
    CHECK(t.dsap == 60 && t.ssap == 62 && t.fc == (KOY_FC_SRD_LOW | KOY_FC_FIRST) && t.pdu.length == 0);
    t = koy_telegram_read(order, sizeof order);
    CHECK(t.fc == (KOY_FC_SRD_LOW | KOY_FC_LOW) && t.pdu.bytes == order + 7 && t.pdu.start == 7 && t.pdu.length == 2);
    CHECK(t.dsap == KOY_ABSENT && t.ssap == KOY_ABSENT);
    t = koy_telegram_read(token, sizeof token);
    CHECK(t.kind == KOY_TOKEN && t.length == KOY_TOKEN_LENGTH && t.da == 5 && t.sa == 2 && t.fc == KOY_ABSENT);
    CHECK(koy_telegram_pass(t).sa == 2 && koy_telegram_pass(t).da == 5);
    t = koy_telegram_read(confirmation, sizeof confirmation);
    CHECK(t.kind == KOY_SHORT_CONFIRMATION && t.length == KOY_SHORT_CONFIRMATION_LENGTH && t.da == KOY_ABSENT);
    t = koy_telegram_read(order, sizeof order - 1);
    CHECK(t.code == KOY_INCOMPLETE && t.kind == 0 && t.length == 0 && t.da == KOY_ABSENT && t.pdu.length == 0);
    t = koy_telegram_read(order + 1, sizeof order - 1);
    CHECK(t.code == KOY_UNKNOWN_START && t.kind == 0 && t.sa == KOY_ABSENT);
}

/* the room of a receive buffer is the least that is never incomplete */
static void longest_announced(void)
{
    uint8_t noise[KOY_LONGEST_TELEGRAM];
    memset(noise, 0xFF, sizeof noise);
    noise[0] = noise[3] = 0x68;
    noise[6] = KOY_FC_SRD_LOW;
    CHECK(koy_telegram_read(noise, KOY_LONGEST_TELEGRAM - 1).code == KOY_INCOMPLETE);
    CHECK(koy_is_refusal(koy_telegram_read(noise, KOY_LONGEST_TELEGRAM).code));
}

/* ---- strict reading ---- */

/* What strict mode refuses before the default reader comes to its word, or KOY_DONE: an oracle that calls nothing of the library. */
static uint8_t strict_gate(const uint8_t *bytes, size_t length)
{
    if (length < 6 || bytes[0] != 0x68 || bytes[1] != bytes[2] || bytes[1] < 3)
        return KOY_DONE;
    if (bytes[1] == 3 || bytes[1] > 249)
        return KOY_LENGTH_NOT_STANDARD;
    return bytes[3] == 0x68 ? KOY_DONE : KOY_FOURTH_BYTE;
}

/* the strict call answers and tells as the gate, and behind it koy_read; told stays as it came where either refuses */
static int gate_then_plain(const uint8_t *bytes, size_t length)
{
    size_t expected[9], told[9];
    for (size_t i = 0; i < 9; i++)
        expected[i] = told[i] = 1000 + i;
    uint8_t code = strict_gate(bytes, length);
    if (code == KOY_DONE)
        code = koy_read(bytes, length, expected);
    return koy_read_strict(bytes, length, told) == code && memcmp(told, expected, sizeof told) == 0;
}

/* whatever the oracle says: but for 24 and 25 the two calls answer alike, and its named form tells what the strict call tells */
static int strict_or_alike(const uint8_t *bytes, size_t length)
{
    size_t plain[9] = {0, 0, KOY_ABSENT, KOY_ABSENT, KOY_ABSENT, KOY_ABSENT, KOY_ABSENT, 0, 0}, told[9];
    memcpy(told, plain, sizeof told);
    uint8_t code = koy_read_strict(bytes, length, told);
    if (!names(koy_telegram_read_strict(bytes, length), code, told, bytes))
        return 0;
    if (code == KOY_LENGTH_NOT_STANDARD || code == KOY_FOURTH_BYTE)
        return 1;
    return koy_read(bytes, length, plain) == code && memcmp(told, plain, sizeof told) == 0;
}

/* Random bytes, mostly of an SD2 telegram with a length byte near a limit; many are whole, with a right checksum and end. */
static size_t random_sd2(uint8_t bytes[KOY_LONGEST_TELEGRAM])
{
    const uint8_t starts[4] = {0x10, 0xA2, 0xDC, 0xE5}, lengths[8] = {2, 3, 4, 5, 11, 249, 250, 255};
    for (size_t i = 0; i < KOY_LONGEST_TELEGRAM; i++)
        bytes[i] = random_byte();
    bytes[0] = random_byte() < 240 ? 0x68 : starts[random_byte() % 4];
    bytes[1] = random_byte() < 200 ? lengths[random_byte() % 8] : random_byte();
    bytes[2] = random_byte() < 240 ? bytes[1] : random_byte();
    bytes[3] = random_byte() < 160 ? 0x68 : random_byte();
    if (random_byte() < 160)
        return closed(bytes);
    return random_byte() < 100 ? random_byte() % 10 : 6 + random_byte();
}

/* Each answer that strict mode has is met often, and so are telegrams that it refuses and koy_read reads. */
static void strict_random_bytes(void)
{
    uint8_t bytes[KOY_LONGEST_TELEGRAM];
    unsigned met[256] = {0}, sloppy[256] = {0};
    for (int round = 0; round < 20000; round++) {
        size_t length = random_sd2(bytes);
        CHECK(gate_then_plain(bytes, length));
        CHECK(strict_or_alike(bytes, length));
        uint8_t code = koy_telegram_read_strict(bytes, length).code;
        met[code]++;
        sloppy[code] += koy_telegram_read(bytes, length).code == KOY_DONE;
    }
    CHECK(met[KOY_DONE] > 500 && met[KOY_INCOMPLETE] > 500 && met[KOY_LENGTHS_DIFFER] > 500 && met[KOY_LENGTH_TOO_SMALL] > 500);
    CHECK(met[KOY_FUNCTION_CODE] > 500 && met[KOY_LENGTH_NOT_STANDARD] > 500 && met[KOY_FOURTH_BYTE] > 500);
    CHECK(sloppy[KOY_LENGTH_NOT_STANDARD] > 500 && sloppy[KOY_FOURTH_BYTE] > 500);
}

/* every length byte with every fourth byte, of fewer bytes than are judged, of just so many, and of as many as any telegram has */
static void strict_starts(void)
{
    const size_t lengths[3] = {5, 6, KOY_LONGEST_TELEGRAM};
    uint8_t bytes[KOY_LONGEST_TELEGRAM] = {0x68};
    for (int start = 0; start < 0x10000; start++) {
        bytes[1] = bytes[2] = (uint8_t)(start >> 8);
        bytes[3] = (uint8_t)start;
        for (size_t i = 0; i < 3; i++)
            CHECK(gate_then_plain(bytes, lengths[i]));
    }
}

/* some bytes, and what the two calls answer */
static void strict_samples(void)
{
    const struct {
        uint8_t bytes[10];
        size_t length;
        uint8_t plain, strict;
    } samples[] = {
        {{0x68, 0x03, 0x03, 0x00, 0x00, 0x00}, 6, KOY_INCOMPLETE, KOY_LENGTH_NOT_STANDARD},
        {{0x68, 0x03, 0x03, 0x00, 0x00}, 5, KOY_INCOMPLETE, KOY_INCOMPLETE},
        {{0x68, 0xFA, 0xFA, 0x68, 0x00, 0x00}, 6, KOY_INCOMPLETE, KOY_LENGTH_NOT_STANDARD},
        {{0x68, 0xF9, 0xF9, 0x68, 0x00, 0x00}, 6, KOY_INCOMPLETE, KOY_INCOMPLETE},
        {{0x68, 0x05, 0x05, 0x00, 0x00, 0x00}, 6, KOY_INCOMPLETE, KOY_FOURTH_BYTE},
        {{0x68, 0x02, 0x03, 0x00, 0x00, 0x00}, 6, KOY_LENGTHS_DIFFER, KOY_LENGTHS_DIFFER},
        {{0x68, 0xFE, 0xFF, 0x00, 0x00, 0x00}, 6, KOY_LENGTHS_DIFFER, KOY_LENGTHS_DIFFER},
        {{0x68, 0x02, 0x02, 0x00, 0x00, 0x00}, 6, KOY_LENGTH_TOO_SMALL, KOY_LENGTH_TOO_SMALL},
        {{0x68, 0x04, 0x04, 0x68, 0x00, 0x00, 0x00, 0x00, 0x00, 0x16}, 10, KOY_DONE, KOY_DONE},
        {{0x68, 0x04, 0x04, 0x00, 0x00, 0x00, 0x00, 0x00, 0x00, 0x16}, 10, KOY_DONE, KOY_FOURTH_BYTE},
        {{0x68, 0x04, 0x04, 0x00, 0x00, 0x00, 0x00, 0x00, 0x01, 0x16}, 10, KOY_CHECKSUM, KOY_FOURTH_BYTE},
        {{0x68, 0x04, 0x04, 0x68, 0x00, 0x00, 0x00, 0x00, 0x01, 0x16}, 10, KOY_CHECKSUM, KOY_CHECKSUM},
        {{0x68, 0x03, 0x03, 0x68, 0x00, 0x00, 0x00, 0x00, 0x16}, 9, KOY_DONE, KOY_LENGTH_NOT_STANDARD},
        {{0x10, 0x05, 0x02, 0x49, 0x50, 0x16}, 6, KOY_DONE, KOY_DONE},
        {{0xDC, 0x05, 0x02}, 3, KOY_DONE, KOY_DONE},
        {{0xE5}, 1, KOY_DONE, KOY_DONE},
        {{0xFF}, 1, KOY_UNKNOWN_START, KOY_UNKNOWN_START},
    };
    for (size_t i = 0; i < sizeof samples / sizeof samples[0]; i++) {
        const uint8_t *bytes = samples[i].bytes;
        CHECK(koy_telegram_read(bytes, samples[i].length).code == samples[i].plain);
        CHECK(koy_telegram_read_strict(bytes, samples[i].length).code == samples[i].strict);
        CHECK(gate_then_plain(bytes, samples[i].length) && strict_or_alike(bytes, samples[i].length));
    }
}

/* whole telegrams of each length byte: 4 to 249 are standard, and 11 too, although we write 8 bytes of PDU as SD3 */
static void strict_lengths(void)
{
    uint8_t bytes[KOY_LONGEST_TELEGRAM] = {0x68, 0, 0, 0x68, 0x05, 0x02, KOY_FC_SRD_LOW};
    for (unsigned l = 3; l < 256; l++) {
        bytes[1] = bytes[2] = (uint8_t)l;
        size_t length = closed(bytes);
        koy_telegram plain = koy_telegram_read(bytes, length), strict = koy_telegram_read_strict(bytes, length);
        CHECK(plain.code == KOY_DONE && plain.length == l + 6 && plain.pdu.length == l - 3);
        CHECK(strict.code == (l >= 4 && l <= 249 ? KOY_DONE : KOY_LENGTH_NOT_STANDARD));
        CHECK(strict.kind == (strict.code == KOY_DONE ? KOY_DATA : 0) && strict.sa == (strict.code == KOY_DONE ? 2 : KOY_ABSENT));
        memset(bytes + 7, 0, sizeof bytes - 7);
    }
}

/* ---- writing ---- */

static void writing(void)
{
    const uint8_t pdu[KOY_LONGEST_PDU + 1] = {1, 3};
    const uint8_t plain[] = {0x68, 0x05, 0x05, 0x68, 0x05, 0x02, 0x5C, 0x01, 0x03, 0x67, 0x16};
    const uint8_t saps[] = {0x68, 0x05, 0x05, 0x68, 0x85, 0x82, 0x6C, 0x3C, 0x3E, 0xED, 0x16};
    const uint8_t token[] = {0xDC, 0x05, 0x02};
    koy_header header = koy_header_from_to(2, 5, KOY_FC_SRD_LOW | KOY_FC_LOW);
    koy_written w = koy_telegram_write(header, pdu, 2, buf, sizeof buf);
    CHECK(w.code == KOY_DONE && w.length == sizeof plain && w.replier == 5 && memcmp(buf, plain, sizeof plain) == 0);
    header.fc = KOY_FC_SRD_LOW | KOY_FC_FIRST;
    header.dsap = 60;
    header.ssap = 62;
    w = koy_telegram_write(header, NULL, 0, buf, sizeof buf);
    CHECK(w.code == KOY_DONE && w.length == sizeof saps && memcmp(buf, saps, sizeof saps) == 0);
    header = koy_header_from_to(2, KOY_ALL_STATIONS, KOY_FC_SDN_HIGH);
    CHECK(koy_telegram_write(header, pdu, KOY_LONGEST_PDU, buf, KOY_ROOM).replier == KOY_ABSENT);
    w = koy_telegram_write(header, pdu, KOY_LONGEST_PDU + 1, buf, KOY_ROOM);
    CHECK(w.code == KOY_TOO_LONG && w.length == 0 && w.replier == KOY_ABSENT);
    CHECK(koy_telegram_write(header, pdu, KOY_LONGEST_PDU, buf, KOY_ROOM).length == KOY_ROOM);
    CHECK(koy_telegram_write(header, pdu, KOY_LONGEST_PDU, buf, KOY_ROOM - 1).code == KOY_NO_ROOM);
    CHECK(koy_telegram_write(koy_header_from_to(2, KOY_ALL_STATIONS + 1, 0), pdu, 2, buf, KOY_ROOM).code == KOY_ADDRESS_TOO_LARGE);
    w = koy_token_write(koy_from_to(2, 5), buf, sizeof buf);
    CHECK(w.code == KOY_DONE && w.length == sizeof token && memcmp(buf, token, sizeof token) == 0);
    w = koy_token_write(koy_from_to(2, 5), buf, KOY_TOKEN_LENGTH - 1);
    CHECK(w.code == KOY_NO_ROOM && w.length == 0);
    w = koy_confirmation_write(buf, KOY_SHORT_CONFIRMATION_LENGTH);
    CHECK(w.code == KOY_DONE && w.length == 1 && buf[0] == 0xE5);
}

/* the 120 function codes are those that the macros make, and those responses with bit 7 */
static void function_codes(void)
{
    const uint8_t requests[] = {KOY_FC_TIME_EVENT,  KOY_FC_SDA_LOW,       KOY_FC_SDN_LOW,    KOY_FC_SDA_HIGH,
                                KOY_FC_SDN_HIGH,    KOY_FC_MULTICAST_SRD, KOY_FC_FDL_STATUS, KOY_FC_SRD_LOW,
                                KOY_FC_SRD_HIGH,    KOY_FC_IDENT,         KOY_FC_LSAP_STATUS, KOY_FC_CLOCK_VALUE};
    const uint8_t counts[] = {KOY_FC_INACTIVE, KOY_FC_LOW, KOY_FC_FIRST, KOY_FC_HIGH};
    const uint8_t states[] = {KOY_FC_SLAVE, KOY_FC_MASTER_NOT_READY, KOY_FC_MASTER_WITHOUT_TOKEN, KOY_FC_MASTER_IN_RING};
    const uint8_t statuses[] = {KOY_FC_OK,
                                KOY_FC_USER_ERROR,
                                KOY_FC_NO_RESOURCES,
                                KOY_FC_SAP_NOT_ENABLED,
                                KOY_FC_DATA_LOW,
                                KOY_FC_NO_DATA_READY,
                                KOY_FC_DATA_HIGH,
                                KOY_FC_NOT_RECEIVED_DATA_LOW,
                                KOY_FC_NOT_RECEIVED_DATA_HIGH};
    bool named[256] = {false};
    int count = 0;
    for (size_t part = 0; part < 4; part++) {
        for (size_t i = 0; i < sizeof requests; i++)
            named[requests[i] | counts[part]] = true;
        for (size_t i = 0; i < sizeof statuses; i++)
            named[states[part] | statuses[i]] = named[states[part] | statuses[i] | 0x80] = true;
    }
    for (int fc = 0; fc < 256; fc++) {
        koy_written w = koy_telegram_write(koy_header_from_to(2, 5, (uint8_t)fc), NULL, 0, buf, sizeof buf);
        CHECK(w.code == (named[fc] ? KOY_DONE : KOY_FUNCTION_CODE));
        CHECK((w.replier == 5) <= ((fc & KOY_FC_REQUEST) != 0));
        count += named[fc];
    }
    CHECK(count == 120);
}

/* ---- the station list ---- */

static int reports(const koy_station_list *list, uint8_t phase, uint8_t own, uint8_t next, uint8_t previous)
{
    koy_station_report said = koy_stations_report(list);
    return said.phase == phase && said.own == own && said.next == next && said.previous == previous;
}

static void stations(void)
{
    koy_station_list list;
    memset(&list, 0xAA, sizeof list);
    CHECK(koy_stations_new(list.state, KOY_LAST_STATION + 1) == KOY_NOT_A_STATION && list.state[0] == 0xAA);
    CHECK(koy_stations_new(list.state, 7) == KOY_DONE && reports(&list, KOY_UNINITIALIZED, 7, 7, 7));
    koy_stations_witness_pass(&list, koy_from_to(9, 2));
    CHECK(reports(&list, KOY_DISCOVERY, 7, 7, 7));
    koy_stations_witness_pass(&list, koy_from_to(2, 5));
    koy_stations_witness_pass(&list, koy_from_to(5, 9));
    koy_stations_witness_pass(&list, koy_from_to(9, 2));
    CHECK(reports(&list, KOY_VERIFICATION, 7, 9, 5));
    koy_stations_witness_pass(&list, koy_from_to(2, 5));
    koy_stations_witness_pass(&list, koy_from_to(5, 9));
    koy_stations_witness_pass(&list, koy_from_to(9, 2));
    CHECK(reports(&list, KOY_VALID, 7, 9, 5));
    CHECK(koy_stations_is_active(list.state, 5) && !koy_stations_is_active(list.state, 7));
    CHECK(koy_stations_first_from(list.state, 6) == 9 && koy_stations_first_from(list.state, 10) == KOY_ABSENT);
    CHECK(koy_stations_last_to(list.state, 1) == KOY_ABSENT && koy_stations_last_to(list.state, 8) == 5);
}

/* what the header says of bytes that did not come from the calls */
static void stations_written_anew(void)
{
    koy_station_list list, before;
    CHECK(koy_stations_new(list.state, 7) == KOY_DONE);
    koy_stations_witness_pass(&list, koy_from_to(9, 2));
    before = list;
    koy_stations_witness_pass(&list, koy_from_to(9, KOY_LAST_STATION + 1));
    CHECK(memcmp(&list, &before, sizeof list) == 0);
    list.state[0] = 4;
    list.state[4 + 9] = 2;
    before = list;
    CHECK(koy_stations_set_next(list.state, KOY_LAST_STATION + 1) == KOY_NOT_A_STATION);
    CHECK(memcmp(&list, &before, sizeof list) == 0);
    koy_stations_witness_pass(&list, koy_from_to(KOY_LAST_STATION + 1, 9));
    CHECK(list.state[0] == KOY_UNINITIALIZED && list.state[4 + 9] == 1);
    list.state[0] = before.state[0];
    list.state[4 + 9] = 2;
    CHECK(memcmp(&list, &before, sizeof list) == 0);
}

/* ---- diagnostics and settings ---- */

static void diagnostics(void)
{
    const uint8_t bytes[] = {0x42, 0x05, 0x83, 0xC1, 0x26, 0x03, 0xAA, 0xBB, 0x43, 0x01};
    uint8_t room[sizeof bytes + 2];
    koy_store store = {room, sizeof bytes - 1, 0};
    CHECK(!koy_store_fill(&store, bytes, sizeof bytes) && store.length == 0);
    store.room = sizeof room;
    CHECK(koy_store_fill(&store, bytes, sizeof bytes) && store.length == sizeof bytes && memcmp(room, bytes, sizeof bytes) == 0);
    koy_walk walk = koy_walk_over(store.bytes, store.length);
    koy_block block = koy_walk_next(&walk);
    CHECK(block.code == KOY_DONE && block.kind == KOY_IDENTIFIER_BLOCK && walk.cursor == 2);
    CHECK(block.body.bytes == room + 1 && block.body.start == 1 && block.body.length == 1);
    CHECK(koy_block_has_module(block, 0) && !koy_block_has_module(block, 1) && koy_block_has_module(block, 2));
    block = koy_walk_next(&walk);
    CHECK(block.kind == KOY_CHANNEL_BLOCK && block.module == 3 && block.channel == 1 && block.input && block.output);
    CHECK(block.type == KOY_TYPE_BIT && block.error == KOY_ERROR_LINE_BREAK && block.body.length == 0);
    block = koy_walk_next(&walk);
    CHECK(block.kind == KOY_DEVICE_BLOCK && block.body.start == 6 && block.body.length == 2 && block.module == 0);
    block = koy_walk_next(&walk);
    CHECK(block.code == KOY_BLOCK_CUT_OFF && block.kind == 0 && walk.cursor == sizeof bytes);
    CHECK(koy_walk_next(&walk).code == KOY_AT_END);
}

/* a channel's input is bit 6 and its output bit 7; types and errors are the numbers of the third byte */
static void channels(void)
{
    for (int third = 0; third < 256; third++) {
        uint8_t bytes[3] = {0x80, 0x40, (uint8_t)third};
        koy_walk walk = koy_walk_over(bytes, sizeof bytes);
        koy_block block = koy_walk_next(&walk);
        int type = third >> 5;
        CHECK(block.input && !block.output && block.error == (third & 31));
        CHECK(block.type == (type == 0 ? KOY_TYPE_INVALID : type));
    }
}

static void settings(void)
{
    const char text[] = "own=2\npeer=5\ntries=3\n";
    char written[KOY_LONGEST_SETTINGS];
    koy_settings_told read = koy_settings_from_text(text, sizeof text - 1);
    CHECK(read.code == KOY_DONE && read.settings.own == 2 && read.settings.peer == 5 && read.settings.tries == 3);
    koy_written w = koy_settings_to_text(read.settings, written, sizeof written);
    CHECK(w.code == KOY_DONE && w.length == sizeof text - 1 && memcmp(written, text, w.length) == 0);
    CHECK(koy_settings_from_text(text, sizeof text).code == KOY_SETTINGS_FORM);
    koy_settings longest = koy_settings_own_peer(KOY_LAST_STATION, KOY_LAST_STATION - 1);
    CHECK(longest.own == KOY_LAST_STATION && longest.tries == KOY_DEFAULT_TRIES);
    CHECK(koy_settings_to_text(longest, written, KOY_LONGEST_SETTINGS).length == KOY_LONGEST_SETTINGS);
    CHECK(koy_settings_to_text(longest, written, KOY_LONGEST_SETTINGS - 1).code == KOY_NO_ROOM);
    CHECK(koy_settings_to_text(koy_settings_own_peer(5, 5), written, sizeof written).code == KOY_LINK_ADDRESSES);
    longest.tries = KOY_MOST_TRIES;
    CHECK(koy_settings_to_text(longest, written, sizeof written).code == KOY_DONE);
    longest.tries = KOY_MOST_TRIES + 1;
    CHECK(koy_settings_to_text(longest, written, sizeof written).code == KOY_TRIES);
    longest.tries = KOY_LEAST_TRIES - 1;
    CHECK(koy_settings_to_text(longest, written, sizeof written).code == KOY_TRIES);
}

/* ---- the order link ---- */

static koy_head_end head_end;
static koy_cabinet cabinet;
static uint8_t line[KOY_ROOM];
static size_t line_length;

static koy_heard received(size_t stamp)
{
    memcpy(line, buf, line_length);
    return koy_heard_at(stamp, line, line_length);
}

static void made_by(koy_settings one)
{
    CHECK(koy_head_end_new(&head_end, 100, one) == KOY_DONE);
    CHECK(koy_cabinet_new(&cabinet, 1000, koy_settings_own_peer(5, 2)) == KOY_DONE);
    CHECK(koy_head_end_phase(&head_end) == KOY_HEAD_END_CLOSED && koy_cabinet_phase(&cabinet) == KOY_CABINET_BLANK);
}

static void made(size_t tries)
{
    koy_settings one = koy_settings_own_peer(2, 5);
    one.tries = (uint8_t)tries;
    made_by(one);
}

/* the cabinet has answered the opening, and the order stands in buf */
static void opened(const uint8_t *order, size_t order_len)
{
    koy_head_end_told said = koy_head_end_submit(&head_end, 101, order, order_len, buf, sizeof buf);
    CHECK(said.code == KOY_SENT && said.to_send == 6 && koy_head_end_phase(&head_end) == KOY_HEAD_END_OPENING);
    line_length = said.to_send;
    CHECK(koy_cabinet_hear(&cabinet, 1001, received(1000), buf, sizeof buf).code == KOY_NOTHING);
    koy_cabinet_told heard = koy_cabinet_hear(&cabinet, 1001, received(1001), buf, sizeof buf);
    CHECK(heard.code == KOY_SENT && heard.to_send == 6 && koy_cabinet_phase(&cabinet) == KOY_CABINET_OPENED);
    line_length = heard.to_send;
    CHECK(koy_head_end_hear(&head_end, 103, received(101), buf, sizeof buf).code == KOY_NOTHING);
    said = koy_head_end_hear(&head_end, 103, received(102), buf, sizeof buf);
    CHECK(said.code == KOY_SENT && said.to_send == order_len + 9 && koy_head_end_phase(&head_end) == KOY_HEAD_END_ORDER_LOW);
    line_length = said.to_send;
}

static void an_order(void)
{
    const uint8_t order[] = {1, 3, 7}, reply[] = {9, 8};
    made(2);
    opened(order, sizeof order);
    CHECK(koy_head_end_submit(&head_end, 104, order, 3, buf, sizeof buf).code == KOY_ORDER_PENDING);
    koy_cabinet_told handed = koy_cabinet_hear(&cabinet, 1003, received(1002), buf, sizeof buf);
    CHECK(handed.code == KOY_HANDED_UP && handed.number == 1001 && koy_cabinet_phase(&cabinet) == KOY_CABINET_OWES_LOW);
    CHECK(handed.order.bytes == line + 7 && handed.order.length == 3 && memcmp(handed.order.bytes, order, 3) == 0);
    CHECK(koy_cabinet_answer(&cabinet, 1004, koy_answer_to(1004, reply, 2), buf, sizeof buf).code == KOY_NO_REPLY_OWED);
    koy_cabinet_told sent = koy_cabinet_answer(&cabinet, 1004, koy_answer_to(handed.number, reply, 2), buf, sizeof buf);
    CHECK(sent.code == KOY_SENT && sent.to_send == 11 && koy_cabinet_phase(&cabinet) == KOY_CABINET_HOLDS_LOW);
    line_length = sent.to_send;
    koy_head_end_told said = koy_head_end_hear(&head_end, 106, received(105), buf, sizeof buf);
    CHECK(said.code == KOY_CONFIRMED && said.tries == 1 && said.to_send == 0);
    CHECK(said.reply.bytes == line + 7 && said.reply.length == 2 && memcmp(said.reply.bytes, reply, 2) == 0);
    CHECK(koy_head_end_phase(&head_end) == KOY_HEAD_END_READY_HIGH);
    CHECK(koy_head_end_silence(&head_end, 107, buf, sizeof buf).code == KOY_NOTHING);
}

/* under High, behind the one under Low; then both restart */
static void next_order(void)
{
    const uint8_t order[] = {2};
    line_length = koy_head_end_submit(&head_end, 108, order, sizeof order, buf, sizeof buf).to_send;
    CHECK(line_length == 10 && koy_head_end_phase(&head_end) == KOY_HEAD_END_ORDER_HIGH);
    koy_cabinet_told handed = koy_cabinet_hear(&cabinet, 1006, received(1005), buf, sizeof buf);
    CHECK(handed.number == 1002 && handed.order.length == 1 && koy_cabinet_phase(&cabinet) == KOY_CABINET_OWES_HIGH);
    line_length = koy_cabinet_answer(&cabinet, 1007, koy_answer_to(handed.number, order, 1), buf, sizeof buf).to_send;
    CHECK(line_length == 10 && koy_cabinet_phase(&cabinet) == KOY_CABINET_HOLDS_HIGH);
    CHECK(koy_head_end_hear(&head_end, 110, received(109), buf, sizeof buf).code == KOY_CONFIRMED);
    CHECK(koy_head_end_phase(&head_end) == KOY_HEAD_END_READY_LOW);
    koy_cabinet_restart(&cabinet);
    CHECK(koy_cabinet_phase(&cabinet) == KOY_CABINET_BLANK && koy_head_end_restart(&head_end).code == KOY_NOTHING);
    CHECK(koy_head_end_phase(&head_end) == KOY_HEAD_END_CLOSED);
}

static void given_up(void)
{
    const uint8_t order[KOY_LONGEST_ORDER + 1] = {1};
    made(3);
    CHECK(koy_head_end_submit(&head_end, 101, order, KOY_LONGEST_ORDER + 1, buf, sizeof buf).code == KOY_ORDER_LENGTH);
    CHECK(koy_head_end_submit(&head_end, 101, order, 0, buf, sizeof buf).code == KOY_ORDER_LENGTH);
    CHECK(koy_head_end_submit(&head_end, 101, order, 1, buf, KOY_ROOM - 1).code == KOY_NO_ROOM);
    CHECK(koy_head_end_submit(&head_end, 101, order, KOY_LONGEST_ORDER, buf, sizeof buf).code == KOY_SENT);
    CHECK(koy_head_end_silence(&head_end, 102, buf, sizeof buf).to_send == 6);
    CHECK(koy_head_end_silence(&head_end, 103, buf, sizeof buf).code == KOY_SENT);
    koy_head_end_told said = koy_head_end_silence(&head_end, 104, buf, sizeof buf);
    CHECK(said.code == KOY_NOT_SENT && said.tries == 3 && said.to_send == 0);
    made(2);
    opened(order, 1);
    said = koy_head_end_silence(&head_end, 104, buf, sizeof buf);
    CHECK(said.code == KOY_SENT && said.to_send == 10);
    said = koy_head_end_silence(&head_end, 105, buf, sizeof buf);
    CHECK(said.code == KOY_UNKNOWN && said.tries == 2 && said.to_send == 0);
    made(2);
    opened(order, 1);
    said = koy_head_end_restart(&head_end);
    CHECK(said.code == KOY_UNKNOWN && said.tries == 1);
}

/* on a dead line: the telegrams written until the pending order ends with this code, the one before among them */
static unsigned written_until(uint8_t code)
{
    unsigned written = 1;
    koy_head_end_told said = koy_head_end_silence(&head_end, 104, buf, sizeof buf);
    while (said.code == KOY_SENT && written < 9) {
        written++;
        said = koy_head_end_silence(&head_end, 104, buf, sizeof buf);
    }
    CHECK(said.code == code && said.tries == written);
    return written;
}

/* no number of tries is stated: four in either phase */
static void no_tries_stated(void)
{
    const uint8_t order[] = {1};
    made_by(koy_settings_own_peer(2, 5));
    CHECK(koy_head_end_submit(&head_end, 101, order, 1, buf, sizeof buf).code == KOY_SENT);
    CHECK(written_until(KOY_NOT_SENT) == 4);
    made_by(koy_settings_own_peer(2, 5));
    opened(order, 1);
    CHECK(written_until(KOY_UNKNOWN) == 4);
}

/* a phase above the named ones counts as 0, and the plain calls can be named too */
static void plain_ends(void)
{
    const uint8_t order[] = {1};
    size_t told[3] = {0, 0, 0};
    made(2);
    head_end.state[KOY_HEAD_END_PHASE_AT] = 6;
    cabinet.state[KOY_CABINET_PHASE_AT] = 6;
    CHECK(koy_head_end_phase(&head_end) == KOY_HEAD_END_CLOSED && koy_cabinet_phase(&cabinet) == KOY_CABINET_BLANK);
    CHECK(koy_head_end_named(koy_initiator_submit(head_end.state, order, 1, buf, sizeof buf, told), told, NULL).to_send == 6);
    line_length = 6;
    (void)received(0);
    CHECK(koy_cabinet_named(koy_responder_hear(cabinet.state, line, 6, buf, sizeof buf, told), told, line).to_send == 6);
    CHECK(koy_head_end_named(KOY_NO_ROOM, told, NULL).to_send == 0 && koy_cabinet_named(KOY_NO_ROOM, told, line).to_send == 0);
}

/* ---- NULL with length 0 ---- */

static void null_bus(void)
{
    koy_walk walk = koy_walk_over(NULL, 0);
    koy_store store = {NULL, 0, 0};
    koy_block block = koy_walk_next(&walk);
    CHECK(block.code == KOY_AT_END && !koy_block_has_module(block, 0) && !koy_store_fill(&store, NULL, 0));
    CHECK(koy_telegram_read(NULL, 0).code == KOY_INCOMPLETE && koy_telegram_read(NULL, 0).pdu.bytes == NULL);
    CHECK(koy_telegram_read_strict(NULL, 0).code == KOY_INCOMPLETE && koy_telegram_read_strict(NULL, 0).pdu.bytes == NULL);
    CHECK(koy_telegram_write(koy_header_from_to(2, 5, KOY_FC_FDL_STATUS), NULL, 0, buf, sizeof buf).length == 6);
    CHECK(koy_telegram_write(koy_header_from_to(2, 5, KOY_FC_FDL_STATUS), NULL, 0, NULL, 0).code == KOY_NO_ROOM);
    CHECK(koy_token_write(koy_from_to(2, 5), NULL, 0).code == KOY_NO_ROOM);
    CHECK(koy_confirmation_write(NULL, 0).code == KOY_NO_ROOM);
    CHECK(koy_settings_from_text(NULL, 0).code == KOY_SETTINGS_FORM);
    CHECK(koy_settings_to_text(koy_settings_own_peer(2, 5), NULL, 0).code == KOY_NO_ROOM);
}

static void null_bus_plain(void)
{
    size_t told[9], cursor = 0, walked = 0;
    CHECK(koy_read(NULL, 0, told) == KOY_INCOMPLETE && koy_read_strict(NULL, 0, told) == KOY_INCOMPLETE);
    CHECK(koy_write_data(5, 2, KOY_ABSENT, KOY_ABSENT, KOY_FC_FDL_STATUS, NULL, 0, buf, sizeof buf, told) == KOY_DONE);
    CHECK(koy_write_data(5, 2, 60, 62, KOY_FC_SRD_LOW, NULL, 0, buf, sizeof buf, told) == KOY_DONE && told[0] == 11);
    CHECK(koy_write_data(5, 2, KOY_ABSENT, KOY_ABSENT, KOY_FC_FDL_STATUS, NULL, 0, NULL, 0, told) == KOY_NO_ROOM);
    CHECK(koy_write_token(5, 2, NULL, 0) == KOY_NO_ROOM && koy_write_confirmation(NULL, 0) == KOY_NO_ROOM);
    CHECK(koy_diagnostics_step(NULL, 0, 0, &cursor, told) == KOY_AT_END);
    CHECK(koy_diagnostics_step(NULL, 0, 9, &cursor, told) == KOY_AT_END);
    CHECK(!koy_diagnostics_fill(NULL, 0, &walked, NULL, 0) && !koy_diagnostics_fill(NULL, 0, &walked, buf, 3));
    CHECK(koy_diagnostics_fill(buf, sizeof buf, &walked, NULL, 0) && walked == 0);
    CHECK(!koy_diagnostics_module(NULL, 0, 0));
    CHECK(koy_settings_read(NULL, 0, told) == KOY_SETTINGS_FORM && koy_settings_write(2, 5, 2, NULL, 0, told) == KOY_NO_ROOM);
}

static void null_link(void)
{
    const uint8_t order[] = {1};
    made(2);
    CHECK(koy_head_end_submit(&head_end, 101, NULL, 0, buf, sizeof buf).code == KOY_ORDER_LENGTH);
    CHECK(koy_head_end_submit(&head_end, 101, order, 1, NULL, 0).code == KOY_NO_ROOM);
    CHECK(koy_head_end_silence(&head_end, 101, NULL, 0).code == KOY_NO_ROOM);
    CHECK(koy_head_end_hear(&head_end, 102, koy_heard_at(102, NULL, 0), buf, sizeof buf).code == KOY_NOTHING);
    CHECK(koy_head_end_hear(&head_end, 102, koy_heard_at(102, NULL, 0), NULL, 0).code == KOY_NO_ROOM);
    CHECK(koy_cabinet_hear(&cabinet, 1002, koy_heard_at(1002, NULL, 0), buf, sizeof buf).code == KOY_NOTHING);
    CHECK(koy_cabinet_hear(&cabinet, 1002, koy_heard_at(1002, NULL, 0), NULL, 0).code == KOY_NO_ROOM);
    opened(order, 1);
    CHECK(koy_cabinet_hear(&cabinet, 1003, received(1002), buf, sizeof buf).code == KOY_HANDED_UP);
    CHECK(koy_cabinet_answer(&cabinet, 1004, koy_answer_to(1001, NULL, 0), NULL, 0).code == KOY_NO_ROOM);
    koy_cabinet_told sent = koy_cabinet_answer(&cabinet, 1004, koy_answer_to(1001, NULL, 0), buf, sizeof buf);
    CHECK(sent.code == KOY_SENT);
    line_length = sent.to_send;
    koy_head_end_told said = koy_head_end_hear(&head_end, 106, received(105), buf, sizeof buf);
    CHECK(said.code == KOY_CONFIRMED && said.reply.length == 0);
}

static void null_link_plain(void)
{
    const uint8_t order[] = {1};
    size_t told[3] = {0, 0, 0};
    made(2);
    CHECK(koy_initiator_submit(head_end.state, NULL, 0, buf, sizeof buf, told) == KOY_ORDER_LENGTH);
    CHECK(koy_initiator_submit(head_end.state, order, 1, NULL, 0, told) == KOY_NO_ROOM);
    CHECK(koy_initiator_silence(head_end.state, NULL, 0, told) == KOY_NO_ROOM);
    CHECK(koy_initiator_hear(head_end.state, NULL, 0, buf, sizeof buf, told) == KOY_DONE);
    CHECK(koy_initiator_hear(head_end.state, NULL, 0, NULL, 0, told) == KOY_NO_ROOM);
    CHECK(koy_responder_hear(cabinet.state, NULL, 0, buf, sizeof buf, told) == KOY_DONE);
    CHECK(koy_responder_hear(cabinet.state, NULL, 0, NULL, 0, told) == KOY_NO_ROOM);
    cabinet.state[KOY_CABINET_PHASE_AT] = KOY_CABINET_OWES_LOW;
    CHECK(koy_responder_answer(cabinet.state, NULL, 0, NULL, 0, told) == KOY_NO_ROOM);
    CHECK(koy_responder_answer(cabinet.state, NULL, 0, buf, sizeof buf, told) == KOY_SENT && told[0] == 6);
}

static void null_link_guarded(void)
{
    const uint8_t order[] = {1};
    size_t told[3] = {0, 0, 0};
    uint8_t *head = head_end.state, *row = cabinet.state;
    size_t *last = head_end.last, *guard = cabinet.guard;
    made(2);
    CHECK(koy_guarded_initiator_submit(head, last, 101, NULL, 0, buf, sizeof buf, told) == KOY_ORDER_LENGTH);
    CHECK(koy_guarded_initiator_submit(head, last, 101, order, 1, NULL, 0, told) == KOY_NO_ROOM);
    CHECK(koy_guarded_initiator_silence(head, last, 101, NULL, 0, told) == KOY_NO_ROOM);
    CHECK(koy_guarded_initiator_hear(head, last, 102, 102, NULL, 0, buf, sizeof buf, told) == KOY_NOTHING);
    CHECK(koy_guarded_initiator_hear(head, last, 102, 102, NULL, 0, NULL, 0, told) == KOY_NO_ROOM);
    CHECK(koy_guarded_responder_hear(row, guard, 1002, 1002, NULL, 0, buf, sizeof buf, told) == KOY_NOTHING);
    CHECK(koy_guarded_responder_hear(row, guard, 1002, 1002, NULL, 0, NULL, 0, told) == KOY_NO_ROOM);
    row[KOY_CABINET_PHASE_AT] = KOY_CABINET_OWES_HIGH;
    CHECK(koy_guarded_responder_answer(row, guard, 1000, 1003, NULL, 0, NULL, 0, told) == KOY_NO_ROOM);
    CHECK(koy_guarded_responder_answer(row, guard, 1000, 1003, NULL, 0, buf, sizeof buf, told) == KOY_SENT);
}

/* ---- codes, sizes, version ---- */

static bool is_code(size_t code)
{
    return code <= KOY_INPUT_TOO_LONG || code == KOY_LENGTH_NOT_STANDARD || code == KOY_FOURTH_BYTE ||
           (code >= KOY_INCOMPLETE && code <= KOY_HANDED_UP);
}

/* every code has a text of its own, and no other number has one */
static void texts(void)
{
    const char *none = koy_code_text(999);
    for (size_t code = 0; code < 300; code++) {
        CHECK((strcmp(koy_code_text(code), none) != 0) == is_code(code));
        CHECK(koy_is_refusal(code) == (code > 0 && code < 100));
        for (size_t other = 0; is_code(code) && other < code; other++)
            CHECK(!is_code(other) || strcmp(koy_code_text(code), koy_code_text(other)) != 0);
    }
    CHECK(strcmp(koy_code_text(KOY_CHECKSUM), "the checksum is another") == 0 && strcmp(koy_code_text(KOY_TRIES), "the tries are outside 1 to 8") == 0);
}

static void sizes(void)
{
    char version[32];
    CHECK(sizeof head_end.state == KOY_INITIATOR_SIZE && sizeof cabinet.state == KOY_RESPONDER_SIZE);
    CHECK(sizeof(koy_station_list) == KOY_STATIONS_SIZE);
    snprintf(version, sizeof version, "%d.%d.%d", KOY_VERSION_MAJOR, KOY_VERSION_MINOR, KOY_VERSION_PATCH);
    CHECK(strcmp(version, KOY_VERSION) == 0);
}

int main(void)
{
    reading_random_bytes();
    reading();
    longest_announced();
    strict_random_bytes();
    strict_starts();
    strict_samples();
    strict_lengths();
    writing();
    function_codes();
    stations();
    stations_written_anew();
    diagnostics();
    channels();
    settings();
    an_order();
    next_order();
    given_up();
    no_tries_stated();
    plain_ends();
    null_bus();
    null_bus_plain();
    null_link();
    null_link_plain();
    null_link_guarded();
    texts();
    sizes();
    printf("test: %lu checks, %lu failures\n", checks, failures);
    return failures > 0;
}
