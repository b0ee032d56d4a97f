/* Ten orders over a line that loses telegrams, as docs/DRIVERS.md wants it: both ends in one program, guarded, every outcome handled.
 *
 * Each end has its bus driver (`..._turn`) and its application. The head end's application wants a feeder open or closed; where an
 * order's fate is unknown it asks the cabinet for the feeder's state before it gives the order again. The cabinet's application takes
 * longer than a slot now and then. At the end the orders carried out are held against what was told of them. `run` compares what is
 * printed with lossy_line.out. */
#include <stdio.h>
#include <stdlib.h>

#include "koyandefa.h"

/* an order: what is wanted, and a number by which this program counts how often it was carried out; the reply: the feeder's state */
enum { OPEN = 1, CLOSE = 2, ASK = 3 };

enum { ORDERS = 10, MOST_GIVEN = 100, MOST_IN_WORK = 4 };

static koy_head_end head_end;
static koy_cabinet cabinet;

/* The stamps of both ends: a count that is stepped at each sending, each receiving and each call. */
static size_t events;
static size_t stamp(void)
{
    return ++events;
}

static void fail(const char *what, size_t code)
{
    printf("%s: %zu, %s\n", what, code, koy_code_text(code));
    exit(1);
}

/* ---- the line: loses about one telegram of three ---- */

static uint32_t seed = 3;

static bool is_lost(void)
{
    seed = seed * 1664525u + 1013904223u;
    return (seed >> 24) < 90;
}

static bool carry(const char *who, const uint8_t *telegram, size_t length)
{
    bool lost = is_lost();
    printf("  %s:", who);
    for (size_t i = 0; i < length; i++)
        printf(" %02X", telegram[i]);
    printf("%s\n", lost ? "  LOST" : "");
    return !lost;
}

/* ---- the cabinet: its application ---- */

static uint8_t feeder = CLOSE;
static unsigned carried_out[MOST_GIVEN];
static unsigned handed_up;

/* the orders in work: the number of each, and the slots that it takes still */
typedef struct {
    bool busy;
    size_t number;
    unsigned slots;
} work_item;
static work_item work[MOST_IN_WORK];

/* Now and then it takes a slot or more, and each time longer. */
static work_item *carry_out(koy_part order, size_t number)
{
    work_item *item = work;
    if (order.length != 2 || order.bytes[1] >= MOST_GIVEN)
        fail("not an order of this program", order.length);
    while (item->busy)
        if (++item == work + MOST_IN_WORK)
            fail("too many orders in work", number);
    if (order.bytes[0] != ASK)
        feeder = order.bytes[0];
    carried_out[order.bytes[1]]++;
    item->busy = true;
    item->number = number;
    item->slots = ++handed_up % 4 == 0 ? handed_up / 4 : 0;
    printf("  cabinet carries order %u out\n", (unsigned)order.bytes[1]);
    return item;
}

/* ---- the cabinet: its bus driver ---- */

/* The answer goes to buf; returns the telegram's length, or 0. */
static size_t answer(work_item *item, uint8_t *buf)
{
    koy_cabinet_told told = koy_cabinet_answer(&cabinet, stamp(), koy_answer_to(item->number, &feeder, 1), buf, KOY_ROOM);
    item->busy = false;
    if (told.code == KOY_NO_REPLY_OWED)
        printf("  cabinet: the order was given up meanwhile, its reply is dropped\n");
    else if (told.code != KOY_SENT)
        fail("answer", told.code);
    return told.to_send;
}

/* Hears a telegram; what it sends back within the slot goes to buf. Returns its length, or 0. */
static size_t cabinet_turn(const uint8_t *telegram, size_t length, uint8_t *buf)
{
    size_t received = stamp();
    koy_cabinet_told told = koy_cabinet_hear(&cabinet, stamp(), koy_heard_at(received, telegram, length), buf, KOY_ROOM);
    if (told.code == KOY_HANDED_UP) {
        work_item *item = carry_out(told.order, told.number);
        return item->slots == 0 ? answer(item, buf) : 0;
    }
    if (told.code != KOY_SENT && told.code != KOY_NOTHING)
        fail("cabinet", told.code);
    return told.to_send;
}

/* The slot is over. An answer that comes now is given, so that it is held, and what it wrote is not sent (rule 4). */
static void cabinet_slot_over(void)
{
    uint8_t buf[KOY_ROOM];
    for (work_item *item = work; item < work + MOST_IN_WORK; item++)
        if (item->busy && item->slots-- == 0 && answer(item, buf) > 0)
            printf("  cabinet: answered after its slot, and not sent\n");
}

/* ---- the head end: its bus driver ---- */

/* what the last reply said of the feeder: taken before the buffer is used again */
static uint8_t feeder_told;

/* One slot: sends a telegram and hears what comes back, or reports silence. What it has to send next stands in buf. */
static koy_head_end_told head_end_turn(uint8_t *buf, size_t length)
{
    uint8_t back[KOY_LONGEST_TELEGRAM];
    size_t back_length = 0;
    if (carry("head end", buf, length))
        back_length = cabinet_turn(buf, length, back);
    if (back_length > 0 && carry(" cabinet", back, back_length)) {
        size_t received = stamp();
        koy_head_end_told told =
            koy_head_end_hear(&head_end, stamp(), koy_heard_at(received, back, back_length), buf, KOY_ROOM);
        if (told.code == KOY_CONFIRMED && told.reply.length == 1)
            feeder_told = told.reply.bytes[0];
        if (told.code != KOY_NOTHING)
            return told;
    }
    cabinet_slot_over();
    return koy_head_end_silence(&head_end, stamp(), buf, KOY_ROOM);
}

static unsigned given;
static uint8_t outcomes[MOST_GIVEN];

/* One order from submitting to its outcome: KOY_CONFIRMED, KOY_NOT_SENT or KOY_UNKNOWN. */
static uint8_t give(uint8_t what)
{
    uint8_t buf[KOY_ROOM];
    uint8_t order[2] = {what, (uint8_t)given};
    if (given == MOST_GIVEN)
        fail("too many orders", given);
    koy_head_end_told told = koy_head_end_submit(&head_end, stamp(), order, sizeof order, buf, sizeof buf);
    while (told.code == KOY_SENT)
        told = head_end_turn(buf, told.to_send);
    if (told.code != KOY_CONFIRMED && told.code != KOY_NOT_SENT && told.code != KOY_UNKNOWN)
        fail("head end", told.code);
    printf("  order %u %s; tries %u\n", given, koy_code_text(told.code), (unsigned)told.tries);
    outcomes[given++] = told.code;
    return told.code;
}

/* ---- the head end: its application ---- */

/* What the feeder does. An order that asks changes nothing, so that it may be given until it is confirmed. */
static uint8_t ask(void)
{
    while (give(ASK) != KOY_CONFIRMED) {
    }
    return feeder_told;
}

/* Gives an order until the feeder does what is wanted. */
static void bring_about(uint8_t wanted)
{
    for (;;) {
        uint8_t outcome = give(wanted);
        if (outcome == KOY_CONFIRMED && feeder_told == wanted)
            return;
        /* never carried out: it may be given again; unknown: only where the feeder does not do it */
        if (outcome == KOY_UNKNOWN && ask() == wanted)
            return;
    }
}

/* What was told of each order against what was carried out. */
static void judge(void)
{
    unsigned count[3] = {0, 0, 0};
    for (unsigned i = 0; i < given; i++) {
        unsigned least = outcomes[i] == KOY_CONFIRMED, most = outcomes[i] != KOY_NOT_SENT;
        if (carried_out[i] < least || carried_out[i] > most)
            fail("an order carried out otherwise than told", i);
        count[outcomes[i] - KOY_CONFIRMED]++;
    }
    printf("%u orders wanted, %u given: %u confirmed, %u not sent, %u unknown\n", (unsigned)ORDERS, given, count[0], count[1],
           count[2]);
}

int main(void)
{
    const char text[] = "own=2\npeer=5\ntries=3\n";
    koy_settings_told read = koy_settings_from_text(text, sizeof text - 1);
    if (read.code != KOY_DONE)
        fail("settings", read.code);
    uint8_t made = koy_head_end_new(&head_end, stamp(), read.settings);
    if (made == KOY_DONE)
        made = koy_cabinet_new(&cabinet, stamp(), koy_settings_own_peer(read.settings.peer, read.settings.own));
    if (made != KOY_DONE)
        fail("new", made);
    for (unsigned i = 0; i < ORDERS; i++) {
        uint8_t wanted = i % 2 == 0 ? OPEN : CLOSE;
        printf("wanted: the feeder %s\n", wanted == OPEN ? "open" : "closed");
        bring_about(wanted);
        if (feeder != wanted)
            fail("the feeder does not do what is wanted", feeder);
    }
    judge();
    return 0;
}
