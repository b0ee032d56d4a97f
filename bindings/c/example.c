/* A whole order through both ends of the link: an opening and its reply, the order, its reply. Then a lost reply, which the
 * responder's held reply makes good. Prints each telegram; `run` compares it with example.out. */
#include <stdio.h>
#include <stdlib.h>
#include <string.h>

#include "koyandefa.h"

static koy_head_end head_end;
static koy_cabinet cabinet;

/* the stamps: a count that is stepped at each event will do where both ends are in one program */
static size_t events;
static size_t moment(void)
{
    return ++events;
}

/* what stands on the line; an end writes into `out` while it hears `line`, and noise may be longer than what we write */
static uint8_t line[KOY_LONGEST_TELEGRAM], out[KOY_ROOM];
static size_t line_len;

static void want(const char *what, uint8_t code, uint8_t expected)
{
    if (code != expected) {
        printf("%s: %u, %s; expected %u\n", what, (unsigned)code, koy_code_text(code), (unsigned)expected);
        exit(1);
    }
}

/* what an end wrote is on the line now; it is received in the same moment as it is heard, since the line has no queue here */
static void on_the_line(const char *who, size_t length)
{
    line_len = length;
    memcpy(line, out, line_len);
    printf("%s:", who);
    for (size_t i = 0; i < line_len; i++)
        printf(" %02X", line[i]);
    printf("\n");
}

static void head_end_sends(koy_head_end_told told)
{
    want("head end", told.code, KOY_SENT);
    on_the_line("head end", told.to_send);
}

static void cabinet_sends(koy_cabinet_told told)
{
    want("cabinet", told.code, KOY_SENT);
    on_the_line(" cabinet", told.to_send);
}

static koy_cabinet_told cabinet_hears(void)
{
    size_t now = moment();
    return koy_cabinet_hear(&cabinet, now, koy_heard_at(now, line, line_len), out, sizeof out);
}

static koy_head_end_told head_end_hears(void)
{
    size_t now = moment();
    return koy_head_end_hear(&head_end, now, koy_heard_at(now, line, line_len), out, sizeof out);
}

static koy_cabinet_told answer(size_t number, const uint8_t *reply, size_t reply_len)
{
    return koy_cabinet_answer(&cabinet, moment(), koy_answer_to(number, reply, reply_len), out, sizeof out);
}

static koy_head_end_told submit(const uint8_t *order, size_t order_len)
{
    return koy_head_end_submit(&head_end, moment(), order, order_len, out, sizeof out);
}

/* the cabinet hears an order and answers it with one byte more than it got; to an order of 246 bytes that would be refused, 9 */
static void carry_out(void)
{
    uint8_t reply[KOY_LONGEST_ORDER + 1];
    koy_cabinet_told told = cabinet_hears();
    want("cabinet", told.code, KOY_HANDED_UP);
    size_t len = told.order.length;
    memcpy(reply, told.order.bytes, len);
    reply[len] = 0x06;
    printf(" cabinet carries out %zu bytes\n", len);
    want("another order's answer", answer(told.number - 1, reply, len + 1).code, KOY_NO_REPLY_OWED);
    cabinet_sends(answer(told.number, reply, len + 1));
}

static void confirmed(void)
{
    koy_head_end_told told = head_end_hears();
    want("head end", told.code, KOY_CONFIRMED);
    printf("head end: confirmed after %u tries, reply of %zu bytes\n", (unsigned)told.tries, told.reply.length);
}

int main(void)
{
    const uint8_t open_feeder[] = {0x01, 0x03};
    const uint8_t close_feeder[] = {0x02, 0x03, 0x05};
    const char text[] = "own=2\npeer=5\ntries=2\n";

    koy_settings_told read = koy_settings_from_text(text, sizeof text - 1);
    want("settings", read.code, KOY_DONE);
    koy_settings theirs = koy_settings_own_peer(read.settings.peer, read.settings.own);
    want("new", koy_head_end_new(&head_end, moment(), read.settings), KOY_DONE);
    want("new", koy_cabinet_new(&cabinet, moment(), theirs), KOY_DONE);

    head_end_sends(submit(open_feeder, sizeof open_feeder));
    want("submit again", submit(open_feeder, sizeof open_feeder).code, KOY_ORDER_PENDING);
    cabinet_sends(cabinet_hears());
    head_end_sends(head_end_hears());
    carry_out();
    confirmed();

    head_end_sends(submit(close_feeder, sizeof close_feeder));
    carry_out();
    printf("the reply is lost\n");
    head_end_sends(koy_head_end_silence(&head_end, moment(), out, sizeof out));
    cabinet_sends(cabinet_hears());
    confirmed();
    return 0;
}
