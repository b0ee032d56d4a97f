/* Lists a stream of bytes and finds its way after noise: reads standard input in small portions, as a serial driver hands them over,
 * and prints a line for each telegram, as the lister does. Where reading is refused, one byte is passed over and the next tried; where it
 * is incomplete, the bytes are kept until more come. `run` compares what is printed with noisy_stream.out. */
#include <stdio.h>
#include <string.h>

#include "koyandefa.h"

/* a portion of the driver's */
#define PORTION ((size_t)64)

/* the bytes received and not yet used up, and the place of the first of them in the stream */
typedef struct {
    uint8_t bytes[KOY_LONGEST_TELEGRAM];
    size_t length;
    size_t place;
} stream;

/* bytes passed over, one behind the other, told in one line */
static struct {
    size_t place;
    size_t length;
    uint8_t code;
} passed;

static void tell_passed(void)
{
    if (passed.length > 0)
        printf("at=%zu passed-over=%zu, the first for refusal %u: %s\n", passed.place, passed.length, (unsigned)passed.code,
               koy_code_text(passed.code));
    passed.length = 0;
}

static void put(const char *name, size_t number)
{
    if (number == KOY_ABSENT)
        printf(" %s=-", name);
    else
        printf(" %s=%zu", name, number);
}

static void tell(size_t place, koy_telegram telegram)
{
    const char *const kinds[] = {"", "ack", "token", "data"};
    printf("at=%zu kind=%s len=%zu", place, kinds[telegram.kind], telegram.length);
    put("da", telegram.da);
    put("sa", telegram.sa);
    put("dsap", telegram.dsap);
    put("ssap", telegram.ssap);
    put("fc", telegram.fc);
    put("pdu", telegram.kind == KOY_DATA ? telegram.pdu.length : KOY_ABSENT);
    printf("\n");
}

static void drop(stream *in, size_t length)
{
    in->length -= length;
    in->place += length;
    memmove(in->bytes, in->bytes + length, in->length);
}

/* Takes every telegram from the front. What is left is incomplete: fewer than KOY_LONGEST_TELEGRAM bytes, so that there is room for more. */
static void take(stream *in)
{
    for (;;) {
        koy_telegram telegram = koy_telegram_read(in->bytes, in->length);
        if (telegram.code == KOY_INCOMPLETE)
            return;
        if (telegram.code == KOY_DONE) {
            tell_passed();
            tell(in->place, telegram);
            drop(in, telegram.length);
        } else {
            if (passed.length++ == 0) {
                passed.place = in->place;
                passed.code = telegram.code;
            }
            drop(in, 1);
        }
    }
}

int main(void)
{
    static stream in;
    size_t got;
    do {
        size_t room = sizeof in.bytes - in.length;
        got = fread(in.bytes + in.length, 1, room < PORTION ? room : PORTION, stdin);
        in.length += got;
        take(&in);
    } while (got > 0);
    /* the stream is over, or on a line: it has been idle; what is left is no telegram */
    tell_passed();
    printf("bytes=%zu tail=%zu\n", in.place + in.length, in.length);
    return ferror(stdin) != 0;
}
