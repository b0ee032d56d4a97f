/* Counts the instructions of koy_read and of koy_read_strict and the stack that they take, by going through each call one instruction at a time
   (stack.c): for machines on which valgrind cannot run the library. The cases are those of telegrams.rs, under the same names, those that
   strict mode refuses, and then every function code. */
#include <stddef.h>
#include <stdint.h>
#include <stdio.h>

uint8_t koy_read(const uint8_t *bytes, size_t len, size_t told[9]);
uint8_t koy_read_strict(const uint8_t *bytes, size_t len, size_t told[9]);
uint8_t koy_write_data(uint8_t da, uint8_t sa, size_t dsap, size_t ssap, uint8_t fc, const uint8_t *pdu, size_t pdu_len, uint8_t *buf,
                       size_t buf_len, size_t told[2]);
size_t deepest_stack(uintptr_t entry, void (*call)(void *), void *with);
unsigned long steps_taken(void);

enum { ABSENT = 256, SRD_LOW = 0x5C, LONGEST = 255 };

/* the reader that is counted, and its name */
static uint8_t (*reader)(const uint8_t *, size_t, size_t *) = koy_read;
static const char *reader_name = "read";

struct reading {
    const uint8_t *bytes;
    size_t len;
    uint8_t code;
    size_t stack;
};

static void call(void *with)
{
    struct reading *reading = with;
    size_t told[9];
    reading->code = reader(reading->bytes, reading->len, told);
}

static struct reading counted(const uint8_t *bytes, size_t len)
{
    struct reading reading = {.bytes = bytes, .len = len};
    reading.stack = deepest_stack((uintptr_t)reader, call, &reading);
    return reading;
}

static void read_case(const char *name, const uint8_t *bytes, size_t len)
{
    struct reading reading = counted(bytes, len);
    printf("case=%s-%s ours=%lu stack=%zu code=%u\n", reader_name, name, steps_taken(), reading.stack, reading.code);
}

static void read_sized(const char *name, size_t pdu_len, const uint8_t *bytes, size_t len)
{
    char sized[64];
    snprintf(sized, sizeof sized, "%s-pdu-%zu", name, pdu_len);
    read_case(sized, bytes, len);
}

static size_t telegram(size_t dsap, size_t ssap, size_t pdu_len, uint8_t buf[LONGEST])
{
    uint8_t pdu[LONGEST];
    size_t told[2] = {0, 0};
    for (size_t i = 0; i < pdu_len; i++)
        pdu[i] = (uint8_t)(i * 37 + 11);
    koy_write_data(5, 2, dsap, ssap, SRD_LOW, pdu, pdu_len, buf, LONGEST, told);
    return told[0];
}

static void whole(void)
{
    static const size_t lengths[] = {0, 2, 8, 32, 246}, with_saps[] = {2, 32};
    uint8_t buf[LONGEST];
    read_case("confirmation", (const uint8_t[]){0xE5}, 1);
    read_case("token", (const uint8_t[]){0xDC, 5, 2}, 3);
    for (int i = 0; i < 5; i++)
        read_sized("data", lengths[i], buf, telegram(ABSENT, ABSENT, lengths[i], buf));
    for (int i = 0; i < 2; i++)
        read_sized("data-saps", with_saps[i], buf, telegram(60, 62, with_saps[i], buf));
}

static void incomplete(void)
{
    uint8_t buf[LONGEST];
    telegram(ABSENT, ABSENT, 32, buf);
    read_case("nothing", buf, 0);
    read_case("incomplete-5", (const uint8_t[]){0x68, 5, 5, 0x68, 5}, 5);
    read_case("incomplete-8", buf, 8);
}

static void refused(void)
{
    static const size_t lengths[] = {2, 32, 246};
    static const uint8_t zeros[12];
    uint8_t buf[LONGEST];
    size_t len;
    read_case("refused-1", zeros, sizeof zeros);
    read_case("refused-2", (const uint8_t[]){0x68, 3, 4, 0, 0, 0}, 6);
    read_case("refused-3", (const uint8_t[]){0x68, 2, 2, 0, 0, 0}, 6);
    len = telegram(ABSENT, ABSENT, 32, buf);
    buf[6] = 0x41;
    read_sized("refused-4", 32, buf, len);
    read_case("refused-5", (const uint8_t[]){0x10, 0x85, 2, 0x49, 0xD0, 0x16}, 6);
    for (size_t number = 6; number <= 7; number++)
        for (int i = 0; i < 3; i++) {
            len = telegram(ABSENT, ABSENT, lengths[i], buf);
            buf[len - 8 + number] ^= 1;
            read_sized(number == 6 ? "refused-6" : "refused-7", lengths[i], buf, len);
        }
}

/* What koy_read reads, or waits for, and strict mode refuses. */
static void sloppy(void)
{
    uint8_t buf[LONGEST];
    size_t len = telegram(ABSENT, ABSENT, 32, buf);
    read_case("sloppy-length-250", (const uint8_t[]){0x68, 0xFA, 0xFA, 0x68, 0, 0}, 6);
    read_case("sloppy-length-3", (const uint8_t[]){0x68, 3, 3, 0x68, 5, 2, 0x49, 0x50, 0x16}, 9);
    buf[3] = 0;
    read_sized("sloppy-fourth", 32, buf, len);
}

enum kind { REQUEST, RESPONSE, NONE };

/* The telegrams of six bytes with each function code of a kind. */
static void codes(const char *name, enum kind wanted)
{
    unsigned long least = ~0UL, most = 0, all = 0, count = 0;
    for (unsigned b = 0; b < 256; b++) {
        const uint8_t bytes[6] = {0x10, 5, 2, (uint8_t)b, (uint8_t)(7 + b), 0x16};
        struct reading reading = counted(bytes, sizeof bytes);
        enum kind is = reading.code != 0 ? NONE : b / 64 % 2 == 1 ? REQUEST : RESPONSE;
        unsigned long steps = steps_taken();
        if (is != wanted)
            continue;
        least = steps < least ? steps : least;
        most = steps > most ? steps : most;
        all += steps;
        count++;
    }
    printf("codes=%s bytes=%lu mean=%.1f least=%lu most=%lu\n", name, count, (double)all / (double)count, least, most);
}

static void cases(void)
{
    whole();
    incomplete();
    refused();
    sloppy();
}

int main(void)
{
    cases();
    codes("requests", REQUEST);
    codes("responses", RESPONSE);
    codes("none", NONE);
    reader = koy_read_strict;
    reader_name = "read-strict";
    cases();
    return 0;
}
