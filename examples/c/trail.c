/* Who opened this result? The user S-1-5-0-7 reads a file whose audit entries, and those of the one
 * rule of the policy, want to know. Prints the answer, and a line for each event of the trail.
 *
 * Exit code: 0 allowed, 1 answered and not allowed, 2 nothing could be printed, 3 refused.
 * To ask for something else: cc -DASKED=PIRASTEH_DELETE .. To lend less room: cc -DROOM=9 .. */

#include <stdio.h>

#include "pirasteh.h"

#ifndef ASKED
#define ASKED PIRASTEH_FILE_READ_DATA
#endif

/* The user S-1-5-0-7, without groups. */
static const uint8_t token[] = {0x01, 0x00, 0x00, 0x02, 0x05, 0x00, 0x07, 0x00};

/* Owned by S-1-5-7. Its list allows S-1-5-0-7 read data and write data. Its SACL has two audit
 * entries for S-1-5-0-7: failure at anything, and success in reading data. */
static const uint8_t descriptor[] = {
    0x01, 0x00, 0x14, 0x80, 0x14, 0x00, 0x00, 0x00, 0x00, 0x00, 0x00, 0x00, 0x20, 0x00, 0x00, 0x00,
    0x58, 0x00, 0x00, 0x00, 0x01, 0x01, 0x00, 0x00, 0x00, 0x00, 0x00, 0x05, 0x07, 0x00, 0x00, 0x00,
    0x02, 0x00, 0x38, 0x00, 0x02, 0x00, 0x00, 0x00, 0x02, 0x80, 0x18, 0x00, 0x00, 0x00, 0x00, 0x10,
    0x01, 0x02, 0x00, 0x00, 0x00, 0x00, 0x00, 0x05, 0x00, 0x00, 0x00, 0x00, 0x07, 0x00, 0x00, 0x00,
    0x02, 0x40, 0x18, 0x00, 0x01, 0x00, 0x00, 0x00, 0x01, 0x02, 0x00, 0x00, 0x00, 0x00, 0x00, 0x05,
    0x00, 0x00, 0x00, 0x00, 0x07, 0x00, 0x00, 0x00, 0x02, 0x00, 0x20, 0x00, 0x01, 0x00, 0x00, 0x00,
    0x00, 0x00, 0x18, 0x00, 0x03, 0x00, 0x00, 0x00, 0x01, 0x02, 0x00, 0x00, 0x00, 0x00, 0x00, 0x05,
    0x00, 0x00, 0x00, 0x00, 0x07, 0x00, 0x00, 0x00
};

/* One rule, whose list allows S-1-5-0-7 generic read. Its SACL has an audit entry for S-1-5-0-7:
 * success and failure, at anything. */
static const uint8_t policy[] = {
    0x01, 0x01, 0x00, 0x00, 0x00, 0x00, 0x00, 0x00, 0x00, 0x20, 0x00, 0x00, 0x00, 0x02, 0x00, 0x20,
    0x00, 0x01, 0x00, 0x00, 0x00, 0x00, 0x00, 0x18, 0x00, 0x00, 0x00, 0x00, 0x80, 0x01, 0x02, 0x00,
    0x00, 0x00, 0x00, 0x00, 0x05, 0x00, 0x00, 0x00, 0x00, 0x07, 0x00, 0x00, 0x00, 0x20, 0x00, 0x00,
    0x00, 0x02, 0x00, 0x20, 0x00, 0x01, 0x00, 0x00, 0x00, 0x02, 0xC0, 0x18, 0x00, 0x00, 0x00, 0x00,
    0x10, 0x01, 0x02, 0x00, 0x00, 0x00, 0x00, 0x00, 0x05, 0x00, 0x00, 0x00, 0x00, 0x07, 0x00, 0x00,
    0x00, 0x00, 0x00, 0x00, 0x00, 0x00, 0x00, 0x00, 0x00
};

/* An empty part still needs a pointer that is not NULL. */
static const uint8_t nothing[1] = {0};

/* This much is enough for any trail of these two. */
#ifndef ROOM
#define ROOM PIRASTEH_TRAIL_BOUND(sizeof descriptor, sizeof policy)
#endif

static uint8_t trail[ROOM];

/* A number in sevens, as the library wrote it: it ends, and fits 32 bits. */
static unsigned long take_number(const uint8_t **at)
{
    unsigned long number = 0;
    unsigned long byte;
    unsigned shift = 0;
    do {
        byte = *(*at)++;
        number |= (byte & 0x7Fu) << shift;
        shift += 7;
    } while (byte >= 0x80);
    return number;
}

static const char *word(uint32_t flag)
{
    return flag ? "yes" : "no";
}

static void show_events(size_t length)
{
    const uint8_t *at = trail;
    while (at < trail + length) {
        unsigned long source = take_number(&at);
        unsigned long entry = take_number(&at);
        unsigned long mask = take_number(&at);
        printf("event source %lu entry %lu mask 0x%08lx\n", source, entry, mask);
    }
}

/* Gives the exit code. */
static int ask(void)
{
    size_t written;
    uint32_t granted, allowed, staged;
    uint32_t status = pirasteh_trail(PIRASTEH_FILE, ASKED,
                                     token, sizeof token,
                                     nothing, 0,
                                     descriptor, sizeof descriptor,
                                     policy, sizeof policy,
                                     trail, sizeof trail, &written,
                                     &granted, &allowed, &staged);
    unsigned long bits = granted;
    if (status != PIRASTEH_ANSWERED) {
        unsigned long number = status;
        printf("refused %lu\n", number);
        return 3;
    }
    printf("granted 0x%08lx allowed %s staged %s\n", bits, word(allowed), word(staged));
    show_events(written);
    return allowed ? 0 : 1;
}

int main(void)
{
    int code = ask();
    if (fflush(stdout) != 0 || ferror(stdout)) {
        fputs("trail: the answer could not be printed\n", stderr);
        return 2;
    }
    return code;
}
