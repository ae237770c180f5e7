/* Asks one question, document 01's card c1: may the user S-1-5-0-7 read this file?
 *
 * Exit code: 0 allowed, 1 answered and not allowed, 2 nothing could be printed, 3 refused.
 * To ask for something else: cc -DASKED=PIRASTEH_FILE_WRITE_DATA .. */

#include <stdio.h>

#include "pirasteh.h"

#ifndef ASKED
#define ASKED PIRASTEH_GENERIC_READ
#endif

/* The user S-1-5-0-7, without groups. */
static const uint8_t token[] = {0x01, 0x00, 0x00, 0x02, 0x05, 0x00, 0x07, 0x00};

/* Owned by S-1-5-7; its list allows S-1-5-0-7 generic read. */
static const uint8_t descriptor[] = {
    0x01, 0x00, 0x04, 0x80, 0x14, 0x00, 0x00, 0x00, 0x00, 0x00, 0x00, 0x00, 0x00, 0x00, 0x00, 0x00,
    0x20, 0x00, 0x00, 0x00, 0x01, 0x01, 0x00, 0x00, 0x00, 0x00, 0x00, 0x05, 0x07, 0x00, 0x00, 0x00,
    0x02, 0x00, 0x20, 0x00, 0x01, 0x00, 0x00, 0x00, 0x00, 0x00, 0x18, 0x00, 0x00, 0x00, 0x00, 0x80,
    0x01, 0x02, 0x00, 0x00, 0x00, 0x00, 0x00, 0x05, 0x00, 0x00, 0x00, 0x00, 0x07, 0x00, 0x00, 0x00
};

/* An empty part still needs a pointer that is not NULL. */
static const uint8_t nothing[1] = {0};

/* The short way: yes or no, and a refusal is a no. */
static int may_open(void)
{
    return pirasteh_allows(PIRASTEH_FILE, ASKED,
                           token, sizeof token,
                           nothing, 0,
                           descriptor, sizeof descriptor,
                           nothing, 0);
}

static const char *word(uint32_t flag)
{
    return flag ? "yes" : "no";
}

/* The full answer, printed. The status tells a refusal from a no; it does not say yes. */
static uint32_t show_answer(void)
{
    uint32_t granted, allowed, staged;
    uint32_t status = pirasteh_check(PIRASTEH_FILE, ASKED,
                                     token, sizeof token,
                                     nothing, 0,
                                     descriptor, sizeof descriptor,
                                     nothing, 0,
                                     &granted, &allowed, &staged);
    unsigned long number = status;
    unsigned long mask = granted;
    if (status != PIRASTEH_ANSWERED)
        printf("refused %lu\n", number);
    else
        printf("granted 0x%08lx allowed %s staged %s\n", mask, word(allowed), word(staged));
    return status;
}

int main(void)
{
    uint32_t status = show_answer();
    if (fflush(stdout) != 0 || ferror(stdout)) {
        fputs("ask: the answer could not be printed\n", stderr);
        return 2;
    }
    if (may_open())
        return 0;
    return status == PIRASTEH_ANSWERED ? 1 : 3;
}
