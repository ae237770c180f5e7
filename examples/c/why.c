/* Asks where rights went: a confined scanner asks a file for read data, write data, execute and
 * delete, and loses one of them at each step of the check.
 *
 * Exit code: 0 allowed, 1 answered and not allowed, 2 nothing could be printed, 3 refused.
 * To ask for something else: cc -DASKED=PIRASTEH_FILE_READ_DATA .. */

#include <stdio.h>

#include "pirasteh.h"

#ifndef ASKED
#define ASKED                                                                                      \
    (PIRASTEH_FILE_READ_DATA | PIRASTEH_FILE_WRITE_DATA | PIRASTEH_FILE_EXECUTE | PIRASTEH_DELETE)
#endif

/* The user S-1-5-0-7, confined to S-1-15-2-9, with the capability S-1-15-2-2. */
static const uint8_t token[] = {
    0x01, 0x01, 0x00, 0x02, 0x05, 0x00, 0x07, 0x00, 0x02, 0x0F, 0x02, 0x09, 0x01, 0x02, 0x0F, 0x02,
    0x02
};

/* Owned by S-1-5-7; its list allows S-1-5-0-7 read data, write data and execute, and S-1-15-2-2
 * read data and write data. */
static const uint8_t descriptor[] = {
    0x01, 0x00, 0x04, 0x80, 0x14, 0x00, 0x00, 0x00, 0x00, 0x00, 0x00, 0x00, 0x00, 0x00, 0x00, 0x00,
    0x20, 0x00, 0x00, 0x00, 0x01, 0x01, 0x00, 0x00, 0x00, 0x00, 0x00, 0x05, 0x07, 0x00, 0x00, 0x00,
    0x02, 0x00, 0x38, 0x00, 0x02, 0x00, 0x00, 0x00, 0x00, 0x00, 0x18, 0x00, 0x23, 0x00, 0x00, 0x00,
    0x01, 0x02, 0x00, 0x00, 0x00, 0x00, 0x00, 0x05, 0x00, 0x00, 0x00, 0x00, 0x07, 0x00, 0x00, 0x00,
    0x00, 0x00, 0x18, 0x00, 0x03, 0x00, 0x00, 0x00, 0x01, 0x02, 0x00, 0x00, 0x00, 0x00, 0x00, 0x0F,
    0x02, 0x00, 0x00, 0x00, 0x02, 0x00, 0x00, 0x00
};

/* One rule, whose list allows S-1-5-0-7 read data. */
static const uint8_t policy[] = {
    0x01, 0x01, 0x00, 0x00, 0x00, 0x00, 0x00, 0x00, 0x00, 0x20, 0x00, 0x00, 0x00, 0x02, 0x00, 0x20,
    0x00, 0x01, 0x00, 0x00, 0x00, 0x00, 0x00, 0x18, 0x00, 0x01, 0x00, 0x00, 0x00, 0x01, 0x02, 0x00,
    0x00, 0x00, 0x00, 0x00, 0x05, 0x00, 0x00, 0x00, 0x00, 0x07, 0x00, 0x00, 0x00, 0x00, 0x00, 0x00,
    0x00, 0x00, 0x00, 0x00, 0x00, 0x00, 0x00, 0x00, 0x00
};

/* An empty part still needs a pointer that is not NULL. */
static const uint8_t nothing[1] = {0};

static void show(const char *what, uint32_t mask)
{
    unsigned long bits = mask;
    printf("%s 0x%08lx\n", what, bits);
}

/* Each step leaves a part of what the step before it left. Gives the exit code. */
static int explain(void)
{
    uint32_t asked, normal, confined, ruled, granted, allowed, staged;
    uint32_t status = pirasteh_why(PIRASTEH_FILE, ASKED,
                                   token, sizeof token,
                                   nothing, 0,
                                   descriptor, sizeof descriptor,
                                   policy, sizeof policy,
                                   &asked, &normal, &confined, &ruled,
                                   &granted, &allowed, &staged);
    if (status != PIRASTEH_ANSWERED) {
        unsigned long number = status;
        printf("refused %lu\n", number);
        return 3;
    }
    show("asked", asked);
    show("lost at normal evaluation", asked & ~normal);
    show("lost at confinement", normal & ~confined);
    show("lost at the policy", confined & ~ruled);
    show("granted", granted);
    return allowed ? 0 : 1;
}

int main(void)
{
    int code = explain();
    if (fflush(stdout) != 0 || ferror(stdout)) {
        fputs("why: the answer could not be printed\n", stderr);
        return 2;
    }
    return code;
}
