/* Turns a packed token record into its flat listing and back, in memory.
 *
 * Exit code: 0 the same bytes came back, 1 others did, 2 nothing could be printed, 3 refused. */

#include <stdio.h>
#include <string.h>

#include "pirasteh.h"

/* A confined user with one group and one capability. */
static const uint8_t record[] = {
    0x01,                           /* version */
    PIRASTEH_TOKEN_CONFINED,        /* flags */
    0x80, 0x02,                     /* privileges: PIRASTEH_SE_SECURITY, 256 in sevens */
    0x02, 0x05, 0x00, 0x07,         /* the user, S-1-5-0-7 */
    0x01,                           /* one group: */
    0x02, 0x05, 0x20, 0xA0, 0x04,   /* S-1-5-32-544, with its attributes */
    PIRASTEH_GROUP_MANDATORY | PIRASTEH_GROUP_ENABLED_BY_DEFAULT | PIRASTEH_GROUP_ENABLED,
    0x02, 0x0F, 0x02, 0x09,         /* the confinement identity, S-1-15-2-9 */
    0x01,                           /* one capability: */
    0x02, 0x0F, 0x02, 0x02          /* S-1-15-2-2 */
};

/* Room for any result, so neither conversion is refused with 11. */
static uint8_t listing[PIRASTEH_LISTING_MAX];
static uint8_t back[PIRASTEH_RECORD_MAX];

static int refused(const char *what, uint32_t status)
{
    unsigned long number = status;
    printf("%s: refused %lu\n", what, number);
    return 3;
}

/* C90 cannot print a size_t: lengths come as unsigned long. */
static void show(unsigned long listing_len, unsigned long back_len, int same)
{
    unsigned long record_len = sizeof record;
    printf("record %lu bytes, listing %lu bytes, back %lu bytes: %s\n",
           record_len, listing_len, back_len, same ? "the same" : "not the same");
}

/* There and back. Gives the exit code. */
static int convert(void)
{
    size_t listing_len, back_len;
    int same;
    uint32_t status = pirasteh_list(record, sizeof record, listing, sizeof listing, &listing_len);
    if (status != PIRASTEH_ANSWERED)
        return refused("list", status);
    status = pirasteh_pack(listing, listing_len, back, sizeof back, &back_len);
    if (status != PIRASTEH_ANSWERED)
        return refused("pack", status);
    same = back_len == sizeof record && memcmp(back, record, back_len) == 0;
    show(listing_len, back_len, same);
    return same ? 0 : 1;
}

int main(void)
{
    int code = convert();
    if (fflush(stdout) != 0 || ferror(stdout)) {
        fputs("token: the result could not be printed\n", stderr);
        return 2;
    }
    return code;
}
