/* Runs vector files through the library's C functions.
 *
 *     vectors FILE..
 *
 * tests/README.md has the form of the files; whatever does not have it is a failure. A question
 * goes through pirasteh_question, pirasteh_why_question and pirasteh_trail_question as it is, and
 * through pirasteh_check, pirasteh_why, pirasteh_allows and pirasteh_trail in the parts that a reader
 * of this program's own finds in it. Trails are written into rooms of several sizes. So is a
 * conversion, which goes both ways. The exit code is 0 only if there was a case and nothing failed.
 *
 * Inputs and rooms are exactly as long as they are said to be, so that a memory checker sees a
 * byte too far. A sanitizer sees it in this program and in the C library only, since the archive
 * is not compiled with it; valgrind sees it in the archive too. */

#include <stdio.h>
#include <stdlib.h>
#include <string.h>

#include "pirasteh.h"

/* A cast that both languages take without a warning. */
#ifdef __cplusplus
#define AS(type, value) static_cast<type>(value)
#else
#define AS(type, value) ((type)(value))
#endif

/* What stands in words and rooms before a call. */
#define RUBBISH_WORD 0x5A5A5A5Au
#define RUBBISH_BYTE 0x5A

/* ---- bytes ---- */

struct view {
    const uint8_t *at;
    size_t length;
};

struct bytes {
    void *room; /* to be freed */
    uint8_t *at;
    size_t length;
};

static void *room_of(size_t length)
{
    void *room = malloc(length);
    if (!room) {
        fputs("vectors: out of memory\n", stderr);
        exit(1);
    }
    return room;
}

/* So many bytes and none behind them. If there are none, the pointer is past a room of one. */
static struct bytes make_bytes(size_t length)
{
    struct bytes made;
    made.room = room_of(length ? length : 1);
    made.at = AS(uint8_t *, made.room);
    made.length = length;
    if (length == 0)
        made.at++;
    return made;
}

static struct bytes rubbish_bytes(size_t length)
{
    struct bytes made = make_bytes(length);
    memset(made.at, RUBBISH_BYTE, length);
    return made;
}

static struct bytes copy_of(struct view view)
{
    struct bytes made = make_bytes(view.length);
    memcpy(made.at, view.at, view.length);
    return made;
}

static struct view view_of(const struct bytes *bytes)
{
    struct view view;
    view.at = bytes->at;
    view.length = bytes->length;
    return view;
}

static int same(struct view a, struct view b)
{
    return a.length == b.length && memcmp(a.at, b.at, a.length) == 0;
}

/* From a place on there is nothing but rubbish. */
static int untouched_from(const struct bytes *out, size_t place)
{
    for (; place < out->length; place++)
        if (out->at[place] != RUBBISH_BYTE)
            return 0;
    return 1;
}

/* Frees the copy that was lent. 1 if it is still what it was a copy of. */
static int give_back(struct bytes *lent, struct view original)
{
    int unchanged = same(view_of(lent), original);
    free(lent->room);
    return unchanged;
}

/* ---- cases, and what is said of them ---- */

/* Lines up to a blank one: `#` lines, then two fields to four. */
struct block {
    const char *file;
    unsigned long line; /* its first, 0 if there is none yet */
    const char *reason;
    int broken;
    int fields;
    const char *name[4];
    const char *value[4];
};

struct answer {
    uint32_t status, granted, allowed, staged;
};

/* An answer, and the way there: what was asked, and what each step left of it. */
struct why {
    struct answer answer;
    uint32_t kind, asked, normal, confined, ruled;
};

static int failed(const struct block *block, const char *what)
{
    printf("FAILED %s:%lu: %s\n  %s\n", block->file, block->line, block->reason, what);
    return 0;
}

static void print_answer(const char *before, const struct answer *answer)
{
    unsigned long status = answer->status;
    unsigned long granted = answer->granted;
    unsigned long allowed = answer->allowed;
    unsigned long staged = answer->staged;
    printf("  %s status %lu granted 0x%08lx allowed %lu staged %lu\n", before, status, granted,
           allowed, staged);
}

static int answers(const struct block *block, const char *who, const struct answer *said,
                   const struct answer *expected)
{
    if (said->status == expected->status && said->granted == expected->granted &&
        said->allowed == expected->allowed && said->staged == expected->staged)
        return 1;
    failed(block, who);
    print_answer("said    ", said);
    print_answer("expected", expected);
    return 0;
}

static void print_why(const char *before, const struct why *why)
{
    unsigned long kind = why->kind;
    unsigned long asked = why->asked;
    unsigned long normal = why->normal;
    unsigned long confined = why->confined;
    unsigned long ruled = why->ruled;
    print_answer(before, &why->answer);
    printf("  %s kind %lu asked 0x%08lx normal 0x%08lx confined 0x%08lx ruled 0x%08lx\n", before,
           kind, asked, normal, confined, ruled);
}

static int explains(const struct block *block, const char *who, const struct why *said,
                    const struct why *expected)
{
    if (said->answer.status == expected->answer.status &&
        said->answer.granted == expected->answer.granted &&
        said->answer.allowed == expected->answer.allowed &&
        said->answer.staged == expected->answer.staged && said->kind == expected->kind &&
        said->asked == expected->asked && said->normal == expected->normal &&
        said->confined == expected->confined && said->ruled == expected->ruled)
        return 1;
    failed(block, who);
    print_why("said    ", said);
    print_why("expected", expected);
    return 0;
}

/* ---- values of fields ---- */

/* 16 if it is no digit. */
static uint32_t hex_digit(char c)
{
    static const char digits[] = "0123456789abcdef";
    uint32_t value = 0;
    while (value < 16 && digits[value] != c)
        value++;
    return value;
}

static int hex_byte(const char *text, uint8_t *byte)
{
    uint32_t high = hex_digit(text[0]);
    uint32_t low = hex_digit(text[1]);
    *byte = AS(uint8_t, (high << 4 | low) & 0xFFu);
    return high < 16 && low < 16;
}

/* Pairs of digits and nothing else. What was made is to be freed if the answer is 1. */
static int decode(const char *text, struct bytes *made)
{
    size_t digits = strlen(text);
    size_t i;
    if (digits % 2 != 0)
        return 0;
    *made = make_bytes(digits / 2);
    for (i = 0; i < made->length; i++) {
        if (!hex_byte(text + 2 * i, made->at + i)) {
            free(made->room);
            return 0;
        }
    }
    return 1;
}

static int starts(const char *text, const char *start)
{
    return strncmp(text, start, strlen(start)) == 0;
}

/* What follows `refused `: a number of 1 to 12, but for 11, which is given by a room's length. */
static int parse_refusal(const char *text, struct answer *expected)
{
    static const char *const numbers[] = {"1", "2", "3", "4",  "5",  "6",
                                          "7", "8", "9", "10", "11", "12"};
    uint32_t i;
    for (i = 0; i < 12; i++) {
        if (strcmp(text, numbers[i]) == 0) {
            expected->status = i + 1;
            return expected->status != PIRASTEH_SHORT_BUFFER;
        }
    }
    return 0;
}

static int parse_flags(const char *text, struct answer *expected)
{
    static const char *const flags[] = {" allowed no staged no", " allowed yes staged no",
                                        " allowed no staged yes", " allowed yes staged yes"};
    uint32_t i;
    for (i = 0; i < 4; i++) {
        if (strcmp(text, flags[i]) == 0) {
            expected->allowed = i & 1u;
            expected->staged = i >> 1;
            return 1;
        }
    }
    return 0;
}

/* Eight digits. */
static int parse_word(const char *text, uint32_t *word)
{
    int i;
    *word = 0;
    for (i = 0; i < 8; i++, text++) {
        uint32_t digit = hex_digit(*text);
        if (digit == 16)
            return 0;
        *word = *word << 4 | digit;
    }
    return 1;
}

/* What follows `granted 0x`: eight digits, then the flags. */
static int parse_granted(const char *text, struct answer *expected)
{
    return parse_word(text, &expected->granted) && parse_flags(text + 8, expected);
}

/* Four masks with a space between them, of which the last is the granted one. */
static int parse_masks(const char *text, struct why *expected)
{
    uint32_t mask[4];
    int i;
    for (i = 0; i < 4; i++, text += strlen("0x") + 8) {
        if (i > 0 && *text++ != ' ')
            return 0;
        if (!starts(text, "0x") || !parse_word(text + strlen("0x"), &mask[i]))
            return 0;
    }
    expected->normal = mask[0];
    expected->confined = mask[1];
    expected->ruled = mask[2];
    return *text == 0 && mask[3] == expected->answer.granted;
}

static int parse_line(const char *text, struct answer *expected)
{
    memset(expected, 0, sizeof *expected);
    if (starts(text, "refused "))
        return parse_refusal(text + strlen("refused "), expected);
    if (starts(text, "granted 0x"))
        return parse_granted(text + strlen("granted 0x"), expected);
    return 0;
}

/* ---- the question file, read by hand ---- */

struct question {
    uint32_t kind, mask;
    struct view part[4]; /* token, self identity, descriptor, policy */
};

/* A number in sevens, of 32 bits, in its shortest form. */
static int take_number(struct view *rest, uint32_t *number)
{
    uint32_t value = 0;
    unsigned shift;
    for (shift = 0; shift <= 28 && rest->length > 0; shift += 7) {
        uint32_t byte = *rest->at;
        rest->at++;
        rest->length--;
        if (shift == 28 && byte > 0x0F)
            return 0; /* more than 32 bits */
        value |= (byte & 0x7Fu) << shift;
        *number = value;
        if (byte < 0x80)
            return shift == 0 || byte != 0; /* a last 0 is not the shortest form */
    }
    return 0;
}

static int take_part(struct view *rest, struct view *part)
{
    uint32_t length;
    if (!take_number(rest, &length) || length > rest->length)
        return 0;
    part->at = rest->at;
    part->length = length;
    rest->at += length;
    rest->length -= length;
    return 1;
}

static int read_question(struct view file, struct question *question)
{
    int i;
    if (file.length > PIRASTEH_QUESTION_MAX)
        return 0;
    if (!take_number(&file, &question->kind) || !take_number(&file, &question->mask))
        return 0;
    for (i = 0; i < 4; i++)
        if (!take_part(&file, &question->part[i]))
            return 0;
    return file.length == 0;
}

/* The bits that a question asks for: generic bits mapped, and all for the maximum. */
static uint32_t asked_of(uint32_t kind, uint32_t mask)
{
    static const uint32_t bit[] = {PIRASTEH_GENERIC_READ, PIRASTEH_GENERIC_WRITE,
                                   PIRASTEH_GENERIC_EXECUTE, PIRASTEH_GENERIC_ALL,
                                   PIRASTEH_MAXIMUM_ALLOWED};
    static const uint32_t file[] = {PIRASTEH_FILE_GENERIC_READ, PIRASTEH_FILE_GENERIC_WRITE,
                                    PIRASTEH_FILE_GENERIC_EXECUTE, PIRASTEH_FILE_ALL_ACCESS,
                                    PIRASTEH_FILE_ALL_ACCESS};
    static const uint32_t key[] = {PIRASTEH_KEY_READ, PIRASTEH_KEY_WRITE, PIRASTEH_KEY_EXECUTE,
                                   PIRASTEH_KEY_ALL_ACCESS, PIRASTEH_KEY_ALL_ACCESS};
    uint32_t asked = mask;
    int i;
    for (i = 0; i < 5; i++) {
        if (mask & bit[i])
            asked = (asked & ~bit[i]) | (kind == PIRASTEH_FILE ? file[i] : key[i]);
    }
    return asked;
}

/* ---- questions ---- */

static struct answer rubbish_answer(void)
{
    struct answer answer;
    answer.status = answer.granted = answer.allowed = answer.staged = RUBBISH_WORD;
    return answer;
}

static struct why rubbish_why(void)
{
    struct why why;
    why.answer = rubbish_answer();
    why.kind = why.asked = why.normal = why.confined = why.ruled = RUBBISH_WORD;
    return why;
}

static struct answer call_question(const struct bytes *file)
{
    struct answer said = rubbish_answer();
    said.status = pirasteh_question(file->at, file->length,
                                    &said.granted, &said.allowed, &said.staged);
    return said;
}

static struct answer call_check(const struct question *question, const struct bytes *part)
{
    struct answer said = rubbish_answer();
    said.status = pirasteh_check(question->kind, question->mask,
                                 part[0].at, part[0].length, part[1].at, part[1].length,
                                 part[2].at, part[2].length, part[3].at, part[3].length,
                                 &said.granted, &said.allowed, &said.staged);
    return said;
}

static struct why call_why_question(const struct bytes *file)
{
    struct why said = rubbish_why();
    said.answer.status = pirasteh_why_question(file->at, file->length, &said.kind, &said.asked,
                                               &said.normal, &said.confined, &said.ruled,
                                               &said.answer.granted, &said.answer.allowed,
                                               &said.answer.staged);
    return said;
}

/* It does not tell the kind. */
static struct why call_why(const struct question *question, const struct bytes *part)
{
    struct why said = rubbish_why();
    said.answer.status = pirasteh_why(question->kind, question->mask,
                                      part[0].at, part[0].length, part[1].at, part[1].length,
                                      part[2].at, part[2].length, part[3].at, part[3].length,
                                      &said.asked, &said.normal, &said.confined, &said.ruled,
                                      &said.answer.granted, &said.answer.allowed,
                                      &said.answer.staged);
    return said;
}

static int call_allows(const struct question *question, const struct bytes *part)
{
    return pirasteh_allows(question->kind, question->mask,
                           part[0].at, part[0].length, part[1].at, part[1].length,
                           part[2].at, part[2].length, part[3].at, part[3].length);
}

/* The room of a trail has guards before and behind it. */
#define GUARD 16

static struct bytes guarded_bytes(size_t length)
{
    struct bytes made = rubbish_bytes(length + 2 * GUARD);
    made.at += GUARD;
    made.length = length;
    return made;
}

static int guards_hold(const struct bytes *out)
{
    struct bytes all = *out;
    int i;
    for (i = 1; i <= GUARD; i++)
        if (out->at[-i] != RUBBISH_BYTE)
            return 0;
    all.length += GUARD;
    return untouched_from(&all, out->length);
}

/* What is wrong with a trail, or "". */
static const char *wrong_trail(size_t written, struct view trail, const struct bytes *out)
{
    if (written != trail.length)
        return "the trail has another length";
    if (memcmp(out->at, trail.at, written) != 0)
        return "the trail has other bytes";
    if (!untouched_from(out, written))
        return "bytes behind the trail were written";
    if (!guards_hold(out))
        return "bytes beside the room were written";
    return "";
}

/* A question as it is lent: the whole file, or its four parts. */
struct lent_question {
    int in_parts;
    uint32_t kind, mask; /* of a question in parts */
    const struct bytes *in;
};

static struct answer call_trail(const struct lent_question *lent, const struct bytes *out,
                                size_t *written)
{
    const struct bytes *in = lent->in;
    struct answer said = rubbish_answer();
    if (lent->in_parts)
        said.status = pirasteh_trail(lent->kind, lent->mask,
                                     in[0].at, in[0].length, in[1].at, in[1].length,
                                     in[2].at, in[2].length, in[3].at, in[3].length,
                                     out->at, out->length, written,
                                     &said.granted, &said.allowed, &said.staged);
    else
        said.status = pirasteh_trail_question(in->at, in->length, out->at, out->length, written,
                                              &said.granted, &said.allowed, &said.staged);
    return said;
}

static void print_room(size_t room, size_t written)
{
    printf("  with a room of %lu bytes, where the length is %lu\n", AS(unsigned long, room),
           AS(unsigned long, written));
}

/* Into a room of this size. If that is too short nothing is said but that. */
static int tells(const struct block *block, const struct lent_question *lent, size_t room,
                 const struct answer *expected, struct view trail)
{
    const char *who = lent->in_parts ? "pirasteh_trail" : "pirasteh_trail_question";
    struct bytes out = guarded_bytes(room);
    size_t written = RUBBISH_WORD;
    struct answer said = call_trail(lent, &out, &written);
    struct answer too_short;
    const char *wrong;
    if (trail.length > room) {
        memset(&too_short, 0, sizeof too_short);
        too_short.status = PIRASTEH_SHORT_BUFFER;
        expected = &too_short;
        trail.length = 0;
    }
    wrong = wrong_trail(written, trail, &out);
    free(out.room);
    if (*wrong != 0)
        failed(block, wrong);
    if (answers(block, who, &said, expected) && *wrong == 0)
        return 1;
    print_room(room, written);
    return 0;
}

/* Exact room, a byte more and a byte less, none, and as much as any such question needs. */
static int tells_in_rooms(const struct block *block, const struct lent_question *lent, size_t most,
                          const struct answer *expected, struct view trail)
{
    if (trail.length > most)
        return failed(block, "malformed: no trail can have this length");
    return tells(block, lent, trail.length, expected, trail) &&
           tells(block, lent, trail.length + 1, expected, trail) &&
           tells(block, lent, most, expected, trail) && tells(block, lent, 0, expected, trail) &&
           (trail.length == 0 || tells(block, lent, trail.length - 1, expected, trail));
}

static int tell_whole(const struct block *block, struct view file, const struct answer *expected,
                      struct view trail)
{
    struct bytes copy = copy_of(file);
    struct lent_question lent;
    int fine;
    memset(&lent, 0, sizeof lent);
    lent.in = &copy;
    fine = tells_in_rooms(block, &lent, PIRASTEH_TRAIL_QUESTION_MAX, expected, trail);
    if (!give_back(&copy, file))
        return failed(block, "pirasteh_trail_question changed its input");
    return fine;
}

static int ask_whole(const struct block *block, struct view file, const struct answer *expected)
{
    struct bytes lent = copy_of(file);
    struct answer said = call_question(&lent);
    if (!give_back(&lent, file))
        return failed(block, "pirasteh_question changed its input");
    return answers(block, "pirasteh_question", &said, expected);
}

static int explain_whole(const struct block *block, struct view file, const struct why *expected)
{
    struct bytes lent = copy_of(file);
    struct why said = call_why_question(&lent);
    if (!give_back(&lent, file))
        return failed(block, "pirasteh_why_question changed its input");
    return explains(block, "pirasteh_why_question", &said, expected);
}

static void lend_parts(struct bytes *lent, const struct question *question)
{
    int i;
    for (i = 0; i < 4; i++)
        lent[i] = copy_of(question->part[i]);
}

static int give_parts_back(struct bytes *lent, const struct question *question)
{
    int unchanged = 1;
    int i;
    for (i = 0; i < 4; i++)
        unchanged &= give_back(&lent[i], question->part[i]);
    return unchanged;
}

static int check_parts(const struct block *block, const struct question *question,
                       const struct answer *expected)
{
    struct bytes lent[4];
    struct answer said;
    lend_parts(lent, question);
    said = call_check(question, lent);
    if (!give_parts_back(lent, question))
        return failed(block, "pirasteh_check changed its input");
    return answers(block, "pirasteh_check", &said, expected);
}

static int explain_parts(const struct block *block, const struct question *question,
                         const struct why *expected)
{
    struct bytes lent[4];
    struct why said;
    lend_parts(lent, question);
    said = call_why(question, lent);
    said.kind = expected->kind;
    if (!give_parts_back(lent, question))
        return failed(block, "pirasteh_why changed its input");
    return explains(block, "pirasteh_why", &said, expected);
}

static int allow_parts(const struct block *block, const struct question *question,
                       const struct answer *expected)
{
    int expected_yes = expected->status == PIRASTEH_ANSWERED && expected->allowed == 1;
    struct bytes lent[4];
    int yes;
    lend_parts(lent, question);
    yes = call_allows(question, lent);
    if (!give_parts_back(lent, question))
        return failed(block, "pirasteh_allows changed its input");
    if (yes != expected_yes)
        return failed(block, yes ? "pirasteh_allows says yes" : "pirasteh_allows says no");
    return 1;
}

static int tell_parts(const struct block *block, const struct question *question,
                      const struct answer *expected, struct view trail)
{
    size_t most = PIRASTEH_TRAIL_BOUND(question->part[2].length, question->part[3].length);
    struct bytes copies[4];
    struct lent_question lent;
    int fine;
    lend_parts(copies, question);
    lent.in_parts = 1;
    lent.kind = question->kind;
    lent.mask = question->mask;
    lent.in = copies;
    fine = tells_in_rooms(block, &lent, most, expected, trail);
    if (!give_parts_back(copies, question))
        return failed(block, "pirasteh_trail changed its input");
    return fine;
}

static int ask_parts(const struct block *block, const struct question *question,
                     const struct why *expected, struct view trail)
{
    return check_parts(block, question, &expected->answer) &&
           explain_parts(block, question, expected) &&
           allow_parts(block, question, &expected->answer) &&
           tell_parts(block, question, &expected->answer, trail);
}

static int ask_both(const struct block *block, struct view file, struct why *expected,
                    struct view trail)
{
    struct question question;
    int readable = read_question(file, &question);
    if (readable && expected->answer.status == PIRASTEH_ANSWERED) {
        expected->kind = question.kind;
        expected->asked = asked_of(question.kind, question.mask);
    }
    if (!ask_whole(block, file, &expected->answer) || !explain_whole(block, file, expected) ||
        !tell_whole(block, file, &expected->answer, trail))
        return 0;
    if (expected->answer.status == PIRASTEH_FILE_SHAPE)
        return readable ? failed(block, "12 is expected, but the file can be read") : 1;
    if (!readable)
        return failed(block, "12 is not expected, but the file cannot be read");
    return ask_parts(block, &question, expected, trail);
}

/* An answer has masks, and a refusal has none: all of its words are 0. */
static int parse_expected(const struct block *block, struct why *expected)
{
    memset(expected, 0, sizeof *expected);
    if (!parse_line(block->value[1], &expected->answer))
        return failed(block, "malformed: `line` is neither an answer nor a refusal");
    if ((expected->answer.status == PIRASTEH_ANSWERED) != (block->fields >= 3))
        return failed(block, "malformed: an answer without `masks`, or a refusal with them");
    if (block->fields >= 3 && !parse_masks(block->value[2], expected))
        return failed(block, "malformed: `masks` is not four masks, the last of them granted");
    return 1;
}

/* Without the field there are no events. What was made is to be freed if the answer is 1. */
static int parse_trail(const struct block *block, struct bytes *trail)
{
    if (block->fields == 4 && *block->value[3] == 0)
        return failed(block, "malformed: a `trail` without events");
    if (!decode(block->fields == 4 ? block->value[3] : "", trail))
        return failed(block, "malformed: `trail` is not pairs of hexadecimal digits");
    return 1;
}

static int run_ask(const struct block *block)
{
    struct why expected;
    struct bytes file, trail;
    int fine;
    if (!parse_expected(block, &expected) || !parse_trail(block, &trail))
        return 0;
    if (!decode(block->value[0], &file)) {
        free(trail.room);
        return failed(block, "malformed: `ask` is not pairs of hexadecimal digits");
    }
    fine = ask_both(block, view_of(&file), &expected, view_of(&trail));
    free(file.room);
    free(trail.room);
    return fine;
}

/* ---- conversions ---- */

enum way { LIST, PACK };

static const char *const way_names[] = {"pirasteh_list", "pirasteh_pack"};

/* Room for any result, as the header has it. */
static const size_t way_rooms[] = {PIRASTEH_LISTING_MAX, PIRASTEH_RECORD_MAX};

static uint32_t call_way(enum way way, const struct bytes *in, struct bytes *out, size_t *written)
{
    if (way == LIST)
        return pirasteh_list(in->at, in->length, out->at, out->length, written);
    return pirasteh_pack(in->at, in->length, out->at, out->length, written);
}

/* What is wrong with a conversion, or "". */
static const char *wrong_conversion(uint32_t status, uint32_t expected, size_t written,
                                    struct view result, const struct bytes *out)
{
    if (status != expected)
        return "another status";
    if (written != result.length || written > out->length)
        return "another length";
    if (memcmp(out->at, result.at, written) != 0)
        return "other bytes";
    if (!untouched_from(out, written))
        return "bytes behind the result were written";
    return "";
}

static void print_conversion(const char *name, size_t room, uint32_t status, uint32_t expected,
                             size_t written)
{
    unsigned long numbers[4];
    numbers[0] = AS(unsigned long, room);
    numbers[1] = status;
    numbers[2] = expected;
    numbers[3] = AS(unsigned long, written);
    printf("  %s into a room of %lu: status %lu, expected %lu; length %lu\n", name, numbers[0],
           numbers[1], numbers[2], numbers[3]);
}

/* One conversion into a room of this size. A refusal has an empty result. */
static int converts(const struct block *block, enum way way, struct view in, size_t room,
                    uint32_t expected, struct view result)
{
    struct bytes lent = copy_of(in);
    struct bytes out = rubbish_bytes(room);
    size_t written = RUBBISH_WORD;
    uint32_t status = call_way(way, &lent, &out, &written);
    const char *wrong = wrong_conversion(status, expected, written, result, &out);
    free(out.room);
    if (!give_back(&lent, in))
        wrong = "the input was changed";
    if (*wrong == 0)
        return 1;
    failed(block, wrong);
    print_conversion(way_names[way], room, status, expected, written);
    return 0;
}

/* Exact room, ample room, and a byte too little. */
static int converts_in_rooms(const struct block *block, enum way way, struct view in,
                             struct view result)
{
    struct view none;
    none.at = result.at;
    none.length = 0;
    if (result.length == 0 || result.length >= way_rooms[way])
        return failed(block, "malformed: no result can have this length");
    return converts(block, way, in, result.length, PIRASTEH_ANSWERED, result) &&
           converts(block, way, in, way_rooms[way], PIRASTEH_ANSWERED, result) &&
           converts(block, way, in, result.length - 1, PIRASTEH_SHORT_BUFFER, none);
}

static int run_conversion(const struct block *block)
{
    struct bytes record, listing;
    int fine;
    if (!decode(block->value[0], &record))
        return failed(block, "malformed: `record` is not pairs of hexadecimal digits");
    if (!decode(block->value[1], &listing)) {
        free(record.room);
        return failed(block, "malformed: `listing` is not pairs of hexadecimal digits");
    }
    fine = converts_in_rooms(block, LIST, view_of(&record), view_of(&listing)) &&
           converts_in_rooms(block, PACK, view_of(&listing), view_of(&record));
    free(record.room);
    free(listing.room);
    return fine;
}

/* Refused with the same number whether there is room or not. */
static int run_refusal(const struct block *block, enum way way)
{
    uint32_t status = PIRASTEH_TOKEN_SHAPE;
    struct bytes in;
    struct view none;
    int fine;
    if (strcmp(block->value[1], "4") == 0)
        status = PIRASTEH_TOKEN_RULE;
    else if (strcmp(block->value[1], "3") != 0)
        return failed(block, "malformed: `refused` is neither 3 nor 4");
    if (!decode(block->value[0], &in))
        return failed(block, "malformed: not pairs of hexadecimal digits");
    none.at = in.at;
    none.length = 0;
    fine = converts(block, way, view_of(&in), way_rooms[way], status, none) &&
           converts(block, way, view_of(&in), 0, status, none);
    free(in.room);
    return fine;
}

/* ---- files ---- */

struct tally {
    unsigned long cases, failures;
};

static int has(const struct block *block, const char *first, const char *second)
{
    return strcmp(block->name[0], first) == 0 && strcmp(block->name[1], second) == 0;
}

static int run_case(const struct block *block)
{
    if (block->fields < 2)
        return failed(block, "malformed: one field alone");
    if (block->fields >= 3 && strcmp(block->name[2], "masks") != 0)
        return failed(block, "malformed: the third field is not `masks`");
    if (block->fields == 4 && strcmp(block->name[3], "trail") != 0)
        return failed(block, "malformed: the fourth field is not `trail`");
    if (has(block, "ask", "line"))
        return run_ask(block);
    if (block->fields >= 3)
        return failed(block, "malformed: `masks` of no question");
    if (has(block, "record", "listing"))
        return run_conversion(block);
    if (has(block, "record", "refused"))
        return run_refusal(block, LIST);
    if (has(block, "listing", "refused"))
        return run_refusal(block, PACK);
    return failed(block, "malformed: these two fields are no case");
}

static void open_block(struct block *block, const char *file)
{
    memset(block, 0, sizeof *block);
    block->file = file;
    block->reason = "";
}

/* Only the first block of a file may be `#` lines alone: elsewhere it may be a case put aside. */
static void close_block(struct block *block, struct tally *tally, int is_first)
{
    int fine = 1;
    if (block->line == 0)
        return;
    if (block->fields > 0)
        tally->cases++;
    if (block->broken)
        fine = 0;
    else if (block->fields > 0)
        fine = run_case(block);
    else if (!is_first)
        fine = failed(block, "malformed: `#` lines without a case");
    if (!fine)
        tally->failures++;
}

static const char *add_field(struct block *block, char *line)
{
    char *mark = strstr(line, " = ");
    if (!mark)
        return "malformed: no ` = ` in a line";
    if (block->fields == 4)
        return "malformed: a fifth field";
    *mark = 0;
    block->name[block->fields] = line;
    block->value[block->fields] = mark + strlen(" = ");
    block->fields++;
    return "";
}

static const char *add_reason(struct block *block, const char *line)
{
    if (block->fields > 0)
        return "malformed: a `#` line below a field";
    if (*block->reason == 0)
        block->reason = starts(line, "# ") ? line + 2 : line;
    return "";
}

static void add_line(struct block *block, char *line, unsigned long number)
{
    const char *wrong;
    if (block->line == 0)
        block->line = number;
    if (block->broken)
        return;
    wrong = *line == '#' ? add_reason(block, line) : add_field(block, line);
    if (*wrong != 0) {
        printf("FAILED %s:%lu: %s\n  %s\n", block->file, number, block->reason, wrong);
        block->broken = 1;
    }
}

/* Every line of the text ends in a newline. */
static void run_text(const char *file, char *text, struct tally *tally)
{
    struct block block;
    unsigned long number;
    int is_first = 1;
    char *end;
    open_block(&block, file);
    for (number = 1; *text != 0; number++, text = end + 1) {
        end = strchr(text, '\n');
        *end = 0;
        if (*text != 0) {
            add_line(&block, text, number);
            continue;
        }
        close_block(&block, tally, is_first);
        is_first = is_first && block.line == 0;
        open_block(&block, file);
    }
    close_block(&block, tally, is_first);
}

/* 0 if it cannot be read, or if nothing is in it. */
static size_t length_of(FILE *file)
{
    size_t length = 0;
    while (getc(file) != EOF)
        length++;
    if (ferror(file))
        return 0;
    rewind(file);
    return length;
}

/* The file's bytes with a 0 behind them, to be freed if the answer is 1. */
static int read_open(FILE *file, char **text, size_t *length)
{
    *length = length_of(file);
    if (*length == 0)
        return 0;
    *text = AS(char *, room_of(*length + 1));
    (*text)[*length] = 0;
    if (fread(*text, 1, *length, file) == *length)
        return 1;
    free(*text);
    return 0;
}

static int read_file(const char *name, char **text, size_t *length)
{
    FILE *file = fopen(name, "rb");
    int fine;
    if (!file)
        return 0;
    fine = read_open(file, text, length);
    fclose(file);
    return fine;
}

/* What is wrong with the text as a whole, or "". */
static const char *wrong_with(const char *text, size_t length)
{
    if (strlen(text) != length)
        return "malformed: it holds a zero byte";
    if (strchr(text, '\r'))
        return "malformed: it holds a carriage return";
    if (text[length - 1] != '\n')
        return "malformed: its last line has no end";
    return "";
}

static void file_failed(const char *name, const char *what, struct tally *tally)
{
    printf("FAILED %s: %s\n", name, what);
    tally->failures++;
}

static void run_read(const char *name, char *text, size_t length, struct tally *tally)
{
    const char *wrong = wrong_with(text, length);
    if (*wrong != 0) {
        file_failed(name, wrong, tally);
        return;
    }
    run_text(name, text, tally);
    if (tally->cases == 0)
        file_failed(name, "there is no case in it", tally);
}

static struct tally run_file(const char *name)
{
    struct tally tally = {0, 0};
    const char *slash = strrchr(name, '/');
    char *text;
    size_t length;
    if (read_file(name, &text, &length)) {
        run_read(name, text, length, &tally);
        free(text);
    } else {
        file_failed(name, "it is empty or cannot be read", &tally);
    }
    printf("  %-16s %4lu cases\n", slash ? slash + 1 : name, tally.cases);
    return tally;
}

int main(int argc, char **argv)
{
    struct tally total = {0, 0};
    int i;
    if (argc < 2)
        fputs("usage: vectors FILE..\n", stderr);
    for (i = 1; i < argc; i++) {
        struct tally here = run_file(argv[i]);
        total.cases += here.cases;
        total.failures += here.failures;
    }
    printf("vectors in C: %lu cases, %lu failures\n", total.cases, total.failures);
    if (fflush(stdout) != 0 || ferror(stdout))
        return 1;
    return total.cases > 0 && total.failures == 0 ? 0 : 1;
}
