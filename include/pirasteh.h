/* pirasteh.h: a proved access check for C and C++.
 *
 * Eight functions. Each returns a status: PIRASTEH_ANSWERED, which is 0, or the number of the
 * refusal. pirasteh_allows, at the end, makes one yes or no of the first. Link with -lpirasteh.
 *
 * Status 0 is not "yes"
 *
 *   Status 0 means that the question was *answered*. An answered question can still be *not
 *   allowed*: that stands in the word `allowed`.
 *
 *       if (pirasteh_check(..) == 0) open();     WRONG: opens for those who are not allowed too
 *       if (pirasteh_allows(..)) open();         right: answered, and allowed
 *
 * Rules for every call
 *
 *   Pointers    No pointer may be NULL, not even one with length 0: for an empty part pass the
 *               address of any byte of yours and length 0. uint32_t and size_t pointers are
 *               aligned as those types are; byte pointers need no alignment.
 *   Lengths     A length is at most the bytes that may be read (or, for `out` and `trail`,
 *               written) from its pointer on, and at most PTRDIFF_MAX.
 *   Overlap     What a call writes (out, trail, written, and every word it answers in: granted,
 *               allowed, staged and their like) may not overlap anything else passed to that
 *               call. Inputs are only read, so two inputs may share bytes.
 *   Keep still  No other thread may write to any of this memory before the call returns.
 *   Threads     Thread-safe: any number of threads may call at the same time, on shared inputs
 *               too. What a call writes is for that call alone.
 *   Afterwards  The library keeps no pointer, has no state and allocates nothing. A call uses
 *               less than 256 KiB of stack.
 *
 * These rules are the caller's part. Nothing in the library can test them; GCC and clang warn
 * about a NULL that they see, and about a status that nobody looks at. There is no rule about
 * what the bytes of an input may be: every sequence of bytes has its status.
 *
 * Where to read on
 *
 *   docs/FORMATS.md             token record, flat listing, descriptor, policy, question file,
 *                               trail
 *   docs/REFUSALS.md            each refusal, and what to do about it
 *   docs/COMING-FROM-WINDOWS.md where the same bytes get another answer than on Windows
 */
#ifndef PIRASTEH_H
#define PIRASTEH_H

#include <stddef.h>
#include <stdint.h>

/* The version of this header and its library, as text and as a number that can be compared:
 * major * 10000 + minor * 100 + patch. */
#define PIRASTEH_VERSION        "0.7.1"
#define PIRASTEH_VERSION_NUMBER 701

/* PIRASTEH_CALL: the compiler warns about NULL, and about a result that is not looked at. */
#if defined(__has_attribute)
#if __has_attribute(__nonnull__) && __has_attribute(__warn_unused_result__)
#define PIRASTEH_CALL __attribute__((__nonnull__, __warn_unused_result__))
#endif
#elif defined(__GNUC__)
#if __GNUC__ > 3 || (__GNUC__ == 3 && __GNUC_MINOR__ >= 4)
#define PIRASTEH_CALL __attribute__((__nonnull__, __warn_unused_result__))
#endif
#endif
#ifndef PIRASTEH_CALL
#define PIRASTEH_CALL
#endif

/* PIRASTEH_INLINE: a function of a header, in the compiler's own words. May be defined before. */
#ifndef PIRASTEH_INLINE
#if defined(__cplusplus)
#define PIRASTEH_INLINE static inline
#elif defined(__STDC_VERSION__) && __STDC_VERSION__ >= 199901L
#define PIRASTEH_INLINE static inline
#elif defined(__GNUC__)
#define PIRASTEH_INLINE static __inline__
#elif defined(_MSC_VER)
#define PIRASTEH_INLINE static __inline
#else
#define PIRASTEH_INLINE static
#endif
#endif

#ifdef __cplusplus
extern "C" {
#endif

/* Status numbers, in the order of checking. Of several that apply the lowest is given, except
 * that PIRASTEH_FILE_SHAPE comes before all others.
 *
 * PIRASTEH_ANSWERED is not "allowed": whether access is allowed stands in the word `allowed`. */
enum {
    PIRASTEH_ANSWERED         = 0,  /* answered, allowed or not; for a converter: converted */
    PIRASTEH_KIND             = 1,  /* the kind is not 1 or 2 */
    PIRASTEH_MASK             = 2,  /* the desired mask has a bit that means nothing for this kind */
    PIRASTEH_TOKEN_SHAPE      = 3,  /* the token record or the listing is misshapen */
    PIRASTEH_TOKEN_RULE       = 4,  /* the token breaks a token rule */
    PIRASTEH_SELF_ID          = 5,  /* the self identity is neither empty nor exactly one SID */
    PIRASTEH_DESCRIPTOR_SHAPE = 6,  /* the descriptor is misshapen */
    PIRASTEH_NO_OWNER         = 7,  /* the descriptor has no owner */
    PIRASTEH_DACL_TYPE        = 8,  /* the DACL: an entry's type or a condition's token is not read */
    PIRASTEH_POLICY_SHAPE     = 9,  /* the policy is misshapen */
    PIRASTEH_POLICY_TYPE      = 10, /* a rule: an entry's type or a condition's token is not read */
    PIRASTEH_SHORT_BUFFER     = 11, /* the trail or converted token is longer than the lent buffer */
    PIRASTEH_FILE_SHAPE       = 12  /* question files only: misshapen, or above 65,536 bytes */
};

/* Kinds of object. */
#define PIRASTEH_FILE 1u
#define PIRASTEH_KEY  2u

/* Bits of a desired mask, for both kinds. Generic bits are mapped by the library, in the
 * question and in every entry. */
#define PIRASTEH_GENERIC_READ           0x80000000u
#define PIRASTEH_GENERIC_WRITE          0x40000000u
#define PIRASTEH_GENERIC_EXECUTE        0x20000000u
#define PIRASTEH_GENERIC_ALL            0x10000000u
#define PIRASTEH_MAXIMUM_ALLOWED        0x02000000u
#define PIRASTEH_ACCESS_SYSTEM_SECURITY 0x01000000u /* comes from SeSecurity alone */
#define PIRASTEH_SYSTEM_SECURITY        PIRASTEH_ACCESS_SYSTEM_SECURITY

/* Standard rights, for both kinds, but for SYNCHRONIZE: that is a right of files only. */
#define PIRASTEH_DELETE       0x00010000u
#define PIRASTEH_READ_CONTROL 0x00020000u
#define PIRASTEH_WRITE_DAC    0x00040000u
#define PIRASTEH_WRITE_OWNER  0x00080000u
#define PIRASTEH_SYNCHRONIZE  0x00100000u

/* Rights of files. */
#define PIRASTEH_FILE_READ_DATA        0x0001u
#define PIRASTEH_FILE_WRITE_DATA       0x0002u
#define PIRASTEH_FILE_APPEND_DATA      0x0004u
#define PIRASTEH_FILE_READ_EA          0x0008u
#define PIRASTEH_FILE_WRITE_EA         0x0010u
#define PIRASTEH_FILE_EXECUTE          0x0020u
#define PIRASTEH_FILE_DELETE_CHILD     0x0040u
#define PIRASTEH_FILE_READ_ATTRIBUTES  0x0080u
#define PIRASTEH_FILE_WRITE_ATTRIBUTES 0x0100u

/* What the generic bits are mapped to for a file. ALL_ACCESS is every bit that a file has. */
#define PIRASTEH_FILE_GENERIC_READ    0x00120089u
#define PIRASTEH_FILE_GENERIC_WRITE   0x00120116u
#define PIRASTEH_FILE_GENERIC_EXECUTE 0x001200A0u
#define PIRASTEH_FILE_ALL_ACCESS      0x001F01FFu

/* Rights of registry keys. */
#define PIRASTEH_KEY_QUERY_VALUE        0x0001u
#define PIRASTEH_KEY_SET_VALUE          0x0002u
#define PIRASTEH_KEY_CREATE_SUB_KEY     0x0004u
#define PIRASTEH_KEY_ENUMERATE_SUB_KEYS 0x0008u
#define PIRASTEH_KEY_NOTIFY             0x0010u
#define PIRASTEH_KEY_CREATE_LINK        0x0020u

/* What the generic bits are mapped to for a key. ALL_ACCESS is every bit that a key has. */
#define PIRASTEH_KEY_READ       0x00020019u
#define PIRASTEH_KEY_WRITE      0x00020006u
#define PIRASTEH_KEY_EXECUTE    0x00020019u
#define PIRASTEH_KEY_ALL_ACCESS 0x000F003Fu

/* Flags of a token. EXEMPT is for confined tokens only, else 4. */
#define PIRASTEH_TOKEN_CONFINED 1u
#define PIRASTEH_TOKEN_EXEMPT   2u

/* Privileges of a token: bits 8 and 9 of a word of 64 bits. Other bits are kept, and not read.
 * These names are 32 bits wide: turn them into uint64_t before you use ~ on them. */
#define PIRASTEH_SE_SECURITY       0x0100u
#define PIRASTEH_SE_TAKE_OWNERSHIP 0x0200u

/* Attributes of a group. Only ENABLED (0x4) and USE_FOR_DENY_ONLY (0x10) are read; the others
 * are kept, and change no answer. */
#define PIRASTEH_GROUP_MANDATORY          0x00000001u
#define PIRASTEH_GROUP_ENABLED_BY_DEFAULT 0x00000002u
#define PIRASTEH_GROUP_ENABLED            0x00000004u
#define PIRASTEH_GROUP_OWNER              0x00000008u
#define PIRASTEH_GROUP_USE_FOR_DENY_ONLY  0x00000010u
#define PIRASTEH_GROUP_INTEGRITY          0x00000020u
#define PIRASTEH_GROUP_INTEGRITY_ENABLED  0x00000040u
#define PIRASTEH_GROUP_RESOURCE           0x20000000u
#define PIRASTEH_GROUP_LOGON_ID           0xC0000000u

/* A buffer of this size holds any flat listing, so pirasteh_list never gives 11. */
#define PIRASTEH_LISTING_MAX 22940
/* A buffer of this size holds any packed record, so pirasteh_pack never gives 11. */
#define PIRASTEH_RECORD_MAX 28021

/* A buffer of this size holds any trail, so pirasteh_trail never gives 11. */
#define PIRASTEH_TRAIL_MAX 184319
/* A buffer of this size holds any trail of a question file, so pirasteh_trail_question never
 * gives 11. */
#define PIRASTEH_TRAIL_QUESTION_MAX 36864
/* A buffer of this size holds any trail of a question whose descriptor and policy have these
 * lengths: 9 bytes for each 16 of theirs, rounded down. Below 2 bytes of theirs it is 0. */
#define PIRASTEH_TRAIL_BOUND(descriptor_len, policy_len)          \
    (((descriptor_len) + (policy_len)) / 16 * 9 +                 \
     ((descriptor_len) + (policy_len)) % 16 * 9 / 16)

/* Longer ones are refused, with 6, 9 and 12. */
#define PIRASTEH_DESCRIPTOR_MAX 65535
#define PIRASTEH_POLICY_MAX     262144
#define PIRASTEH_QUESTION_MAX   65536

/* One question.
 *
 * kind, mask   the kind of object and the desired mask
 * token        a packed token record
 * self_id      one SID, or nothing (length 0)
 * descriptor   a self-relative security descriptor
 * policy       a policy, or nothing (length 0)
 *
 * *granted, *allowed and *staged are written in every case. Answered: the granted mask, 1 if
 * access is allowed and 0 if not, 1 if a list on trial would have said otherwise and 0 if not.
 * Lists on trial are the staged lists of the rules that apply: a staged DACL that gives another
 * result on the bits asked, or a staged SACL that raises other events (see pirasteh_trail).
 * Refused: 0, 0 and 0. Never gives 11 or 12.
 *
 * Returning PIRASTEH_ANSWERED (0) says that the three words are an answer, and not that it is
 * yes. Neither is a granted mask yes: it may lack bits that were asked for. Look at *allowed:
 *
 *     if (pirasteh_check(..) == 0) open();                                 WRONG
 *     if (pirasteh_check(..) == PIRASTEH_ANSWERED && allowed) open();      right */
PIRASTEH_CALL
uint32_t pirasteh_check(uint32_t kind, uint32_t mask,
                        const uint8_t *token, size_t token_len,
                        const uint8_t *self_id, size_t self_len,
                        const uint8_t *descriptor, size_t descriptor_len,
                        const uint8_t *policy, size_t policy_len,
                        uint32_t *granted, uint32_t *allowed, uint32_t *staged);

/* One question from the bytes of a question file: kind, mask, then token, self identity,
 * descriptor and policy with a length before each, all six numbers in sevens.
 *
 * *granted, *allowed and *staged as above: here too, answered is not yet allowed. Gives 12, or
 * what pirasteh_check would give. */
PIRASTEH_CALL
uint32_t pirasteh_question(const uint8_t *file, size_t file_len,
                           uint32_t *granted, uint32_t *allowed, uint32_t *staged);

/* The same question, and where the rights went: for each step of the check the asked bits that
 * are left after it.
 *
 * kind to policy   as for pirasteh_check
 *
 * *asked      the bits asked for: the desired mask with its generic bits mapped, and with
 *             PIRASTEH_MAXIMUM_ALLOWED replaced by all bits of the kind
 * *normal     those of them that normal evaluation leaves: the list, the owner's rights and the
 *             privileges
 * *confined   those of *normal that confinement leaves: all of them if the token is not confined,
 *             or is exempt
 * *ruled      those of *confined that the policy leaves: all of them if no rule applies
 * *granted    what is granted, the same as *ruled
 * *allowed, *staged   as for pirasteh_check
 *
 * Each mask lies within the one before it. So one step took each bit that is missing:
 *
 *     asked & ~normal       lost at normal evaluation
 *     normal & ~confined    lost at confinement
 *     confined & ~ruled     lost at the policy
 *
 * All words are written in every case. Refused: all of them are 0. The status, *granted,
 * *allowed and *staged are what pirasteh_check gives for the same question, and here too status
 * 0 is not yes: look at *allowed. */
PIRASTEH_CALL
uint32_t pirasteh_why(uint32_t kind, uint32_t mask,
                      const uint8_t *token, size_t token_len,
                      const uint8_t *self_id, size_t self_len,
                      const uint8_t *descriptor, size_t descriptor_len,
                      const uint8_t *policy, size_t policy_len,
                      uint32_t *asked, uint32_t *normal, uint32_t *confined, uint32_t *ruled,
                      uint32_t *granted, uint32_t *allowed, uint32_t *staged);

/* The same from the bytes of a question file.
 *
 * *kind   the kind of the file's question, PIRASTEH_FILE or PIRASTEH_KEY: it says what the bits
 *         of the masks mean
 *
 * The other words as above. All are written in every case, and refused all of them are 0, *kind
 * too. Gives what pirasteh_question gives; status 0 is not yes. */
PIRASTEH_CALL
uint32_t pirasteh_why_question(const uint8_t *file, size_t file_len,
                               uint32_t *kind, uint32_t *asked,
                               uint32_t *normal, uint32_t *confined, uint32_t *ruled,
                               uint32_t *granted, uint32_t *allowed, uint32_t *staged);

/* The same question, and the audit trail that it leaves: an event for each audit entry (type 2)
 * of the descriptor's SACL, and of the effective SACL of each rule that applies, that
 *
 *     is not inherit-only (flag 0x08),
 *     names the token as a deny entry does: its user, a group that is enabled or deny-only, or
 *     S-1-3-4 or S-1-5-10 where it stands for one of these,
 *     has a bit of its mask, mapped as every entry's is, among the bits that were named, and
 *     has the flag for the answer: 0x40 if access is allowed, 0x80 if it is not.
 *
 * The bits that were named are those of the desired mask with its generic bits mapped, and
 * without PIRASTEH_MAXIMUM_ALLOWED: to ask for that alone leaves no event.
 *
 * kind to policy     as for pirasteh_check
 * trail, trail_len   the lent buffer; PIRASTEH_TRAIL_BOUND(descriptor_len, policy_len) bytes are
 *                    always enough
 *
 * A trail is one event after another, with nothing between them. An event is three numbers in
 * sevens, each of 32 bits and in its shortest form:
 *
 *     source   0 for the descriptor's SACL, else the number of the rule, from 1 on; rules that
 *              do not apply count too
 *     entry    the number of the entry in that SACL, from 0 on; entries of other types count too
 *     mask     the entry's mask as it is stored
 *
 * The events of the descriptor come first, then those of the rules, each in stored order.
 *
 * Answered: the trail stands in the first *written bytes of trail (none if nothing was raised),
 * and the rest of trail is as it was. *granted, *allowed and *staged as for pirasteh_check, and
 * here too status 0 is not yes: look at *allowed.
 * Refused: all of trail is as it was, and *written, *granted, *allowed and *staged are 0. So it
 * is with 11 too: if not the whole trail fits, nothing is granted. 11 comes after all other
 * numbers. Gives what pirasteh_check gives, or 11. */
PIRASTEH_CALL
uint32_t pirasteh_trail(uint32_t kind, uint32_t mask,
                        const uint8_t *token, size_t token_len,
                        const uint8_t *self_id, size_t self_len,
                        const uint8_t *descriptor, size_t descriptor_len,
                        const uint8_t *policy, size_t policy_len,
                        uint8_t *trail, size_t trail_len, size_t *written,
                        uint32_t *granted, uint32_t *allowed, uint32_t *staged);

/* The same from the bytes of a question file.
 *
 * trail, trail_len   the lent buffer; PIRASTEH_TRAIL_QUESTION_MAX bytes are always enough
 *
 * Buffer and words as above. Gives what pirasteh_question gives, or 11; status 0 is not yes. */
PIRASTEH_CALL
uint32_t pirasteh_trail_question(const uint8_t *file, size_t file_len,
                                 uint8_t *trail, size_t trail_len, size_t *written,
                                 uint32_t *granted, uint32_t *allowed, uint32_t *staged);

/* Packed token record to flat listing.
 *
 * out, out_len   the lent buffer; PIRASTEH_LISTING_MAX bytes are always enough
 *
 * Converted: the listing stands in the first *written bytes of out, and the rest of out is as
 * it was. Refused (3, 4 or 11): all of out is as it was, and *written is 0. */
PIRASTEH_CALL
uint32_t pirasteh_list(const uint8_t *record, size_t record_len,
                       uint8_t *out, size_t out_len, size_t *written);

/* Flat listing to packed token record: the way back, byte for byte.
 *
 * out, out_len   the lent buffer; PIRASTEH_RECORD_MAX bytes are always enough
 *
 * Buffer and *written as for pirasteh_list. Refused: 3, 4 or 11. */
PIRASTEH_CALL
uint32_t pirasteh_pack(const uint8_t *listing, size_t listing_len,
                       uint8_t *out, size_t out_len, size_t *written);

/* One question, for those who want a yes or no: pirasteh_check without its words.
 *
 * 1 only if the question is answered and access is allowed. 0 if it is not allowed, and 0 if
 * the question is refused. An unexpected 0 may be a refusal, of parts that changed places for
 * instance: pirasteh_check gives its number. */
PIRASTEH_CALL
PIRASTEH_INLINE int pirasteh_allows(uint32_t kind, uint32_t mask,
                                    const uint8_t *token, size_t token_len,
                                    const uint8_t *self_id, size_t self_len,
                                    const uint8_t *descriptor, size_t descriptor_len,
                                    const uint8_t *policy, size_t policy_len);

/* Its names end in `_` so that they hide no name of yours. */
PIRASTEH_INLINE int pirasteh_allows(uint32_t kind_, uint32_t mask_,
                                    const uint8_t *token_, size_t token_len_,
                                    const uint8_t *self_id_, size_t self_len_,
                                    const uint8_t *descriptor_, size_t descriptor_len_,
                                    const uint8_t *policy_, size_t policy_len_)
{
    uint32_t granted_ = 0;
    uint32_t allowed_ = 0;
    uint32_t staged_ = 0;
    uint32_t status_ = pirasteh_check(kind_, mask_, token_, token_len_, self_id_, self_len_,
                                      descriptor_, descriptor_len_, policy_, policy_len_,
                                      &granted_, &allowed_, &staged_);
    return status_ == PIRASTEH_ANSWERED && allowed_ == 1;
}

/* Where there is no `inline`, this mention keeps the compiler from calling it unused. */
typedef char pirasteh_allows_mentioned[sizeof(&pirasteh_allows)];

#ifdef __cplusplus
}
#endif

#undef PIRASTEH_CALL
#undef PIRASTEH_INLINE

#endif
