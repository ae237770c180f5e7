/* Mistakes that the compiler has to warn about. Each line with one names the warning at its end.
 * With CORRECT defined the same lines are right, and there is nothing to warn about. Not run. */

#include "pirasteh.h"

#ifdef CORRECT
#define STATUS status =
#define YES yes =
#define NO_BYTES b
#define NO_ROOM o
#define NO_WORD w
#define NO_LENGTH l
#else
#define STATUS
#define YES
#define NO_BYTES NULL
#define NO_ROOM NULL
#define NO_WORD NULL
#define NO_LENGTH NULL
#endif

extern uint32_t status;
extern int yes;
extern const uint8_t *b; /* bytes */
extern uint8_t *o;       /* room */
extern uint32_t *w;      /* a word */
extern size_t *l;        /* a length that is written */
extern size_t n;
extern void ignore(void);
extern void null(void);

void ignore(void)
{
    STATUS pirasteh_check(1, 2, b, n, b, n, b, n, b, n, w, w, w);           /* unused-result */
    STATUS pirasteh_question(b, n, w, w, w);                                /* unused-result */
    STATUS pirasteh_why(1, 2, b, n, b, n, b, n, b, n, w, w, w, w, w, w, w); /* unused-result */
    STATUS pirasteh_why_question(b, n, w, w, w, w, w, w, w, w);             /* unused-result */
    STATUS pirasteh_trail(1, 2, b, n, b, n, b, n, b, n, o, n, l, w, w, w);  /* unused-result */
    STATUS pirasteh_trail_question(b, n, o, n, l, w, w, w);                 /* unused-result */
    STATUS pirasteh_list(b, n, o, n, l);                                    /* unused-result */
    STATUS pirasteh_pack(b, n, o, n, l);                                    /* unused-result */
    YES pirasteh_allows(1, 2, b, n, b, n, b, n, b, n);                      /* unused-result */
}

void null(void)
{
    status = pirasteh_check(1, 2, NO_BYTES, n, b, n, b, n, b, n, w, w, w);           /* nonnull */
    status = pirasteh_check(1, 2, b, n, NO_BYTES, 0, b, n, b, n, w, w, w);           /* nonnull */
    status = pirasteh_check(1, 2, b, n, b, n, NO_BYTES, n, b, n, w, w, w);           /* nonnull */
    status = pirasteh_check(1, 2, b, n, b, n, b, n, NO_BYTES, 0, w, w, w);           /* nonnull */
    status = pirasteh_check(1, 2, b, n, b, n, b, n, b, n, NO_WORD, w, w);            /* nonnull */
    status = pirasteh_check(1, 2, b, n, b, n, b, n, b, n, w, NO_WORD, w);            /* nonnull */
    status = pirasteh_check(1, 2, b, n, b, n, b, n, b, n, w, w, NO_WORD);            /* nonnull */
    status = pirasteh_question(NO_BYTES, n, w, w, w);                                /* nonnull */
    status = pirasteh_question(b, n, NO_WORD, w, w);                                 /* nonnull */
    status = pirasteh_question(b, n, w, NO_WORD, w);                                 /* nonnull */
    status = pirasteh_question(b, n, w, w, NO_WORD);                                 /* nonnull */
    status = pirasteh_why(1, 2, NO_BYTES, n, b, n, b, n, b, n, w, w, w, w, w, w, w); /* nonnull */
    status = pirasteh_why(1, 2, b, n, NO_BYTES, 0, b, n, b, n, w, w, w, w, w, w, w); /* nonnull */
    status = pirasteh_why(1, 2, b, n, b, n, NO_BYTES, n, b, n, w, w, w, w, w, w, w); /* nonnull */
    status = pirasteh_why(1, 2, b, n, b, n, b, n, NO_BYTES, 0, w, w, w, w, w, w, w); /* nonnull */
    status = pirasteh_why(1, 2, b, n, b, n, b, n, b, n, NO_WORD, w, w, w, w, w, w);  /* nonnull */
    status = pirasteh_why(1, 2, b, n, b, n, b, n, b, n, w, NO_WORD, w, w, w, w, w);  /* nonnull */
    status = pirasteh_why(1, 2, b, n, b, n, b, n, b, n, w, w, NO_WORD, w, w, w, w);  /* nonnull */
    status = pirasteh_why(1, 2, b, n, b, n, b, n, b, n, w, w, w, NO_WORD, w, w, w);  /* nonnull */
    status = pirasteh_why(1, 2, b, n, b, n, b, n, b, n, w, w, w, w, NO_WORD, w, w);  /* nonnull */
    status = pirasteh_why(1, 2, b, n, b, n, b, n, b, n, w, w, w, w, w, NO_WORD, w);  /* nonnull */
    status = pirasteh_why(1, 2, b, n, b, n, b, n, b, n, w, w, w, w, w, w, NO_WORD);  /* nonnull */
    status = pirasteh_why_question(NO_BYTES, n, w, w, w, w, w, w, w, w);             /* nonnull */
    status = pirasteh_why_question(b, n, NO_WORD, w, w, w, w, w, w, w);              /* nonnull */
    status = pirasteh_why_question(b, n, w, NO_WORD, w, w, w, w, w, w);              /* nonnull */
    status = pirasteh_why_question(b, n, w, w, NO_WORD, w, w, w, w, w);              /* nonnull */
    status = pirasteh_why_question(b, n, w, w, w, NO_WORD, w, w, w, w);              /* nonnull */
    status = pirasteh_why_question(b, n, w, w, w, w, NO_WORD, w, w, w);              /* nonnull */
    status = pirasteh_why_question(b, n, w, w, w, w, w, NO_WORD, w, w);              /* nonnull */
    status = pirasteh_why_question(b, n, w, w, w, w, w, w, NO_WORD, w);              /* nonnull */
    status = pirasteh_why_question(b, n, w, w, w, w, w, w, w, NO_WORD);              /* nonnull */
    status = pirasteh_trail(1, 2, NO_BYTES, n, b, n, b, n, b, n, o, n, l, w, w, w);  /* nonnull */
    status = pirasteh_trail(1, 2, b, n, NO_BYTES, 0, b, n, b, n, o, n, l, w, w, w);  /* nonnull */
    status = pirasteh_trail(1, 2, b, n, b, n, NO_BYTES, n, b, n, o, n, l, w, w, w);  /* nonnull */
    status = pirasteh_trail(1, 2, b, n, b, n, b, n, NO_BYTES, 0, o, n, l, w, w, w);  /* nonnull */
    status = pirasteh_trail(1, 2, b, n, b, n, b, n, b, n, NO_ROOM, n, l, w, w, w);   /* nonnull */
    status = pirasteh_trail(1, 2, b, n, b, n, b, n, b, n, o, n, NO_LENGTH, w, w, w); /* nonnull */
    status = pirasteh_trail(1, 2, b, n, b, n, b, n, b, n, o, n, l, NO_WORD, w, w);   /* nonnull */
    status = pirasteh_trail(1, 2, b, n, b, n, b, n, b, n, o, n, l, w, NO_WORD, w);   /* nonnull */
    status = pirasteh_trail(1, 2, b, n, b, n, b, n, b, n, o, n, l, w, w, NO_WORD);   /* nonnull */
    status = pirasteh_trail_question(NO_BYTES, n, o, n, l, w, w, w);                 /* nonnull */
    status = pirasteh_trail_question(b, n, NO_ROOM, n, l, w, w, w);                  /* nonnull */
    status = pirasteh_trail_question(b, n, o, n, NO_LENGTH, w, w, w);                /* nonnull */
    status = pirasteh_trail_question(b, n, o, n, l, NO_WORD, w, w);                  /* nonnull */
    status = pirasteh_trail_question(b, n, o, n, l, w, NO_WORD, w);                  /* nonnull */
    status = pirasteh_trail_question(b, n, o, n, l, w, w, NO_WORD);                  /* nonnull */
    status = pirasteh_list(NO_BYTES, n, o, n, l);                                    /* nonnull */
    status = pirasteh_list(b, n, NO_ROOM, n, l);                                     /* nonnull */
    status = pirasteh_list(b, n, o, n, NO_LENGTH);                                   /* nonnull */
    status = pirasteh_pack(NO_BYTES, n, o, n, l);                                    /* nonnull */
    status = pirasteh_pack(b, n, NO_ROOM, n, l);                                     /* nonnull */
    status = pirasteh_pack(b, n, o, n, NO_LENGTH);                                   /* nonnull */
    yes = pirasteh_allows(1, 2, NO_BYTES, n, b, n, b, n, b, n);                      /* nonnull */
    yes = pirasteh_allows(1, 2, b, n, NO_BYTES, 0, b, n, b, n);                      /* nonnull */
    yes = pirasteh_allows(1, 2, b, n, b, n, NO_BYTES, n, b, n);                      /* nonnull */
    yes = pirasteh_allows(1, 2, b, n, b, n, b, n, NO_BYTES, 0);                      /* nonnull */
}
