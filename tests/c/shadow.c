/* The header hides no name that its user has already. Compiled with -Wshadow. */
extern int kind, mask;
extern int token, token_len, self_id, self_len, descriptor, descriptor_len, policy, policy_len;
extern int asked, normal, confined, ruled, granted, allowed, staged, status;
extern int file, file_len, record, record_len, listing, listing_len, out, out_len, written;
extern int trail, trail_len;

#include "pirasteh.h"
