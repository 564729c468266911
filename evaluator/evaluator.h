/* The public calls, one function each.  Every function makes all its checks
   itself, and works in memory of its own: a lent buffer is written only once
   the answer is known. */
#ifndef EVALUATOR_H
#define EVALUATOR_H

#include "circuit.h"

enum { LISTING_ROOM = 4096 };

struct answer open_call(struct slice file);
struct answer gate_call(struct slice file, uint32_t n);
struct answer owner_call(struct slice file, uint32_t n);
struct answer output_call(struct slice file, uint32_t n);
struct answer check_call(struct slice file);
struct answer plain_call(struct slice file, struct slice inputs,
                         struct slice values);
struct answer run_call(struct slice file, struct slice inputs,
                       struct slice tapes, struct slice line,
                       struct slice outputs, struct slice transcript,
                       struct slice store);
struct answer view_call(struct slice file, struct slice inputs,
                        struct slice tapes, uint32_t site,
                        struct slice view, struct slice store);
struct answer retape_call(struct slice file, struct slice inputs,
                          struct slice tapes, struct slice second,
                          uint32_t site, struct slice new_tapes,
                          struct slice room);
struct answer traffic_call(struct slice file, uint32_t table[3][3]);
struct answer listing_call(struct slice job, char text[LISTING_ROOM]);
/* The same questions to a reader: a file, and beside it three counts of four
   bytes each, which anybody may have put there.  They change no answer. */
struct answer gate_read_call(struct slice file, struct slice counts,
                             uint32_t n);
struct answer owner_read_call(struct slice file, struct slice counts,
                              uint32_t n);
struct answer output_read_call(struct slice file, struct slice counts,
                               uint32_t n);
/* Bristol Fashion text, "with an owner for each input value", to a circuit
   file at the front of the room (bristol.c). */
struct answer from_bristol_call(struct slice text, struct slice owners,
                                struct slice room);

#endif
