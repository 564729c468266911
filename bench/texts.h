/* The Bristol Fashion texts that the benchmark reads, and numbers drawn for it. */
#ifndef TEXTS_H
#define TEXTS_H

#include <stddef.h>
#include <stdint.h>

enum { TEXTS = 3, MOST_VALUES = 16 };

struct text {
    const char *name;
    uint8_t *bytes, owners[MOST_VALUES];
    size_t length, values, inputs, gates, outputs;
};

/* 0: the stored adder; it is read from the folder that the benchmark is started in. 1: all counts at their limits. 2: the same with as many
   EQWs as there can be, CR before each LF, and blank lines. Answers 0 where the adder cannot be read. */
int make_texts(struct text texts[TEXTS]);

/* The same each time. */
static inline size_t drawn_below(uint64_t *state, size_t below)
{
    *state = *state * 6364136223846793005u + 1442695040888963407u;
    return (size_t)(*state >> 33) % below;
}

#endif
