#include "texts.h"

#include <stdio.h>

enum { ROOM = 1 << 18, INPUTS = 1024, GATES = 3072, OUTPUTS = 256, MOST_WIRES = 8192, BLANK_EVERY = 8 };

static const char adder[] = "examples/circuits/adder64.bristol";
static uint8_t rooms[TEXTS][ROOM];
static uint64_t state = 20270;

static int read_adder(struct text *t)
{
    FILE *file = fopen(adder, "rb");

    if (!file)
        return 0;
    t->length = fread(t->bytes, 1, ROOM, file);
    fclose(file);
    t->values = 2;
    t->inputs = 128;
    t->gates = 314;
    t->outputs = 64;
    return t->length > 0 && t->length < ROOM;
}

static const char *end_of_line = "\n";

/* Adds a line. All texts fit: a line of a gate has at most 26 bytes. */
static void put(struct text *t, const char *words)
{
    t->length += (size_t)snprintf((char *)t->bytes + t->length, ROOM - t->length, "%s%s", words, end_of_line);
}

static void put_gate(struct text *t, size_t made, int renames)
{
    static const char *const word[3] = {"XOR", "AND", "INV"};
    char line[64];
    size_t kind = renames ? 2 : drawn_below(&state, 3), first = drawn_below(&state, made), second = drawn_below(&state, made);

    if (kind == 2)
        snprintf(line, sizeof line, "1 1 %zu %zu %s", first, made, renames ? "EQW" : word[kind]);
    else
        snprintf(line, sizeof line, "2 1 %zu %zu %zu %s", first, second, made, word[kind]);
    put(t, line);
}

/* 16 values of 64 bits, GATES gates on drawn lower wires, and EQWs spread among them. */
static void put_largest(struct text *t, size_t renamed)
{
    size_t lines = GATES + renamed, wires = INPUTS + lines, before = 0;
    char line[64];

    t->values = MOST_VALUES;
    t->inputs = INPUTS;
    t->gates = GATES;
    t->outputs = OUTPUTS;
    snprintf(line, sizeof line, "%zu %zu", lines, wires);
    put(t, line);
    put(t, "16 64 64 64 64 64 64 64 64 64 64 64 64 64 64 64 64");
    put(t, "1 256");
    for (size_t k = 0; k < lines; k++) {
        size_t due = (k + 1) * renamed / lines;
        put_gate(t, INPUTS + k, due > before);
        before = due;
        if (renamed && k % BLANK_EVERY == 0)
            put(t, "");
    }
}

int make_texts(struct text texts[TEXTS])
{
    static const char *const names[TEXTS] = {"64-bit adder, a text", "largest text", "largest text, EQWs, CRs, blank lines"};

    for (unsigned n = 0; n < TEXTS; n++) {
        texts[n].name = names[n];
        texts[n].bytes = rooms[n];
        for (unsigned k = 0; k < MOST_VALUES; k++)
            texts[n].owners[k] = (uint8_t)(1 + k % 3);
    }
    put_largest(&texts[1], 0);
    end_of_line = "\r\n";
    put_largest(&texts[2], MOST_WIRES - INPUTS - GATES);
    return read_adder(&texts[0]);
}
