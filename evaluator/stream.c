/* Reads a stream of calls from standard input and prints every answer, and
   every lent buffer as it stands afterwards.  docs/TRIALS.md has the form of
   both. */
#include "evaluator.h"

#include <stdio.h>
#include <stdlib.h>
#include <string.h>

enum { MOST_SLICES = 7, MOST_LENT = 3, MOST_CALLS = 15, PIECE = 65536 };

/* The slices of a call; the lent ones come last. */
struct form {
    const char *name;
    unsigned slices;
    const char *lent[MOST_LENT + 1];
};

static const struct form forms[MOST_CALLS + 1] = {
    {"", 0, {0}},
    {"open", 1, {0}},
    {"gate", 1, {0}},
    {"owner", 1, {0}},
    {"output", 1, {0}},
    {"check", 1, {0}},
    {"plain", 3, {"values", 0}},
    {"run", 7, {"outputs", "transcript", "store", 0}},
    {"view", 5, {"view", "store", 0}},
    {"retape", 6, {"tapes", "room", 0}},
    {"traffic", 1, {0}},
    {"listing", 1, {0}},
    {"gate_read", 2, {0}},
    {"owner_read", 2, {0}},
    {"output_read", 2, {0}},
    {"from_bristol", 2, {0}},
};

/* What one call is given, and what it gives back beside its answer. */
struct call {
    unsigned which;
    uint32_t number;
    struct slice part[MOST_SLICES];
    uint32_t table[3][3];
    char text[LISTING_ROOM];
    struct slice room;
};

static void stop(const char *why)
{
    printf("%s\n", why);
    exit(1);
}

static void read_bytes(uint8_t *at, size_t length)
{
    if (fread(at, 1, length, stdin) != length)
        stop("stream cut short");
}

static uint32_t read_number(void)
{
    uint8_t bytes[4];
    read_bytes(bytes, sizeof bytes);
    return number_at(bytes);
}

/* The memory grows with what is really there, so that a false length in a
   stream cut short asks for no more than the stream has.  In the end it has
   exactly the slice's length, so that a sanitizer sees any reading beyond. */
static struct slice read_slice(void)
{
    struct slice part = {malloc(1), 0};
    uint32_t left = read_number();

    while (part.at && left > 0) {
        size_t piece = left < PIECE ? left : PIECE;
        uint8_t *more = realloc(part.at, part.length + piece);
        if (!more)
            free(part.at);
        part.at = more;
        if (!more)
            break;
        read_bytes(part.at + part.length, piece);
        part.length += piece;
        left -= (uint32_t)piece;
    }
    if (!part.at)
        stop("no memory");
    return part;
}

/* Byte n of the room that from_bristol is lent, before the call.  A stream has
   its length alone, since 20,000 bytes with each call would be many. */
static uint8_t filled(size_t n)
{
    return (uint8_t)((37 + 11 * n) % 256);
}

static struct slice filled_room(uint32_t length)
{
    struct slice room = {malloc(length ? length : 1), length};

    if (!room.at)
        stop("no memory");
    for (size_t n = 0; n < room.length; n++)
        room.at[n] = filled(n);
    return room;
}

static struct answer make_call(struct call *call)
{
    struct slice *p = call->part;

    switch (call->which) {
    case 1: return open_call(p[0]);
    case 2: return gate_call(p[0], call->number);
    case 3: return owner_call(p[0], call->number);
    case 4: return output_call(p[0], call->number);
    case 5: return check_call(p[0]);
    case 6: return plain_call(p[0], p[1], p[2]);
    case 7: return run_call(p[0], p[1], p[2], p[3], p[4], p[5], p[6]);
    case 8: return view_call(p[0], p[1], p[2], call->number, p[3], p[4]);
    case 9:
        return retape_call(p[0], p[1], p[2], p[3], call->number, p[4], p[5]);
    case 10: return traffic_call(p[0], call->table);
    case 11: return listing_call(p[0], call->text);
    case 12: return gate_read_call(p[0], p[1], call->number);
    case 13: return owner_read_call(p[0], p[1], call->number);
    case 14: return output_read_call(p[0], p[1], call->number);
    default:
        call->room = filled_room(call->number);
        return from_bristol_call(p[0], p[1], call->room);
    }
}

static void print_answer(const char *name, struct answer answer)
{
    static const char *const words[] = {"good", "abort", "refused"};

    printf("%s %s", name, words[answer.outcome]);
    for (unsigned n = 0; n < answer.count; n++)
        printf(" %zu", answer.number[n]);
    putchar('\n');
}

static void print_buffer(const char *name, struct slice lent)
{
    fputs(name, stdout);
    if (lent.length)
        putchar(' ');
    for (size_t n = 0; n < lent.length; n++) {
        if (lent.at[n] <= 1)
            putchar('0' + lent.at[n]);
        else
            printf("x%02x", (unsigned)lent.at[n]);
    }
    putchar('\n');
}

static void print_table(uint32_t table[3][3])
{
    for (unsigned s = 0; s < 3; s++)
        printf("row %lu %lu %lu\n", (unsigned long)table[s][0],
               (unsigned long)table[s][1], (unsigned long)table[s][2]);
}

static void print_text(const char *text)
{
    while (*text) {
        size_t length = strcspn(text, "\n");
        printf("| %.*s\n", (int)length, text);
        text += length + 1;
    }
}

/* Whether the room is as it was, from a place on. */
static const char *kept(struct slice room, size_t from)
{
    for (size_t n = from; n < room.length; n++)
        if (room.at[n] != filled(n))
            return "changed";
    return "same";
}

/* The file that was written, if any was, and whether the rest stayed. */
static void print_room(struct slice room, struct answer answer)
{
    struct slice file = {room.at, answer.number[0]};

    if (answer.outcome != GOOD) {
        printf("room %s\n", kept(room, 0));
        return;
    }
    if (file.length > room.length) {
        puts("file too long");
        return;
    }
    print_buffer("file", file);
    printf("behind %s\n", kept(room, file.length));
}

static void print_call(struct call *call, struct answer answer)
{
    const struct form *form = &forms[call->which];
    unsigned lent = 0;

    print_answer(form->name, answer);
    while (form->lent[lent])
        lent++;
    for (unsigned n = 0; n < lent; n++)
        print_buffer(form->lent[n], call->part[form->slices - lent + n]);
    if (call->which == 10)
        print_table(call->table);
    if (call->which == 11)
        print_text(call->text);
    if (call->which == 15) {
        print_room(call->room, answer);
        free(call->room.at);
    }
}

int main(void)
{
    static struct call call;
    int which;

    while ((which = getchar()) != EOF) {
        if (which < 1 || which > MOST_CALLS)
            stop("unknown call");
        call.which = (unsigned)which;
        call.number = read_number();
        for (unsigned n = 0; n < forms[which].slices; n++)
            call.part[n] = read_slice();
        print_call(&call, make_call(&call));
        for (unsigned n = 0; n < forms[which].slices; n++)
            free(call.part[n].at);
    }
    return fflush(stdout) || ferror(stdout) ? 1 : 0;
}
