#include "circuit.h"

/* "I is at most 1,024, G at most 3,072, O at most 256" */
static const uint32_t most_inputs = 1024, most_gates = 3072, most_outputs = 256;

struct answer good_with(unsigned count, size_t a, size_t b, size_t c)
{
    struct answer answer = {GOOD, count, {a, b, c}};
    return answer;
}

struct answer good(void)
{
    return good_with(0, 0, 0, 0);
}

struct answer aborted(uint32_t output, uint32_t sites)
{
    struct answer answer = {ABORT, 2, {output, sites, 0}};
    return answer;
}

struct answer refused(uint32_t number, size_t place)
{
    struct answer answer = {REFUSED, 2, {number, place, 0}};
    return answer;
}

/* "field 0, 16, 20, 24 or 28 not as above, tested so, or slice length unlike
   field 0 (tested with it)" */
static struct answer check_fields(struct slice file, const struct circuit *c)
{
    uint32_t gates = HEADER + c->inputs;
    uint32_t outputs = gates + 6 * c->gates;
    uint32_t length = outputs + 2 * c->outputs;

    if (number_at(file.at) != length || file.length != length)
        return refused(3, 0);
    if (number_at(file.at + 16) != HEADER)
        return refused(3, 16);
    if (number_at(file.at + 20) != gates)
        return refused(3, 20);
    if (number_at(file.at + 24) != outputs)
        return refused(3, 24);
    if (number_at(file.at + 28) != 0)
        return refused(3, 28);
    return good();
}

struct answer check_header(struct slice file, struct circuit *c)
{
    if (file.length < HEADER)
        return refused(1, 0);
    c->file = file.at;
    c->inputs = number_at(file.at + 4);
    c->gates = number_at(file.at + 8);
    c->outputs = number_at(file.at + 12);
    /* The limits come before the sums, so that no sum can pass 32 bits. */
    if (c->inputs > most_inputs)
        return refused(2, 0);
    if (c->gates > most_gates)
        return refused(2, 1);
    if (c->outputs > most_outputs)
        return refused(2, 2);
    return check_fields(file, c);
}

static struct answer check_owners(struct circuit *c)
{
    c->own[0] = c->own[1] = c->own[2] = c->own[3] = 0;
    for (uint32_t n = 0; n < c->inputs; n++) {
        uint32_t owner = owner_at(c, n);
        if (owner < 1 || owner > 3)
            return refused(4, n);
        c->own[owner]++;
    }
    return good();
}

/* "unknown kind, operand not a lower wire, or NOT with second not 0".  The
   second of a NOT "reads nothing", so it need not be a lower wire. */
static int gate_is_good(struct gate gate, uint32_t wire)
{
    if (gate.kind < XOR || gate.kind > OR || gate.first >= wire)
        return 0;
    return gate.kind == NOT ? gate.second == 0 : gate.second < wire;
}

static struct answer check_gates(struct circuit *c)
{
    c->products = 0;
    for (uint32_t g = 0; g < c->gates; g++) {
        struct gate gate = gate_at(c, g);
        if (!gate_is_good(gate, c->inputs + g))
            return refused(5, g);
        if (gate.kind == AND || gate.kind == OR)
            c->products++;
    }
    return good();
}

static struct answer check_outputs(const struct circuit *c)
{
    for (uint32_t n = 0; n < c->outputs; n++)
        if (output_at(c, n) >= wires(c))
            return refused(6, n);
    return good();
}

struct answer check_circuit(struct slice file, struct circuit *c)
{
    struct answer answer = check_header(file, c);
    if (answer.outcome == GOOD)
        answer = check_owners(c);
    if (answer.outcome == GOOD)
        answer = check_gates(c);
    if (answer.outcome == GOOD)
        answer = check_outputs(c);
    return answer;
}

size_t tape_length(const struct circuit *c, unsigned site)
{
    return 2 * (c->own[site] + c->products);
}

size_t tapes_length(const struct circuit *c)
{
    return 2 * c->inputs + 6 * c->products;
}

size_t line_length(const struct circuit *c)
{
    return 4 * c->inputs + 12 * c->products + 6 * c->outputs;
}

size_t view_length(const struct circuit *c, unsigned site)
{
    return 2 * c->inputs + c->own[site] + 6 * c->products + 3 * c->outputs;
}
