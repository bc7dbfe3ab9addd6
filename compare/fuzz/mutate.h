/* Changes of a case that keep most of its tables whole: a number of a record, a node more or less, a record for another. */
#ifndef MUTATE_H
#define MUTATE_H

#include <velkunshe.h>

#include "input.h"

size_t LLVMFuzzerMutate(uint8_t *data, size_t size, size_t max_size);
size_t LLVMFuzzerCustomMutator(uint8_t *data, size_t size, size_t max_size, unsigned int seed);

static uint32_t random_state;

static uint32_t below(uint32_t limit) {
    random_state = random_state * 1664525u + 1013904223u;
    return limit == 0 ? 0 : (random_state >> 8) % limit;
}

static uint32_t get(const uint8_t *at) {
    uint32_t number;
    memcpy(&number, at, sizeof number);
    return number;
}

static void set(uint8_t *at, uint32_t number) { memcpy(at, &number, sizeof number); }

/* A kind that may stand where the old one stands: a simple statement for one, an expression for one, or any. */
static uint32_t likely_kind(uint32_t old) {
    if (old >= VELKUNSHE_KIND_BREAK && old <= VELKUNSHE_KIND_OTHER_STATEMENT)
        return VELKUNSHE_KIND_BREAK + below(5);
    if (old >= VELKUNSHE_KIND_BINDING_IDENTIFIER && below(8) > 0)
        return VELKUNSHE_KIND_BINDING_IDENTIFIER + below(25);
    return below(57);
}

/* What a node's number may well be. */
static uint32_t likely(uint32_t field, uint32_t old, uint32_t count) {
    switch (field) {
    case 0: return likely_kind(old);
    case 1: return below(2) ? below(count) : old + below(3) - 1;
    case 2: return below(9);
    case 5: return below(count / 2 + 2);
    case 6: return old ^ 2u << below(14);
    case 7: return below(6);
    default: return old + below(5) - 2;
    }
}

static void change_node(uint8_t *nodes, uint32_t count) {
    static const uint32_t fields[] = {0, 0, 0, 6, 6, 6, 6, 8, 9, 9, 2, 1, 3, 4, 5, 7};
    uint32_t field = fields[below(sizeof fields / sizeof *fields)];
    uint8_t *at = nodes + 4 * (below(count) * VELKUNSHE_NODE + field);
    set(at, below(64) == 0 ? random_state : likely(field, get(at), count));
}

static void change_scope(uint8_t *scopes, uint32_t count) {
    uint32_t field = below(VELKUNSHE_SCOPE);
    uint8_t *at = scopes + 4 * (below(count) * VELKUNSHE_SCOPE + field);
    set(at, field == 1 ? get(at) ^ 1u << below(5) : get(at) + below(5) - 2);
}

/* A record in place of another. */
static void copy_node(uint8_t *nodes, uint32_t count) {
    uint32_t width = 4 * VELKUNSHE_NODE;
    memmove(nodes + below(count) * width, nodes + below(count) * width, width);
}

/* Moves what names a node at or behind a place. */
static void shift(uint8_t *table, uint32_t count, uint32_t width, uint32_t field, uint32_t place, uint32_t by) {
    for (uint32_t i = 0; i < count; i++) {
        uint8_t *at = table + 4 * (i * width + field);
        if (get(at) >= place)
            set(at, get(at) + by);
    }
}

/* A node more behind its parent, as its first child; the bytes behind it move on. */
static size_t insert_node(uint8_t *data, size_t size, size_t max_size, struct input *in) {
    uint32_t width = 4 * VELKUNSHE_NODE, count = (uint32_t)in->nodes.entries / VELKUNSHE_NODE, parent = below(count);
    if (count == 0 || size + width > max_size)
        return size;
    uint8_t *nodes = data + (in->nodes.at - data), *scopes = data + (in->scopes.at - data);
    shift(nodes, count, VELKUNSHE_NODE, 1, parent + 1, 1);
    shift(scopes, (uint32_t)in->scopes.entries / VELKUNSHE_SCOPE, VELKUNSHE_SCOPE, 2, parent + 1, 1);
    uint8_t *at = nodes + (size_t)(parent + 1) * width;
    memmove(at + width, at, size - (size_t)(at - data));
    memcpy(at, nodes + parent * width, width);
    /* mostly a simple statement, or an expression */
    int held = below(2) == 0;
    set(at, held ? VELKUNSHE_KIND_BREAK + below(5) : likely_kind(VELKUNSHE_KIND_ANYTHING_ELSE));
    set(at + 4, parent);
    set(at + 8, held ? VELKUNSHE_ROLE_HELD : below(3));
    set(at + 24, 0);
    set(at + 28, 0);
    set(data + 4 * NODES, in->head[NODES] + VELKUNSHE_NODE);
    return size + width;
}

/* A node less; its children are its parent's then. */
static size_t remove_node(uint8_t *data, size_t size, struct input *in) {
    uint32_t width = 4 * VELKUNSHE_NODE, count = (uint32_t)in->nodes.entries / VELKUNSHE_NODE, node = 1 + below(count - 1);
    if (count < 2)
        return size;
    uint8_t *nodes = data + (in->nodes.at - data), *scopes = data + (in->scopes.at - data);
    uint32_t parent = get(nodes + node * width + 4);
    for (uint32_t i = 0; i < count; i++)
        if (get(nodes + i * width + 4) == node)
            set(nodes + i * width + 4, parent);
    shift(nodes, count, VELKUNSHE_NODE, 1, node + 1, UINT32_MAX);
    shift(scopes, (uint32_t)in->scopes.entries / VELKUNSHE_SCOPE, VELKUNSHE_SCOPE, 2, node + 1, UINT32_MAX);
    uint8_t *at = nodes + (size_t)node * width;
    memmove(at, at + width, size - (size_t)(at - data) - width);
    set(data + 4 * NODES, in->head[NODES] - VELKUNSHE_NODE);
    return size - width;
}

/* Another unit, other slices, other answers. */
static void change_head(uint8_t *data, const struct input *in) {
    uint32_t field = below(HEAD), count = (uint32_t)in->nodes.entries / VELKUNSHE_NODE;
    if (field >= NODES && field <= NAMES)
        return;
    set(data + 4 * field, field == UNIT ? below(count + 1) : field <= ASYNC_BODIES ? below(4) : below(2000));
}

static void change_answer(uint8_t *data, const struct input *in) {
    if (in->answers.entries > 0)
        set(data + (in->answers.at - data) + 4 * below((uint32_t)in->answers.entries), below(4));
}

size_t LLVMFuzzerCustomMutator(uint8_t *data, size_t size, size_t max_size, unsigned int seed) {
    struct input in;
    random_state = seed;
    if (below(12) == 0 || !read_input(&in, data, size))
        return LLVMFuzzerMutate(data, size, max_size);
    uint32_t count = (uint32_t)in.nodes.entries / VELKUNSHE_NODE, scoped = (uint32_t)in.scopes.entries / VELKUNSHE_SCOPE;
    /* No length but that of the tables is given up by what is left. */
    if (count == 0 || scoped == 0 || in.nodes.entries != in.head[NODES])
        return LLVMFuzzerMutate(data, size, max_size);
    for (uint32_t left = 1 + below(3); left > 0; left--) {
        switch (below(8)) {
        case 0: return insert_node(data, size, max_size, &in);
        case 1: return remove_node(data, size, &in);
        case 2: copy_node(data + (in.nodes.at - data), count); break;
        case 3: change_scope(data + (in.scopes.at - data), scoped); break;
        case 4: change_head(data, &in); break;
        case 5: change_answer(data, &in); break;
        default: change_node(data + (in.nodes.at - data), count); break;
        }
    }
    return size;
}

#endif
