/* What the bytes of a case say: numbers of the head, then the tables, lists and texts, each as long as the head says or as bytes are left. */
#ifndef INPUT_H
#define INPUT_H

#include <stdint.h>
#include <string.h>

enum head {
    SOURCE_TYPE,
    ASYNC_BODIES,
    UNIT,
    FROM,
    TO,
    STOP,
    NODES,
    SCOPES,
    ANSWERS,
    OTHERS,
    MARKED, /* how many numbers of the marks are given; the others are 0 */
    SOURCE,
    NAMES,
    FINDINGS_ROOM,
    CODE_ROOM,
    ROUTE_ROOM,
    NODES_ROOM,
    NAMES_ROOM,
    AT_FRONT,
    HEAD
};

/* A part of the bytes, in entries. */
struct part {
    const uint8_t *at;
    size_t entries;
};

struct input {
    uint32_t head[HEAD];
    struct part nodes, scopes, answers, others, marked, source, names;
};

static inline struct part take(const uint8_t **data, size_t *size, uint32_t wanted, size_t width) {
    size_t left = *size / width;
    struct part part = {*data, wanted < left ? wanted : left};
    *data += part.entries * width;
    *size -= part.entries * width;
    return part;
}

/* 0 where there are too few bytes for the head. */
static inline int read_input(struct input *in, const uint8_t *data, size_t size) {
    if (size < sizeof in->head)
        return 0;
    memcpy(in->head, data, sizeof in->head);
    data += sizeof in->head;
    size -= sizeof in->head;
    in->nodes = take(&data, &size, in->head[NODES], 4);
    in->scopes = take(&data, &size, in->head[SCOPES], 4);
    in->answers = take(&data, &size, in->head[ANSWERS], 4);
    in->others = take(&data, &size, in->head[OTHERS], 4);
    in->marked = take(&data, &size, in->head[MARKED], 4);
    in->source = take(&data, &size, in->head[SOURCE], 1);
    in->names = take(&data, &size, in->head[NAMES], 1);
    return 1;
}

#endif
