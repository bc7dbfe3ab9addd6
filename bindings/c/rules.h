/* The tables of the two rules that the examples call with, and what they print. */
#ifndef RULES_H
#define RULES_H

#include <inttypes.h>
#include <stdio.h>
#include <velkunshe.h>

#define COUNT(array) (sizeof(array) / sizeof *(array))
/* The bytes of a text, without the 0 behind them. */
#define LENGTH(text) (sizeof(text) - 1)

/* `a: { continue a; }`. Ten numbers a node: kind, parent, role, span, scope, flags, extra, name. */
static const uint32_t label_nodes[] = {
    VELKUNSHE_KIND_PROGRAM, 0, VELKUNSHE_ROLE_OTHER, 0, 18, 0, 0, 0, 0, 0,
    VELKUNSHE_KIND_LABELED, 0, VELKUNSHE_ROLE_HELD, 0, 18, 0, 0, 0, 0, 0,
    VELKUNSHE_KIND_LABEL_IDENTIFIER, 1, VELKUNSHE_ROLE_LABEL, 0, 1, 0, 0, 0, 0, 1,
    VELKUNSHE_KIND_BLOCK, 1, VELKUNSHE_ROLE_HELD, 3, 18, 0, 0, 0, 0, 0,
    VELKUNSHE_KIND_CONTINUE, 3, VELKUNSHE_ROLE_HELD, 5, 16, 1, 0, 0, 0, 0,
    VELKUNSHE_KIND_LABEL_IDENTIFIER, 4, VELKUNSHE_ROLE_LABEL, 14, 15, 1, 0, 0, 1, 1,
};
/* Three numbers a scope: parent, flags, node. */
static const uint32_t label_scopes[] = {0, VELKUNSHE_SCOPE_TOP, 0, 0, 0, 3};
static const uint8_t label_source[] = "a: { continue a; }";
static const uint8_t label_names[] = "aa";

/* `a: while(t){ switch(s){ case c: continue a; } x; }`. A route asks for no source, so all spans are empty. */
static const uint32_t loop_nodes[] = {
    VELKUNSHE_KIND_PROGRAM, 0, VELKUNSHE_ROLE_OTHER, 0, 0, 0, 0, 0, 0, 0, /* 0 */
    VELKUNSHE_KIND_LABELED, 0, VELKUNSHE_ROLE_HELD, 0, 0, 0, 0, 0, 0, 0, /* 1 a: */
    VELKUNSHE_KIND_LABEL_IDENTIFIER, 1, VELKUNSHE_ROLE_LABEL, 0, 0, 0, 0, 0, 0, 1,
    VELKUNSHE_KIND_WHILE, 1, VELKUNSHE_ROLE_HELD, 0, 0, 0, 0, 0, 0, 0, /* 3 while (t) */
    VELKUNSHE_KIND_IDENTIFIER_REFERENCE, 3, VELKUNSHE_ROLE_OTHER, 0, 0, 0, 0, 0, 1, 1,
    VELKUNSHE_KIND_BLOCK, 3, VELKUNSHE_ROLE_HELD, 0, 0, 1, 0, 0, 0, 0,
    VELKUNSHE_KIND_SWITCH, 5, VELKUNSHE_ROLE_HELD, 0, 0, 1, 0, 0, 0, 0, /* 6 switch (s) */
    VELKUNSHE_KIND_IDENTIFIER_REFERENCE, 6, VELKUNSHE_ROLE_OTHER, 0, 0, 1, 0, 0, 2, 1,
    VELKUNSHE_KIND_SWITCH_CASE, 6, VELKUNSHE_ROLE_HELD, 0, 0, 2, 0, 0, 0, 0, /* 8 case c: */
    VELKUNSHE_KIND_IDENTIFIER_REFERENCE, 8, VELKUNSHE_ROLE_OTHER, 0, 0, 2, 0, 0, 3, 1,
    VELKUNSHE_KIND_CONTINUE, 8, VELKUNSHE_ROLE_HELD, 0, 0, 2, 0, 0, 0, 0, /* 10 continue a; */
    VELKUNSHE_KIND_LABEL_IDENTIFIER, 10, VELKUNSHE_ROLE_LABEL, 0, 0, 2, 0, 0, 0, 1,
    VELKUNSHE_KIND_OTHER_STATEMENT, 5, VELKUNSHE_ROLE_HELD, 0, 0, 1, 0, 0, 0, 0, /* 12 x; */
};
static const uint32_t loop_scopes[] = {0, VELKUNSHE_SCOPE_TOP, 0, 0, 0, 5, 1, 0, 6};
/* No length, but an address. */
static const uint8_t loop_source[] = "";
static const uint8_t loop_names[] = "atsc";

/* The tables and texts of a rule, in the order in which all calls take them. */
#define RULE(rule) \
    rule##_nodes, COUNT(rule##_nodes), rule##_scopes, COUNT(rule##_scopes), rule##_source, LENGTH(rule##_source), \
        rule##_names, LENGTH(rule##_names)

/* Long enough for the code of each unit of the second rule. */
#define LOOP_CODE (COUNT(loop_nodes) / VELKUNSHE_NODE * VELKUNSHE_CODE)

static inline void print_refusal(uint32_t refusal, uint32_t place, uint64_t needed) {
    printf("refusal %" PRIu32 " at %" PRIu32 ", needed %" PRIu64 ": %s\n", refusal, place, needed,
           velkunshe_refusal_sentence(refusal));
}

static inline void print_route(struct velkunshe_route_answer answer, const uint32_t *route) {
    if (answer.refusal != VELKUNSHE_REFUSAL_NONE) {
        print_refusal(answer.refusal, answer.place, answer.needed);
        return;
    }
    for (uint64_t i = 0; i < answer.entries; i++)
        printf("%" PRIu32 " ", route[i]);
    printf("end %" PRIu32 ", taken %" PRIu64 ": %s\n", answer.end, answer.taken, velkunshe_end_sentence(answer.end));
}

#endif
