/* A case for libFuzzer: every call of include/velkunshe.h on tables of any numbers and slices of any lengths. Nothing may be written but what is
 * promised, lengths told must be right, and what two calls say of one rule must agree. */
#include <velkunshe.h>

#include "input.h"
#include "lent.h"
#include "mutate.h"
#include "reached.h"

/* What the fuzzer is told of the answers, beside the instructions that are reached. */
enum { SEEN = 1 << 15 };
__attribute__((section("__libfuzzer_extra_counters"))) static uint8_t seen[SEEN];

static void saw(uint32_t what, uint32_t first, uint32_t second) {
    uint32_t mixed = (what * 0x9e3779b1u ^ first) * 0x85ebca6bu ^ second;
    mixed = (mixed ^ mixed >> 15) * 0xc2b2ae35u;
    seen[(mixed ^ mixed >> 13) % SEEN] = 1;
}

enum { SAW_REFUSAL, SAW_FINDING, SAW_CODES, SAW_CODE, SAW_ROUTE, SAW_END, SAW_SHARED, SAW_NAMES, SAW_SHORTER };

/* The slices that are read, and those that are written. */
static struct lent nodes, scopes, source, names, answers, others;
static struct lent findings, code, route, walked, marks, renamed_nodes, renamed_names, again, names_again;

/* How far the cases came; printed at the end. */
enum { CASES, TAKEN, WITH_FINDINGS, CODED, ROUTED, STOPPED, RENAMED, WAYS };
static uint64_t came[WAYS];

static void print_ways(void) {
    static const char *const words[WAYS] = {"cases", "tables taken", "with findings", "coded", "routed", "stopped and taken up", "renamed"};
    for (int way = 0; way < WAYS; way++)
        fprintf(stderr, "%s: %llu\n", words[way], (unsigned long long)came[way]);
    fprintf(stderr, "instructions reached: %zu of %zu\n", reached_count, instruction_count);
}

static const struct input *in;

#define LENT(slice) numbers(&slice), (slice).entries
#define RULE LENT(nodes), LENT(scopes), source.at, source.entries, names.at, names.entries

static uint32_t kind_at(uint64_t node) {
    return node < nodes.entries / VELKUNSHE_NODE ? numbers(&nodes)[node * VELKUNSHE_NODE] : UINT32_MAX;
}

static uint32_t bits(uint64_t number) {
    uint32_t count = 0;
    for (; number > 0; number >>= 1)
        count++;
    return count;
}

static size_t room_of(enum head which, size_t most) { return in->head[which] % (most + 1); }

static int of_the_tables(uint32_t refusal) {
    return (refusal >= VELKUNSHE_REFUSAL_SIZES && refusal <= VELKUNSHE_REFUSAL_WALK) ||
           (refusal >= VELKUNSHE_REFUSAL_MISPLACED && refusal <= VELKUNSHE_REFUSAL_RETURN_IN_STATIC);
}

/* The longest that is lent on a second try; longer needs are left. */
static int can_lend(uint64_t entries, size_t width) { return entries <= (ROOM - MARGIN) / width; }

static struct velkunshe_check_answer check(size_t room) {
    lend(&findings, room, (int)in->head[AT_FRONT] & 1);
    struct velkunshe_check_answer answer =
        velkunshe_check(in->head[SOURCE_TYPE], in->head[ASYNC_BODIES], RULE, LENT(findings));
    REQUIRE(untouched_behind(&findings, answer.findings * VELKUNSHE_FINDING));
    REQUIRE(answer.refusal == 0 || answer.findings == 0);
    REQUIRE((answer.refusal == VELKUNSHE_REFUSAL_FINDINGS_SLICE) == (answer.needed > 0));
    REQUIRE(answer.needed == 0 || answer.needed > findings.entries);
    REQUIRE(answer.refusal == 0 || answer.needed > 0 || of_the_tables(answer.refusal));
    return answer;
}

/* A with, an await and a class are shown by their word, which reaches behind the source in tables that no text gives. */
static uint32_t word_of(uint32_t code) {
    switch (code) {
    case VELKUNSHE_CODE_WITH_STATEMENT: return 4;
    case VELKUNSHE_CODE_CLASS_STATIC_BLOCK_AWAIT:
    case VELKUNSHE_CODE_REQUIRE_CLASS_NAME: return 5;
    default: return 0;
    }
}

static void look_at_findings(uint64_t count) {
    uint32_t last = 0;
    for (uint64_t i = 0; i < count; i++) {
        const uint32_t *finding = numbers(&findings) + i * VELKUNSHE_FINDING;
        REQUIRE(finding[0] >= VELKUNSHE_CODE_REDECLARATION && finding[0] <= VELKUNSHE_CODE_STATIC_AND_INSTANCE_PRIVATE);
        REQUIRE(finding[1] < nodes.entries / VELKUNSHE_NODE);
        REQUIRE(finding[2] <= finding[3] && finding[2] <= source.entries);
        REQUIRE(finding[3] <= source.entries || finding[3] == finding[2] + word_of(finding[0]));
        REQUIRE(finding[4] <= finding[5] && finding[5] <= source.entries);
        REQUIRE(finding[6] <= VELKUNSHE_CONTEXT_MODULE_AWAIT);
        saw(SAW_FINDING, finding[0] * 8 + finding[6], kind_at(finding[1]));
        saw(SAW_CODES, last, finding[0]);
        last = finding[0];
    }
}

/* The findings, in a slice that is long enough. */
static struct velkunshe_check_answer try_check(void) {
    struct velkunshe_check_answer answer = check(room_of(FINDINGS_ROOM, 1000));
    saw(SAW_REFUSAL, answer.refusal, 0);
    if (answer.needed > 0 && can_lend(answer.needed, 4)) {
        uint64_t needed = answer.needed;
        answer = check(needed);
        REQUIRE(answer.refusal == 0 && answer.findings * VELKUNSHE_FINDING == needed);
    }
    look_at_findings(answer.findings);
    came[TAKEN] += answer.refusal == 0;
    came[WITH_FINDINGS] += answer.findings > 0;
    return answer;
}

static struct velkunshe_code_answer make(size_t room) {
    lend(&code, room, (int)in->head[AT_FRONT] >> 1 & 1);
    struct velkunshe_code_answer answer =
        velkunshe_code(in->head[SOURCE_TYPE], in->head[ASYNC_BODIES], RULE, in->head[UNIT], LENT(code));
    REQUIRE(untouched_behind(&code, answer.length));
    REQUIRE(answer.refusal == 0 || answer.length == 0);
    REQUIRE((answer.refusal == VELKUNSHE_REFUSAL_CODE_SLICE) == (answer.needed > 0));
    REQUIRE(answer.needed == 0 || answer.needed > code.entries);
    return answer;
}

/* The code, in a slice that just takes it; what turns the tables down or is found stands in its way. */
static struct velkunshe_code_answer try_code(struct velkunshe_check_answer checked) {
    struct velkunshe_code_answer answer = make(room_of(CODE_ROOM, 10000));
    saw(SAW_REFUSAL, 100 + answer.refusal, 0);
    if (of_the_tables(checked.refusal))
        REQUIRE(answer.refusal == checked.refusal && answer.place == checked.place);
    else if (checked.findings + checked.needed > 0)
        REQUIRE(answer.refusal == VELKUNSHE_REFUSAL_UNIT || answer.refusal == VELKUNSHE_REFUSAL_FINDINGS);
    if (answer.needed > 0 && can_lend(answer.needed, 4)) {
        uint64_t needed = answer.needed;
        answer = make(needed);
        REQUIRE(answer.refusal == 0 && answer.length == needed);
    }
    came[CODED] += answer.refusal == 0;
    REQUIRE(answer.length <= nodes.entries / VELKUNSHE_NODE * VELKUNSHE_CODE);
    for (uint64_t i = 0; i < answer.length && numbers(&code)[i] <= VELKUNSHE_INSTRUCTION_CASE; i++)
        saw(SAW_CODE, numbers(&code)[i], bits(i));
    return answer;
}

static void look_at_route(struct velkunshe_route_answer answer) {
    uint32_t last = UINT32_MAX;
    for (uint64_t i = 0; i < answer.entries; i++) {
        uint32_t kind = kind_at(numbers(&walked)[i]);
        REQUIRE(kind <= VELKUNSHE_KIND_ANYTHING_ELSE);
        saw(SAW_ROUTE, last, kind);
        last = kind;
    }
    saw(SAW_END, answer.end, bits(answer.entries));
}

static struct velkunshe_route_answer walk(const uint32_t *list, size_t count, size_t room) {
    lend(&walked, room, (int)in->head[AT_FRONT] >> 2 & 1);
    struct velkunshe_route_answer answer =
        velkunshe_walk(in->head[SOURCE_TYPE], in->head[ASYNC_BODIES], RULE, in->head[UNIT], list, count, LENT(walked));
    REQUIRE(untouched_behind(&walked, answer.entries));
    REQUIRE(answer.refusal != VELKUNSHE_REFUSAL_CODE_SLICE);
    REQUIRE((answer.refusal == VELKUNSHE_REFUSAL_ROUTE_SLICE) == (answer.needed > 0));
    REQUIRE(answer.needed == 0 || answer.needed > walked.entries);
    REQUIRE(answer.taken <= count);
    return answer;
}

/* The route by the second engine, in a slice that just takes it where that can be lent. */
static struct velkunshe_route_answer try_walk(void) {
    struct velkunshe_route_answer answer = walk(LENT(answers), room_of(ROUTE_ROOM, 10000));
    if (answer.needed > 0 && can_lend(answer.needed, 4)) {
        uint64_t needed = answer.needed;
        answer = walk(LENT(answers), needed);
        REQUIRE(answer.refusal == 0 && answer.entries == needed);
    }
    look_at_route(answer);
    came[ROUTED] += answer.refusal == 0;
    return answer;
}

static int same(struct velkunshe_route_answer a, struct velkunshe_route_answer b) {
    return a.refusal == b.refusal && a.place == b.place && a.entries == b.entries && a.needed == b.needed &&
           a.taken == b.taken && a.end == b.end;
}

/* The first engine gives the same as the walk, entry by entry, and its code is that of the code call. */
static void try_route(struct velkunshe_route_answer expected, struct velkunshe_code_answer made) {
    lend(&again, made.length, (int)in->head[AT_FRONT] >> 3 & 1);
    lend(&route, walked.entries, (int)in->head[AT_FRONT] >> 2 & 1);
    struct velkunshe_route_answer answer = velkunshe_route(in->head[SOURCE_TYPE], in->head[ASYNC_BODIES], RULE,
                                                           in->head[UNIT], LENT(answers), LENT(again), LENT(route));
    REQUIRE(untouched_behind(&again, made.length) && untouched_behind(&route, answer.entries));
    if (made.needed > 0) {
        REQUIRE(answer.refusal == VELKUNSHE_REFUSAL_CODE_SLICE && answer.needed == made.needed);
        return;
    }
    REQUIRE(same(answer, expected));
    REQUIRE(memcmp(route.at, walked.at, answer.entries * 4) == 0);
    REQUIRE(memcmp(again.at, code.at, made.length * 4) == 0);
}

/* As long as the beginning that the two routes share, where both can be lent. */
static void try_shared(struct velkunshe_route_answer first, struct velkunshe_code_answer made) {
    lend(&again, made.length, (int)in->head[AT_FRONT] >> 3 & 1);
    struct velkunshe_shared_answer answer = velkunshe_shared(in->head[SOURCE_TYPE], in->head[ASYNC_BODIES], RULE,
                                                             in->head[UNIT], LENT(answers), LENT(others), LENT(again));
    REQUIRE(untouched_behind(&again, made.length));
    REQUIRE(answer.refusal == (made.needed > 0 ? VELKUNSHE_REFUSAL_CODE_SLICE : made.refusal));
    REQUIRE(answer.refusal == 0 || answer.shared == 0);
    if (answer.refusal != 0 || first.refusal != 0)
        return;
    /* `route` holds the first. */
    struct velkunshe_route_answer second = walk(LENT(others), first.entries + 1);
    if (second.refusal == VELKUNSHE_REFUSAL_ROUTE_SLICE && can_lend(second.needed, 4))
        second = walk(LENT(others), second.needed);
    if (second.refusal != 0)
        return;
    uint64_t shared = 0;
    while (shared < first.entries && shared < second.entries && numbers(&route)[shared] == numbers(&walked)[shared])
        shared++;
    REQUIRE(answer.shared == shared);
    saw(SAW_SHARED, bits(shared), bits(first.entries));
}

static struct velkunshe_route_answer stop(uint32_t mark, uint64_t behind, size_t room) {
    lend(&again, code.entries, 0);
    lend(&walked, room, 0);
    return velkunshe_route_stop(in->head[SOURCE_TYPE], in->head[ASYNC_BODIES], RULE, in->head[UNIT], LENT(answers), mark,
                                behind, numbers(&marks), LENT(again), LENT(walked));
}

/* Stopped and taken up again, the parts are the route (which `route` holds). */
static void try_stopped(struct velkunshe_route_answer whole) {
    uint32_t mark = in->head[FROM] % 8;
    uint64_t behind = in->head[STOP] % (answers.entries + 1);
    struct velkunshe_route_answer begun = stop(mark, behind, whole.entries);
    REQUIRE(begun.refusal == 0 && untouched_behind(&walked, begun.entries));
    REQUIRE(memcmp(walked.at, route.at, begun.entries * 4) == 0);
    if (begun.end != VELKUNSHE_END_STOPPED) {
        REQUIRE(same(begun, whole));
        return;
    }
    came[STOPPED]++;
    REQUIRE(begun.taken == behind);
    lend(&walked, whole.entries - begun.entries, 1);
    struct velkunshe_route_answer rest =
        velkunshe_route_resume(in->head[SOURCE_TYPE], in->head[ASYNC_BODIES], RULE, in->head[UNIT], mark,
                               numbers(&answers) + behind, answers.entries - behind, numbers(&marks), LENT(again), LENT(walked));
    REQUIRE(rest.refusal == 0 && begun.entries + rest.entries == whole.entries);
    REQUIRE(rest.taken + behind == whole.taken && rest.end == whole.end);
    REQUIRE(memcmp(walked.at, route.at + begun.entries * 4, rest.entries * 4) == 0);
}

/* A shorter code frees what it says, leaves the rest, stays at a second pass, and has the route (which `route` holds). */
static void try_shorter(struct velkunshe_code_answer made, struct velkunshe_route_answer whole) {
    lend_copy(&again, code.at, made.length, (int)in->head[AT_FRONT] >> 3 & 1);
    struct velkunshe_shorten_answer answer = velkunshe_shorten(LENT(again));
    REQUIRE(answer.refusal == 0 && answer.length + answer.freed == made.length);
    REQUIRE(memcmp(again.at + answer.length * 4, code.at + answer.length * 4, answer.freed * 4) == 0);
    REQUIRE(untouched_behind(&again, again.entries));
    saw(SAW_SHORTER, bits(answer.length), bits(answer.freed));
    struct velkunshe_shorten_answer twice = velkunshe_shorten(numbers(&again), answer.length);
    REQUIRE(twice.refusal == 0 && twice.freed == 0 && twice.length == answer.length);
    lend(&walked, whole.entries, 0);
    struct velkunshe_run_answer run = velkunshe_run(numbers(&again), answer.length, LENT(answers), LENT(walked));
    REQUIRE(run.refusal == 0 && run.entries == whole.entries && run.taken == whole.taken && run.end == whole.end);
    REQUIRE(memcmp(walked.at, route.at, run.entries * 4) == 0);
}

/* A code of any numbers: that of the unit, or a part of it, with another number in it. Both calls refuse the same ones. */
static void try_any_code(struct velkunshe_code_answer made) {
    lend_copy(&again, code.at, in->head[STOP] % 3 ? made.length : made.length * 2 / 3, 0);
    if (again.entries > 0)
        numbers(&again)[in->head[FROM] % again.entries] = in->head[TO];
    lend(&walked, room_of(ROUTE_ROOM, 10000), 1);
    struct velkunshe_run_answer run = velkunshe_run(LENT(again), LENT(answers), LENT(walked));
    REQUIRE(untouched_behind(&walked, run.entries) && run.end <= VELKUNSHE_END_NO_OTHER_END);
    REQUIRE((run.refusal == VELKUNSHE_REFUSAL_ROUTE_SLICE) == (run.needed > 0));
    struct velkunshe_shorten_answer answer = velkunshe_shorten(LENT(again));
    REQUIRE(untouched_behind(&again, again.entries) && answer.length <= again.entries);
    REQUIRE((answer.refusal != 0) == (run.refusal == VELKUNSHE_REFUSAL_NO_CODE) && answer.place == run.place);
    saw(SAW_REFUSAL, 400 + answer.refusal, run.end);
}

/* Marks of any numbers: a call ends, and writes no more than it says. */
static void try_marks(void) {
    lend(&marks, VELKUNSHE_MARKS, (int)in->head[AT_FRONT] >> 4 & 1);
    memset(marks.at, 0, bytes_of(&marks));
    memcpy(marks.at, in->marked.at, in->marked.entries * 4);
    lend(&again, room_of(CODE_ROOM, 10000), 0);
    lend(&walked, room_of(ROUTE_ROOM, 10000), 1);
    struct velkunshe_route_answer answer = velkunshe_route_resume_stop(
        in->head[SOURCE_TYPE], in->head[ASYNC_BODIES], RULE, in->head[UNIT], in->head[FROM], LENT(answers), in->head[TO],
        in->head[STOP], numbers(&marks), LENT(again), LENT(walked));
    REQUIRE(untouched_behind(&walked, answer.entries) && untouched_behind(&marks, VELKUNSHE_MARKS));
    saw(SAW_REFUSAL, 200 + answer.refusal, answer.end);
    velkunshe_route_resume(in->head[SOURCE_TYPE], in->head[ASYNC_BODIES], RULE, in->head[UNIT], in->head[TO], LENT(answers),
                           numbers(&marks), LENT(again), LENT(walked));
    stop(in->head[TO], in->head[STOP], room_of(ROUTE_ROOM, 10000));
    REQUIRE(untouched_behind(&marks, VELKUNSHE_MARKS));
}

static struct velkunshe_rename_answer rename_to(struct lent *to_nodes, struct lent *to_names, const struct lent *from_nodes,
                                                const struct lent *from_names) {
    struct velkunshe_rename_answer answer =
        velkunshe_rename(in->head[SOURCE_TYPE], numbers(from_nodes), from_nodes->entries, LENT(scopes), source.at,
                         source.entries, from_names->at, from_names->entries, numbers(to_nodes), to_nodes->entries, to_names->at,
                         to_names->entries);
    REQUIRE(untouched_behind(to_nodes, answer.refusal == 0 ? from_nodes->entries : 0));
    REQUIRE(untouched_behind(to_names, answer.names));
    return answer;
}

/* Renamed twice is renamed once, and the findings stay where they were. */
static void try_rename(struct velkunshe_check_answer checked) {
    lend(&renamed_nodes, room_of(NODES_ROOM, 20000), 0);
    lend(&renamed_names, room_of(NAMES_ROOM, 20000), 1);
    struct velkunshe_rename_answer answer = rename_to(&renamed_nodes, &renamed_names, &nodes, &names);
    saw(SAW_REFUSAL, 300 + answer.refusal, 0);
    if (of_the_tables(checked.refusal))
        REQUIRE(answer.refusal == checked.refusal && answer.place == checked.place);
    if (answer.refusal != 0)
        return;
    came[RENAMED]++;
    saw(SAW_NAMES, bits(answer.names), bits(names.entries));
    renamed_nodes.entries = nodes.entries;
    renamed_names.entries = answer.names;
    lend(&again, nodes.entries, 1);
    lend(&names_again, answer.names, 0);
    struct velkunshe_rename_answer twice = rename_to(&again, &names_again, &renamed_nodes, &renamed_names);
    REQUIRE(twice.refusal == 0 && twice.names == answer.names);
    REQUIRE(memcmp(again.at, renamed_nodes.at, bytes_of(&again)) == 0);
    REQUIRE(memcmp(names_again.at, renamed_names.at, answer.names) == 0);
    lend(&walked, findings.entries, 0);
    struct velkunshe_check_answer after =
        velkunshe_check(in->head[SOURCE_TYPE], in->head[ASYNC_BODIES], LENT(again), LENT(scopes), source.at, source.entries,
                        names_again.at, names_again.entries, LENT(walked));
    REQUIRE(after.refusal == checked.refusal && after.findings == checked.findings);
    REQUIRE(memcmp(walked.at, findings.at, after.findings * VELKUNSHE_FINDING * 4) == 0);
}

int LLVMFuzzerInitialize(int *argc, char ***argv) {
    (void)argc;
    watch_instructions((*argv)[0]);
    atexit(print_ways);
    struct lent *of_numbers[] = {&nodes, &scopes, &answers, &others,        &findings, &code,
                                 &route, &walked, &marks,   &renamed_nodes, &again};
    struct lent *of_bytes[] = {&source, &names, &renamed_names, &names_again};
    for (size_t i = 0; i < sizeof of_numbers / sizeof *of_numbers; i++)
        make_room(of_numbers[i], 4);
    for (size_t i = 0; i < sizeof of_bytes / sizeof *of_bytes; i++)
        make_room(of_bytes[i], 1);
    return 0;
}

static void lend_input(void) {
    int at_front = (int)in->head[AT_FRONT] >> 5 & 1;
    lend_copy(&nodes, in->nodes.at, in->nodes.entries, at_front);
    lend_copy(&scopes, in->scopes.at, in->scopes.entries, at_front);
    lend_copy(&answers, in->answers.at, in->answers.entries, at_front);
    lend_copy(&others, in->others.at, in->others.entries, at_front);
    lend_copy(&source, in->source.at, in->source.entries, at_front);
    lend_copy(&names, in->names.at, in->names.entries, at_front);
}

static void require_unchanged(void) {
    REQUIRE(unchanged(&nodes, in->nodes.at) && unchanged(&scopes, in->scopes.at));
    REQUIRE(unchanged(&answers, in->answers.at) && unchanged(&others, in->others.at));
    REQUIRE(unchanged(&source, in->source.at) && unchanged(&names, in->names.at));
}

int LLVMFuzzerTestOneInput(const uint8_t *data, size_t size) {
    struct input input;
    if (!read_input(&input, data, size) || input.marked.entries > VELKUNSHE_MARKS)
        return 0;
    in = &input;
    came[CASES]++;
    lend_input();
    struct velkunshe_check_answer checked = try_check();
    struct velkunshe_code_answer made = try_code(checked);
    struct velkunshe_route_answer walked_to = try_walk();
    try_route(walked_to, made);
    if (made.refusal == 0 && walked_to.refusal == 0) {
        lend(&marks, VELKUNSHE_MARKS, 0);
        memset(marks.at, 0, bytes_of(&marks));
        try_stopped(walked_to);
        try_shorter(made, walked_to);
    }
    try_shared(walked_to, made);
    try_any_code(made);
    try_marks();
    try_rename(checked);
    require_unchanged();
    return 0;
}
