/* Faults that calls.c must find on the seeds: each call by way of one here, which does what the environment's PLANTED says (linked by --wrap). */
#include <stdlib.h>
#include <string.h>
#include <velkunshe.h>

static int planted(const char *fault) {
    const char *named = getenv("PLANTED");
    return named != NULL && strcmp(named, fault) == 0;
}

#define RULE_PARAMETERS \
    const uint32_t *nodes, size_t nodes_length, const uint32_t *scopes, size_t scopes_length, const uint8_t *source, \
        size_t source_length, const uint8_t *names, size_t names_length
#define RULE nodes, nodes_length, scopes, scopes_length, source, source_length, names, names_length

struct velkunshe_check_answer __real_velkunshe_check(uint32_t, uint32_t, RULE_PARAMETERS, uint32_t *, size_t);
struct velkunshe_check_answer __wrap_velkunshe_check(uint32_t type, uint32_t bodies, RULE_PARAMETERS, uint32_t *findings,
                                                     size_t findings_length) {
    struct velkunshe_check_answer answer = __real_velkunshe_check(type, bodies, RULE, findings, findings_length);
    if (planted("needed") && answer.needed > 0)
        answer.needed += VELKUNSHE_FINDING;
    if (planted("read") && source[source_length] == 0)
        answer.findings = 0;
    if (planted("input") && nodes_length > 6)
        ((uint32_t *)(uintptr_t)nodes)[6] ^= 1;
    return answer;
}

struct velkunshe_code_answer __real_velkunshe_code(uint32_t, uint32_t, RULE_PARAMETERS, uint32_t, uint32_t *, size_t);
struct velkunshe_code_answer __wrap_velkunshe_code(uint32_t type, uint32_t bodies, RULE_PARAMETERS, uint32_t unit,
                                                   uint32_t *code, size_t code_length) {
    struct velkunshe_code_answer answer = __real_velkunshe_code(type, bodies, RULE, unit, code, code_length);
    if (planted("refused") && answer.refusal != 0 && code_length > 0)
        code[0] = 0;
    return answer;
}

struct velkunshe_route_answer __real_velkunshe_walk(uint32_t, uint32_t, RULE_PARAMETERS, uint32_t, const uint32_t *, size_t,
                                                    uint32_t *, size_t);
struct velkunshe_route_answer __wrap_velkunshe_walk(uint32_t type, uint32_t bodies, RULE_PARAMETERS, uint32_t unit,
                                                    const uint32_t *answers, size_t answers_length, uint32_t *route,
                                                    size_t route_length) {
    struct velkunshe_route_answer answer =
        __real_velkunshe_walk(type, bodies, RULE, unit, answers, answers_length, route, route_length);
    if (planted("behind"))
        route[route_length] = 0;
    if (planted("front"))
        route[-1] = 0;
    if (planted("past") && answer.refusal == 0 && answer.entries < route_length)
        route[answer.entries] = 0;
    if (planted("entry") && answer.entries > 1)
        route[1] = route[0];
    return answer;
}

struct velkunshe_shared_answer __real_velkunshe_shared(uint32_t, uint32_t, RULE_PARAMETERS, uint32_t, const uint32_t *, size_t,
                                                       const uint32_t *, size_t, uint32_t *, size_t);
struct velkunshe_shared_answer __wrap_velkunshe_shared(uint32_t type, uint32_t bodies, RULE_PARAMETERS, uint32_t unit,
                                                       const uint32_t *first, size_t first_length, const uint32_t *second,
                                                       size_t second_length, uint32_t *code, size_t code_length) {
    struct velkunshe_shared_answer answer =
        __real_velkunshe_shared(type, bodies, RULE, unit, first, first_length, second, second_length, code, code_length);
    if (planted("shared") && answer.shared > 0)
        answer.shared--;
    return answer;
}

struct velkunshe_rename_answer __real_velkunshe_rename(uint32_t, RULE_PARAMETERS, uint32_t *, size_t, uint8_t *, size_t);
struct velkunshe_rename_answer __wrap_velkunshe_rename(uint32_t type, RULE_PARAMETERS, uint32_t *renamed_nodes,
                                                       size_t renamed_nodes_length, uint8_t *renamed_names,
                                                       size_t renamed_names_length) {
    struct velkunshe_rename_answer answer =
        __real_velkunshe_rename(type, RULE, renamed_nodes, renamed_nodes_length, renamed_names, renamed_names_length);
    if (planted("renamed") && answer.names > 0)
        renamed_names[answer.names - 1]++;
    return answer;
}

struct velkunshe_route_answer __real_velkunshe_route_stop(uint32_t, uint32_t, RULE_PARAMETERS, uint32_t, const uint32_t *,
                                                          size_t, uint32_t, uint64_t, uint32_t *, uint32_t *, size_t, uint32_t *,
                                                          size_t);
struct velkunshe_route_answer __wrap_velkunshe_route_stop(uint32_t type, uint32_t bodies, RULE_PARAMETERS, uint32_t unit,
                                                          const uint32_t *answers, size_t answers_length, uint32_t mark,
                                                          uint64_t stop, uint32_t *marks, uint32_t *code, size_t code_length,
                                                          uint32_t *route, size_t route_length) {
    struct velkunshe_route_answer answer = __real_velkunshe_route_stop(
        type, bodies, RULE, unit, answers, answers_length, mark, planted("stop") ? stop + 1 : stop, marks, code, code_length, route,
        route_length);
    if (planted("mark") && answer.end == VELKUNSHE_END_STOPPED)
        marks[mark * (VELKUNSHE_MARKS / 8)] = 0;
    return answer;
}

struct velkunshe_shorten_answer __real_velkunshe_shorten(uint32_t *, size_t);
struct velkunshe_shorten_answer __wrap_velkunshe_shorten(uint32_t *code, size_t code_length) {
    struct velkunshe_shorten_answer answer = __real_velkunshe_shorten(code, code_length);
    if (planted("freed") && answer.freed > 0)
        answer.freed--;
    if (planted("tail") && answer.freed > 0)
        code[code_length - 1] = 0;
    return answer;
}

struct velkunshe_run_answer __real_velkunshe_run(const uint32_t *, size_t, const uint32_t *, size_t, uint32_t *, size_t);
struct velkunshe_run_answer __wrap_velkunshe_run(const uint32_t *code, size_t code_length, const uint32_t *answers,
                                                 size_t answers_length, uint32_t *route, size_t route_length) {
    struct velkunshe_run_answer answer = __real_velkunshe_run(code, code_length, answers, answers_length, route, route_length);
    if (planted("end") && answer.end == VELKUNSHE_END_FELL_THROUGH)
        answer.end = VELKUNSHE_END_RETURNED;
    return answer;
}
