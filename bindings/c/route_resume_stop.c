/* velkunshe_route_resume_stop: the route on 1, 5, 0 in three parts, each of which takes one answer. */
#include "rules.h"

static uint32_t marks[VELKUNSHE_MARKS], code[LOOP_CODE], route[8];

/* Takes up `from` with one answer and stops again under `to`. */
static void step(uint32_t from, uint32_t answer, uint32_t to) {
    print_route(velkunshe_route_resume_stop(VELKUNSHE_SOURCE_SCRIPT, 0, RULE(loop), 0, from, &answer, 1, to, 1, marks, code,
                                            LOOP_CODE, route, COUNT(route)),
                route);
}

int main(void) {
    static const uint32_t first = 1, last = 0;
    print_route(velkunshe_route_stop(VELKUNSHE_SOURCE_SCRIPT, 0, RULE(loop), 0, &first, 1, 3, 1, marks, code, LOOP_CODE,
                                     route, COUNT(route)),
                route);
    step(3, 5, 6);
    print_route(velkunshe_route_resume(VELKUNSHE_SOURCE_SCRIPT, 0, RULE(loop), 0, 6, &last, 1, marks, code, LOOP_CODE, route,
                                       COUNT(route)),
                route);
    /* Nothing was stopped under this one. */
    step(5, 0, 6);
    return 0;
}
