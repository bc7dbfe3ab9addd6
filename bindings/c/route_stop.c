/* velkunshe_route_stop: a route that is stopped under a mark behind some answers. */
#include "rules.h"

static void stop(uint32_t mark, uint64_t behind) {
    static const uint32_t answers[] = {1, 0, 0};
    /* All clear. */
    static uint32_t marks[VELKUNSHE_MARKS];
    uint32_t code[LOOP_CODE], route[8];
    struct velkunshe_route_answer answer =
        velkunshe_route_stop(VELKUNSHE_SOURCE_SCRIPT, 0, RULE(loop), 0, answers, COUNT(answers), mark, behind, marks, code,
                             LOOP_CODE, route, COUNT(route));
    print_route(answer, route);
}

int main(void) {
    stop(3, 2);
    stop(3, 0);
    /* It ends before. */
    stop(3, 4);
    /* There are eight marks. */
    stop(8, 2);
    return 0;
}
