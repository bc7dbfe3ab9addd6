/* velkunshe_route_resume: a route that was stopped behind two answers is taken up there with different further ones. */
#include "rules.h"

static uint32_t marks[VELKUNSHE_MARKS];

static void resume(uint32_t mark, uint32_t further) {
    uint32_t code[LOOP_CODE], route[8];
    struct velkunshe_route_answer answer = velkunshe_route_resume(
        VELKUNSHE_SOURCE_SCRIPT, 0, RULE(loop), 0, mark, &further, 1, marks, code, LOOP_CODE, route, COUNT(route));
    print_route(answer, route);
}

int main(void) {
    static const uint32_t answers[] = {1, 0};
    uint32_t code[LOOP_CODE], route[8];
    velkunshe_route_stop(VELKUNSHE_SOURCE_SCRIPT, 0, RULE(loop), 0, answers, COUNT(answers), 3, 2, marks, code, LOOP_CODE,
                         route, COUNT(route));
    resume(3, 0);
    resume(3, 1);
    /* Nothing was stopped under this one. */
    resume(5, 0);
    return 0;
}
