/* velkunshe_walk: the routes of velkunshe_route by the second engine, which needs no code slice. */
#include "rules.h"

static void show(const uint32_t *answers, size_t count, size_t room) {
    uint32_t route[8];
    struct velkunshe_route_answer answer =
        velkunshe_walk(VELKUNSHE_SOURCE_SCRIPT, 0, RULE(loop), 0, answers, count, route, room);
    print_route(answer, route);
}

int main(void) {
    static const uint32_t answers[] = {1, 0, 0};
    show(answers, COUNT(answers), 8);
    show(answers, COUNT(answers), 3);
    return 0;
}
