/* velkunshe_route: what `a: while(t){ switch(s){ case c: continue a; } x; }` comes to on lists of answers. */
#include "rules.h"

static void show(const uint32_t *answers, size_t count, size_t room) {
    uint32_t code[LOOP_CODE], route[8];
    struct velkunshe_route_answer answer =
        velkunshe_route(VELKUNSHE_SOURCE_SCRIPT, 0, RULE(loop), 0, answers, count, code, LOOP_CODE, route, room);
    print_route(answer, route);
}

int main(void) {
    static const uint32_t first[] = {1, 0, 0}, second[] = {1, 5, 0};
    show(first, COUNT(first), 8);
    show(second, COUNT(second), 4);
    /* No answer for the switch. */
    show(first, 1, 8);
    /* One entry too short. */
    show(first, COUNT(first), 3);
    return 0;
}
