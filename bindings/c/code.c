/* velkunshe_code: the flat code of `a: while(t){ switch(s){ case c: continue a; } x; }` (docs/CODE.md explains it). */
#include "rules.h"

static struct velkunshe_code_answer make(uint32_t unit, uint32_t *code, size_t length) {
    return velkunshe_code(VELKUNSHE_SOURCE_SCRIPT, 0, RULE(loop), unit, code, length);
}

int main(void) {
    uint32_t code[LOOP_CODE] = {0};
    /* Node 1 is no unit. */
    struct velkunshe_code_answer answer = make(1, code, LOOP_CODE);
    print_refusal(answer.refusal, answer.place, answer.needed);
    answer = make(0, code, 0);
    print_refusal(answer.refusal, answer.place, answer.needed);
    answer = make(0, code, LOOP_CODE);
    for (uint64_t i = 0; i < answer.length; i++)
        printf("%s%" PRIu32, i == 0 ? "" : " ", code[i]);
    printf("\n");
    return 0;
}
