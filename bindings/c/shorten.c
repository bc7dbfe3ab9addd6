/* velkunshe_shorten: the code of `a: while(t){ switch(s){ case c: continue a; } x; }` without what no path reaches. */
#include "rules.h"

static void shorten(uint32_t *code, size_t length) {
    struct velkunshe_shorten_answer answer = velkunshe_shorten(code, length);
    if (answer.refusal != VELKUNSHE_REFUSAL_NONE)
        printf("refusal %" PRIu32 " at %" PRIu64 ": %s\n", answer.refusal, answer.place,
               velkunshe_refusal_sentence(answer.refusal));
    else
        printf("length %" PRIu64 ", freed %" PRIu64 "\n", answer.length, answer.freed);
}

int main(void) {
    uint32_t code[LOOP_CODE] = {0}, no_code[] = {2, 1, 0};
    struct velkunshe_code_answer made = velkunshe_code(VELKUNSHE_SOURCE_SCRIPT, 0, RULE(loop), 0, code, LOOP_CODE);
    shorten(code, made.length);
    /* A jump into itself. */
    shorten(no_code, COUNT(no_code));
    return 0;
}
