/* velkunshe_shared: how many entries the routes for two lists of answers have in common from their start on. */
#include "rules.h"

static void compare(const uint32_t *first, size_t first_count, const uint32_t *second, size_t second_count, size_t room) {
    uint32_t code[LOOP_CODE];
    struct velkunshe_shared_answer answer = velkunshe_shared(VELKUNSHE_SOURCE_SCRIPT, 0, RULE(loop), 0, first, first_count,
                                                             second, second_count, code, room);
    if (answer.refusal != VELKUNSHE_REFUSAL_NONE)
        print_refusal(answer.refusal, answer.place, answer.needed);
    else
        printf("shared %" PRIu64 "\n", answer.shared);
}

int main(void) {
    static const uint32_t first[] = {1, 0, 0}, second[] = {1, 5, 0};
    compare(first, COUNT(first), second, COUNT(second), LOOP_CODE);
    compare(first, COUNT(first), first, 1, LOOP_CODE);
    compare(first, COUNT(first), second, COUNT(second), 0);
    return 0;
}
