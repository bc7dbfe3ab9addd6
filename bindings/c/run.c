/* velkunshe_run: a code, whoever wrote it, over lists of answers. */
#include "rules.h"

static void run(const uint32_t *code, size_t length, const uint32_t *answers, size_t count, size_t room) {
    uint32_t route[8];
    struct velkunshe_run_answer answer = velkunshe_run(code, length, answers, count, route, room);
    if (answer.refusal != VELKUNSHE_REFUSAL_NONE) {
        printf("refusal %" PRIu32 " at %" PRIu64 ", needed %" PRIu64 ": %s\n", answer.refusal, answer.place, answer.needed,
               velkunshe_refusal_sentence(answer.refusal));
        return;
    }
    for (uint64_t i = 0; i < answer.entries; i++)
        printf("%" PRIu32 " ", route[i]);
    printf("end %" PRIu32 ", taken %" PRIu64 ": %s\n", answer.end, answer.taken, velkunshe_end_sentence(answer.end));
}

int main(void) {
    static const uint32_t answers[] = {1, 0, 0};
    /* 1, 4: lists 4; 6, 2: ends with 2, thrown. */
    static const uint32_t by_hand[] = {VELKUNSHE_INSTRUCTION_LIST, 4, VELKUNSHE_INSTRUCTION_LIST, 5, VELKUNSHE_INSTRUCTION_END, 2};
    uint32_t code[LOOP_CODE] = {0};
    struct velkunshe_code_answer made = velkunshe_code(VELKUNSHE_SOURCE_SCRIPT, 0, RULE(loop), 0, code, LOOP_CODE);
    run(code, made.length, answers, COUNT(answers), 8);
    run(by_hand, COUNT(by_hand), answers, 0, 8);
    run(by_hand, COUNT(by_hand), answers, 0, 1);
    /* Without its end the last instruction runs on. */
    run(by_hand, 4, answers, 0, 8);
    return 0;
}
