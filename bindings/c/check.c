/* velkunshe_check: what is wrong in `a: { continue a; }`. */
#include "rules.h"

static struct velkunshe_check_answer check(uint32_t *findings, size_t length) {
    return velkunshe_check(VELKUNSHE_SOURCE_SCRIPT, 0, RULE(label), findings, length);
}

static void print(struct velkunshe_check_answer answer, const uint32_t *finding) {
    if (answer.refusal != VELKUNSHE_REFUSAL_NONE)
        print_refusal(answer.refusal, answer.place, answer.needed);
    for (uint64_t i = 0; i < answer.findings; i++, finding += VELKUNSHE_FINDING)
        printf("code %" PRIu32 " at node %" PRIu32 ", bytes %" PRIu32 " to %" PRIu32 " and %" PRIu32 " to %" PRIu32
               ", %s: %s\n",
               finding[0], finding[1], finding[2], finding[3], finding[4], finding[5],
               velkunshe_context_sentence(finding[6]), velkunshe_code_sentence(finding[0]));
}

int main(void) {
    uint32_t findings[VELKUNSHE_FINDING + 1] = {0};
    findings[VELKUNSHE_FINDING] = 77;
    /* An empty slice: nothing is written, and the answer says how long it must be. */
    print(check(findings, 0), findings);
    print(check(findings, VELKUNSHE_FINDING), findings);
    printf("behind the finding %" PRIu32 "\n", findings[VELKUNSHE_FINDING]);
    /* No table at all. */
    print(velkunshe_check(VELKUNSHE_SOURCE_SCRIPT, 0, label_nodes, 0, label_scopes, COUNT(label_scopes), label_source,
                          LENGTH(label_source), label_names, LENGTH(label_names), findings, VELKUNSHE_FINDING),
          findings);
    return 0;
}
