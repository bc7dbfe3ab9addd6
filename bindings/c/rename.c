/* velkunshe_rename: `long: { continue long; }`, the names at 0 and 4; both labels become a. */
#include "rules.h"

static const uint8_t long_names[] = "longlong";

static void rename_labels(const uint32_t *nodes, size_t length, size_t room) {
    uint32_t renamed[COUNT(label_nodes)];
    uint8_t names[8];
    struct velkunshe_rename_answer answer =
        velkunshe_rename(VELKUNSHE_SOURCE_SCRIPT, nodes, length, label_scopes, COUNT(label_scopes), label_source,
                         LENGTH(label_source), long_names, LENGTH(long_names), renamed, COUNT(renamed), names, room);
    if (answer.refusal != VELKUNSHE_REFUSAL_NONE)
        print_refusal(answer.refusal, answer.place, answer.needed);
    else
        printf("names %.*s\n", (int)answer.names, (const char *)names);
}

int main(void) {
    uint32_t nodes[COUNT(label_nodes)];
    for (size_t i = 0; i < COUNT(nodes); i++)
        nodes[i] = label_nodes[i];
    /* The names' starts and lengths: the last two numbers of nodes 2 and 5. */
    nodes[2 * VELKUNSHE_NODE + 9] = nodes[5 * VELKUNSHE_NODE + 8] = nodes[5 * VELKUNSHE_NODE + 9] = 4;
    rename_labels(nodes, COUNT(nodes), 8);
    rename_labels(nodes, COUNT(nodes), 1);
    return 0;
}
