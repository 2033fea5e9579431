/* Writes a transcript over four drives, loses two of them, refills both, and opens the transcript from a new one alone. */
#include <stdio.h>
#include <stdlib.h>
#include "hmsr.h"

int main(void) {
    const size_t n = 4, k = 1, layers = 3, dead[] = {0, 1}, helpers[] = {2, 3};
    const size_t node = hmsr_node_symbols(n, k, layers), sent = hmsr_wire_symbols(n, k, layers, 2);
    uint16_t *nodes = malloc(n * node * sizeof *nodes), *wire = malloc(sent * sizeof *wire);
    const char said[] = "the witness was sworn";
    uint8_t opened[sizeof said] = {0};
    if (!nodes || !wire) return 1;

    size_t wrote = hmsr_write(n, k, layers, (const uint8_t *)said, sizeof said, nodes, n * node);
    for (size_t i = 0; i < 2 * node; i++) nodes[i] = 65535; /* drives 0 and 1 are lost */
    size_t repaired = hmsr_repair(n, k, layers, dead, 2, helpers, 2, nodes, n * node, wire, sent);
    size_t open = hmsr_open(n, k, layers, dead, 1, nodes, node, sizeof said, opened, sizeof opened);
    printf("write: %s\nrepair: %s\n", hmsr_refusal_text(wrote), hmsr_refusal_text(repaired));
    printf("open: %s\n%s\n", hmsr_refusal_text(open), (const char *)opened);
    free(nodes);
    free(wire);
    return wrote || repaired || open;
}
