/* Prints the header's constants, a card of each form with its header's numbers, what choosing layers gives, whether transfers may run in
 * some orders, what opening stretches and corrections leave, a first step whose messages arrive one by one, the texts, and every size for
 * all shapes and losses of the numbers given, with what the library says to buffers of these sizes. It is compiled as C and as C++. */
#include <stdio.h>
#include <stdlib.h>
#include <string.h>
#include "hmsr.h"

/* The first h nodes are dead, and the k + 1 behind them help. */
static const size_t nodes[] = {0,  1,  2,  3,  4,  5,  6,  7,  8,  9,  10, 11, 12, 13, 14, 15,
                               16, 17, 18, 19, 20, 21, 22, 23, 24, 25, 26, 27, 28, 29, 30, 31};

/* Filled with symbols above 256, so that a call turns back with 5 where it has found every length exact. */
static uint16_t symbols[14 * 245760], wire[1 << 22];
static uint8_t card[1 << 19];

static void print_constants(void) {
    printf("%s %d.%d.%d\n", HMSR_VERSION, HMSR_VERSION_MAJOR, HMSR_VERSION_MINOR, HMSR_VERSION_PATCH);
    printf("BadShape %d\nBadNodes %d\nPartBatch %d\n", HMSR_BAD_SHAPE, HMSR_BAD_NODES, HMSR_PART_BATCH);
    printf("WrongLength %d\nBadSymbol %d\nMalformed %d\n", HMSR_WRONG_LENGTH, HMSR_BAD_SYMBOL, HMSR_MALFORMED);
    printf("NoTranscript %d\nPastEnd %d\nNoLayers %d\n", HMSR_NO_TRANSCRIPT, HMSR_PAST_END, HMSR_NO_LAYERS);
    printf("BadChange %d\nBadOrder %d\n", HMSR_BAD_CHANGE, HMSR_BAD_ORDER);
    printf("%d %d %d\n", HMSR_HEADER, HMSR_PLAN_TEXT, HMSR_STRETCHES);
}

/* Packs document 01's card for node 1 with a hearing number, and unpacks it: what is returned, and the bytes or the header's numbers. */
static void print_card(size_t hearing) {
    const uint16_t node[] = {253, 247, 0, 0, 0, 0, 0, 0};
    uint16_t back[8];
    size_t header[HMSR_HEADER] = {0}, i;
    size_t packed = hmsr_pack(3, 1, 1, 1, 2, hearing, node, 8, card, hmsr_card_room(3, 1, 1));
    printf("%zu:", packed);
    for (i = 256; i < packed; i++) printf(" %d", card[i - 256]);
    printf("\n");
    if (packed < 256) return;
    printf("%zu:", hmsr_unpack(card, packed - 256, back, 8, header, HMSR_HEADER));
    for (i = 0; i < HMSR_HEADER; i++) printf(" %zu", header[i]);
    printf("\n");
}

static void print_layers(void) {
    const size_t losses[] = {2, 4, 2, 6, 10, SIZE_MAX};
    printf("%zu %zu", hmsr_layers(12, 6, losses, 2), hmsr_layers(12, 6, losses + 1, 2));
    printf(" %zu %zu", hmsr_layers(12, 6, NULL, 0), hmsr_layers(12, 6, losses, 0));
    printf(" %zu %zu", hmsr_layers(12, 1, losses + 4, 1), hmsr_layers(12, 5, losses + 2, 2));
    printf(" %zu %zu", hmsr_layers(12, 6, losses + 2, 2), hmsr_layers(12, 1, losses + 2, 4));
    printf(" %zu\n", hmsr_layers(2, 1, losses, 6));
}

/* The first h nodes are dead and the k + 1 behind them help: document 01's example where n is 4, k is 1 and h is 2. */
static void print_may_run(size_t n, size_t k, size_t layers, size_t h, const size_t *pairs, size_t count) {
    printf(" %zu", hmsr_may_run(n, k, layers, nodes, h, nodes + h, k + 1, pairs, count));
}

static void print_orders(void) {
    const size_t plan[] = {2, 0, 3, 0, 2, 1, 3, 1, 1, 0, 0, 1, SIZE_MAX, SIZE_MAX};
    const size_t early[] = {2, 1, 1, 0, 3, 1, 2, 0, 3, 0, 0, 1};
    printf("orders:");
    print_may_run(4, 1, 3, 2, plan, 12);
    print_may_run(4, 1, 3, 2, plan, 10);
    print_may_run(4, 1, 3, 2, plan, 14);
    print_may_run(4, 1, 3, 2, early, 12);
    print_may_run(4, 1, 3, 2, NULL, 0);
    print_may_run(4, 1, 3, 2, plan, 13);
    print_may_run(4, 1, 2, 2, plan, 13);
    print_may_run(4, 1, 2, 3, plan, 13);
    print_may_run(4, 3, 2, 3, plan, 13);
    printf("\n");
}

/* Node 2 of document 01's first archive, bytes 3 6, with 65535 in the columns that neither touches. */
static const uint16_t node_2[] = {1, 4, 65535, 65535, 65535, 65535, 65535, 65535};

/* What opening stretches of `length` bytes returns, then as many bytes as are lent, and the columns; all are 9 before. */
static void print_stretches(const uint16_t *node, size_t length, const size_t *stretches, size_t count, size_t lent) {
    uint8_t bytes[4] = {9, 9, 9, 9};
    size_t columns[8] = {9, 9, 9, 9, 9, 9, 9, 9}, i;
    size_t returned = hmsr_open_stretches(3, 1, 1, nodes + 2, 1, node, 8, length, stretches, count, lent ? bytes : NULL, lent, columns, 8);
    printf("%zu:", returned);
    for (i = 0; i < lent; i++) printf(" %d", bytes[i]);
    printf(" /");
    for (i = 0; i < 8; i++) printf(" %zu", columns[i]);
    printf("\n");
}

/* The most stretches, each of no bytes, and one more; an odd count; lengths whose sum wraps to that of the buffer; an end that wraps; too
 * long a transcript; and a symbol above 256, with a stretch behind the end and without. */
static void print_refused_stretches(void) {
    const size_t none[2 * (HMSR_STRETCHES + 1)] = {0};
    const size_t wraps[] = {0, SIZE_MAX, 0, 2, SIZE_MAX, 2};
    const uint16_t high[] = {257, 4, 0, 0, 0, 0, 0, 0};
    const size_t both[] = {0, 2, 3, 0};
    print_stretches(node_2, 2, none, 2 * HMSR_STRETCHES, 0);
    print_stretches(node_2, 2, none, 2 * HMSR_STRETCHES + 2, 0);
    print_stretches(node_2, 2, both, 3, 2);
    print_stretches(node_2, 2, wraps, 4, 1);
    print_stretches(node_2, 2, wraps + 4, 2, 2);
    print_stretches(node_2, 9, both, 4, 2);
    print_stretches(high, 2, both, 4, 2);
    print_stretches(high, 2, both, 2, 2);
}

static void print_all_stretches(void) {
    const size_t stretches[] = {1, 1, 0, 2, 2, 0};
    const uint16_t no_byte[] = {171, 4, 0, 0, 0, 0, 0, 0};
    print_stretches(node_2, 2, stretches, 6, 3);
    print_stretches(node_2, 2, stretches, 2, 1);
    print_stretches(node_2, 2, NULL, 0, 0);
    print_stretches(no_byte, 2, stretches, 2, 1);
    print_stretches(no_byte, 2, stretches, 6, 3);
    print_refused_stretches();
}

/* Document 01's first archive. */
static uint16_t archive[24];

/* What correcting returns, the symbols of place 1, and any other symbol that changed. */
static void print_correction(size_t layers, size_t nodes_length, size_t length, size_t byte, int64_t change) {
    uint16_t before[24];
    int i;
    memcpy(before, archive, sizeof archive);
    printf("%zu:", hmsr_correct(3, 1, layers, archive, nodes_length, length, byte, change));
    for (i = 0; i < 24; i++)
        if (i % 8 == 1) printf(" %d", archive[i]);
        else if (archive[i] != before[i]) printf(" (%d at %d)", archive[i], i);
    printf("\n");
}

static void print_corrections(void) {
    const uint8_t bytes[] = {3, 6};
    const int64_t done[] = {-3, 3, -6, 255, -255, 6, 0};
    const int64_t out_of_range[] = {-256, 256, INT64_MIN, INT64_MAX, -7, 250};
    size_t i;
    if (hmsr_write(3, 1, 1, bytes, 2, archive, 24)) return;
    for (i = 0; i < sizeof done / sizeof *done; i++) print_correction(1, 24, 2, 1, done[i]);
    for (i = 0; i < sizeof out_of_range / sizeof *out_of_range; i++) print_correction(1, 24, 2, 1, out_of_range[i]);
    archive[16] = 257;
    print_correction(1, 24, 2, 0, 256);
    print_correction(1, 24, 2, 2, 256);
    print_correction(1, 24, 0, 0, 256);
    print_correction(1, 24, 9, SIZE_MAX, 256);
    print_correction(1, 23, 2, SIZE_MAX, 256);
    print_correction(0, 23, 9, SIZE_MAX, 256);
}

/* What new node 0 of document 01's first archive keeps; in the record's last place something stands behind those that it counts. */
static uint16_t kept[8];
static size_t record[3] = {0, 0, SIZE_MAX};

/* Hears a helper whose message has that first symbol: what is returned, the sums of the first sum, and the record. */
static void print_heard(size_t helper, uint16_t first) {
    const uint16_t message[] = {first, 0, 0, 0};
    size_t i, returned = hmsr_hear(3, 1, 1, nodes, 1, nodes + 1, 2, 0, helper, message, 4, kept, hmsr_kept_symbols(3, 1, 1, 1), record, 3);
    printf("%zu: %d %d /", returned, kept[0], kept[1]);
    for (i = 0; i < 3; i++) printf(" %zu", record[i]);
    printf("\n");
}

/* Finishes: what is returned, and the pairs, which are 9 before. No other node is dead. */
static void print_finished(void) {
    uint16_t pairs[8] = {9, 9, 9, 9, 9, 9, 9, 9};
    int i;
    printf("%zu:", hmsr_finish(3, 1, 1, nodes, 1, nodes + 1, 2, 0, kept, 8, record, 3, pairs, 8, NULL, 0));
    for (i = 0; i < 8; i++) printf(" %d", pairs[i]);
    printf("\n");
}

static void print_arrival(void) {
    print_heard(2, 5);
    print_heard(2, 5);
    print_heard(0, 5);
    print_heard(1, 257);
    print_finished();
    print_heard(1, 243);
    print_heard(1, 243);
    print_finished();
    kept[7] = 257;
    print_finished();
    record[0] = 1;
    print_finished();
    record[1] = 0;
    print_finished();
}

static void print_shape(size_t n, size_t k, size_t layers) {
    size_t size = hmsr_node_symbols(n, k, layers), room = hmsr_card_room(n, k, layers);
    size_t packed = hmsr_pack(n, k, layers, 0, 0, 0, symbols, size, card, room);
    size_t checked = hmsr_check(n, k, layers, symbols, n * size);
    printf("%zu %zu %zu %zu\n", size, room, packed, checked);
}

static void print_repair(size_t n, size_t k, size_t layers, size_t h) {
    size_t size = hmsr_node_symbols(n, k, layers);
    size_t message = hmsr_message_symbols(n, k, layers, h), sent = hmsr_wire_symbols(n, k, layers, h);
    size_t sums = hmsr_kept_symbols(n, k, layers, h), nobody[17] = {0};
    printf("%zu %zu %zu", message, sent, sums);
    if (h < 16 && k < 16) { /* there are no more node numbers above */
        printf(" %zu", hmsr_helper_message(n, k, layers, nodes, h, nodes + h, k + 1, h, 0, symbols, size, wire, message));
        printf(" %zu", hmsr_repair(n, k, layers, nodes, h, nodes + h, k + 1, symbols, n * size, wire, sent));
        printf(" %zu", hmsr_hear(n, k, layers, nodes, h, nodes + h, k + 1, 0, h, symbols, message, wire, sums, nobody, k + 2));
    }
    printf("\n");
}

int main(int count, char **words) {
    static size_t numbers[64];
    int n, k, layers, h, i;
    memset(symbols, 255, sizeof symbols);
    print_constants();
    print_card(0);
    print_card(700);
    print_card(1000000);
    print_card(SIZE_MAX);
    print_layers();
    print_orders();
    print_all_stretches();
    print_corrections();
    print_arrival();
    for (i = 1; i < count && i < 64; i++) {
        numbers[i] = (size_t)strtoull(words[i], NULL, 10);
        printf("%s\n", hmsr_refusal_text(numbers[i]));
    }
    for (n = 1; n < i; n++)
        for (k = 1; k < i; k++)
            for (layers = 1; layers < i; layers++) {
                print_shape(numbers[n], numbers[k], numbers[layers]);
                for (h = 1; h < i; h++) print_repair(numbers[n], numbers[k], numbers[layers], numbers[h]);
            }
    return 0;
}
