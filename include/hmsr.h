/* The C interface of the transcript archive: the calls of the static library `libhmsr.a`.
 *
 * A transcript is spread over n nodes (drives) so that any k of them give it back. A node has N = layers * 2^n symbols, each 0 to 256
 * in two bytes; symbol (layer, a) stands at place layer * 2^n + a. The nodes of an archive stand one behind the other: n * N symbols.
 * Every call that takes n, k and layers takes them in this order.
 *
 * A buffer is a pointer and its length in elements. A null pointer is allowed only with length 0. A buffer that a call writes (a
 * pointer without const) may overlap no other buffer of the call; buffers that it only reads may overlap each other. Lists of nodes
 * are strictly rising. No call keeps a pointer, allocates memory, or has a state of its own. hmsr_write, hmsr_check, hmsr_restore,
 * hmsr_open, hmsr_open_stretches, hmsr_first_step, hmsr_finish and hmsr_repair need less than 72 KB of stack, hmsr_helper_message,
 * hmsr_hear and hmsr_second_step less than 36 KB, the other calls less than 16 KB, whatever N and the lengths of lists are.
 *
 * A call returns 0 where it did its work, and otherwise the number of the first cause for which it turned back, except where its
 * comment says so. The causes are judged in the order 1, 2, 11, 3, 4, 9, 13, 5, 12, 7; cards and the plan have orders of their own. Where
 * a call turned back, every buffer is as it was.
 *
 * From top to bottom: the version, the refusals and their texts, the sizes of buffers, and the calls. The calls are the library's; the
 * functions before them are C for C99 or later, or C++.
 */
#ifndef HMSR_H
#define HMSR_H

#include <stddef.h>
#include <stdint.h>

#ifdef __cplusplus
extern "C" {
#endif

#define HMSR_VERSION "0.1.0"
#define HMSR_VERSION_MAJOR 0
#define HMSR_VERSION_MINOR 1
#define HMSR_VERSION_PATCH 0

/* The refusals, that is, the causes for which calls turn back. The comments of the calls name them by their numbers. There is
 * no 8 or 10. */

/* n outside 3 to 14, k outside 1 to n-2, or layers outside 1 to 15. */
#define HMSR_BAD_SHAPE 1

/* A node not below n; a list not strictly rising, or of the wrong count; dead nodes fewer than 1 or more than n-k-1, or dead and helpers
 * overlapping; a new node that is not in the dead list, or a helper that is not in the helper list; a helper heard already, or a record of
 * the helpers heard that counts more than k+1, or names one twice or a node that is no helper; a loss outside 1 to n-k-1. */
#define HMSR_BAD_NODES 2

/* layers not a multiple of s, where h dead nodes make h+1 = s * 2^m with s odd. */
#define HMSR_PART_BATCH 3

/* A buffer not of the exact length, an odd count of numbers in a list of pairs, more than 64 stretches, a first step finished before all
 * k+1 helpers are heard, or, outside cards, a transcript length above k * N. */
#define HMSR_WRONG_LENGTH 4

/* A symbol, or a kept sum, handed in is above 256 (hmsr_repair looks at the helpers' symbols only, hmsr_correct at those of the byte's
 * place, hmsr_open_stretches at those of the touched columns). */
#define HMSR_BAD_SYMBOL 5

/* A card, or the input of a plan, malformed; in cards also a transcript length above k * N, or a hearing number above 999999. */
#define HMSR_MALFORMED 6

/* Opening: the symbols are not those of a transcript of that length; of stretches: those of a wanted byte are not a byte's. */
#define HMSR_NO_TRANSCRIPT 7

/* Correcting: the byte's number is not below the transcript's length. Stretches: one ends past the transcript. */
#define HMSR_PAST_END 9

/* Choosing layers: no number of layers up to 15 serves every loss in the list. */
#define HMSR_NO_LAYERS 11

/* Correcting: the change is outside -255 to 255, or the data symbol plus the change outside 0 to 255. */
#define HMSR_BAD_CHANGE 12

/* Transfers that may not run in the order of their list: they are not those of the plan, each once, or an exchange comes before a message
 * to its sender. */
#define HMSR_BAD_ORDER 13

/* A refusal's cause in words, on one line without a line end. 0 and numbers that are no refusal's have a fixed text of their own. */
static inline const char *hmsr_refusal_text(size_t number) {
    switch (number) {
    case 0: return "no refusal";
    case HMSR_BAD_SHAPE: return "there must be 3 to 14 nodes, 1 to nodes - 2 data nodes and 1 to 15 layers";
    case HMSR_BAD_NODES: return "the node lists, or the losses, are not as they should be";
    case HMSR_PART_BATCH: return "the number of layers is not a multiple of the layers of a batch";
    case HMSR_WRONG_LENGTH: return "a buffer is not of the exact length, a list of pairs is odd or too long, or the transcript is too long";
    case HMSR_BAD_SYMBOL: return "a symbol is above 256";
    case HMSR_MALFORMED: return "the card or the input is malformed";
    case HMSR_NO_TRANSCRIPT: return "the symbols are not those of a transcript of that length";
    case HMSR_PAST_END: return "the byte, or a stretch, is not within the transcript's length";
    case HMSR_NO_LAYERS: return "no number of layers from 1 to 15 serves every loss in the list";
    case HMSR_BAD_CHANGE: return "the change is not from -255 to 255, or makes no byte of the data symbol";
    case HMSR_BAD_ORDER: return "the transfers are not those of the plan, each once, or one comes before what it waits for";
    default: return "not the number of a refusal";
    }
}

/* The sizes of buffers. Each function takes any numbers, and gives 0 where they are out of range. */

/* N = layers * 2^n, the symbols of a node; 0 where a call would turn back with 1. All nodes have n * N symbols, and a transcript at most
 * k * N bytes. */
static inline size_t hmsr_node_symbols(size_t n, size_t k, size_t layers) {
    if (n < 3 || n > 14 || k < 1 || k > n - 2 || layers < 1 || layers > 15) return 0;
    return layers << n;
}

/* N/(h+1), the symbols of a message in a repair of h dead nodes; 0 where N is 0, h is not 1 to n-k-1, or layers is not a multiple of
 * s (see HMSR_PART_BATCH). */
static inline size_t hmsr_message_symbols(size_t n, size_t k, size_t layers, size_t h) {
    size_t symbols = hmsr_node_symbols(n, k, layers), s;
    if (symbols == 0 || h < 1 || h > n - k - 1) return 0;
    for (s = h + 1; s % 2 == 0; s /= 2) {}
    return layers % s == 0 ? symbols / (h + 1) : 0;
}

/* (n-k) * N/(h+1), the sums that a new node keeps while it hears its helpers one by one; 0 where a message's symbols are 0. The record that
 * it keeps beside them has k+2 numbers. */
static inline size_t hmsr_kept_symbols(size_t n, size_t k, size_t layers, size_t h) {
    size_t message = hmsr_message_symbols(n, k, layers, h);
    return message == 0 ? 0 : (n - k) * message;
}

/* h * (k+h) * N/(h+1), the symbols of the wire, which has every message of that repair; 0 where a message's symbols are 0. */
static inline size_t hmsr_wire_symbols(size_t n, size_t k, size_t layers, size_t h) {
    size_t message = hmsr_message_symbols(n, k, layers, h);
    return message == 0 ? 0 : h * (k + h) * message;
}

/* 15 + 2 * N, the bytes of the buffer that a card is packed into; 0 where N is 0. */
static inline size_t hmsr_card_room(size_t n, size_t k, size_t layers) {
    size_t symbols = hmsr_node_symbols(n, k, layers);
    return symbols == 0 ? 0 : 15 + 2 * symbols;
}

/* The length of a header buffer of hmsr_unpack: n, k, layers, node, length, hearing. */
#define HMSR_HEADER 6

/* The least length of a text buffer of hmsr_plan. */
#define HMSR_PLAN_TEXT 2049

/* The calls. */

/* Chooses layers for an archive that is to survive these losses: the fewest from 1 to 15 that are, for each loss h in the list, a multiple
 * of its s (see HMSR_PART_BATCH), so that no call of a repair of h dead nodes turns back with 3. The list may have any length, in any
 * order, with repeats; an empty one, whose pointer may be null, needs 1. Returns a refusal number (1 for n or k, 2, 11), below 256; or
 * 256 + the layers. */
size_t hmsr_layers(size_t n, size_t k,
                   const size_t *losses, size_t losses_length);

/* Writes a transcript of at most k * N bytes into n * N symbols. Turns back with 1, 4. */
size_t hmsr_write(size_t n, size_t k, size_t layers,
                  const uint8_t *transcript, size_t transcript_length,
                  uint16_t *nodes, size_t nodes_length);

/* Checks n * N symbols: first the parity equations, all of them, then whether nodes 0 to k-1 hold anything above 255. Returns 0 where the
 * nodes are sound, that is, what hmsr_write makes of some k * N bytes; a refusal number (1, 4, 5), below 256; 256 + e where equation e
 * is the first that is not met, e = (layer * 2^n + a) * (n-k) + t, so that the nodes do not agree; or 256 + (n-k) * N + (node * N + place)
 * where all equations are met and that symbol is the first above 255, by node, then place: the nodes agree, but they hold no
 * transcript, and hmsr_open gives 7 whichever k of them it is given. */
size_t hmsr_check(size_t n, size_t k, size_t layers,
                  const uint16_t *nodes, size_t nodes_length);

/* Restores all n * N symbols from the k * N symbols of k listed nodes. Turns back with 1, 2, 4, 5. */
size_t hmsr_restore(size_t n, size_t k, size_t layers,
                    const size_t *list, size_t list_length,
                    const uint16_t *symbols, size_t symbols_length,
                    uint16_t *nodes, size_t nodes_length);

/* Opens the transcript of `length` bytes from the k * N symbols of k listed nodes, into a buffer of exactly `length` bytes.
 * Turns back with 1, 2, 4, 5, 7. */
size_t hmsr_open(size_t n, size_t k, size_t layers,
                 const size_t *list, size_t list_length,
                 const uint16_t *symbols, size_t symbols_length,
                 size_t length,
                 uint8_t *transcript, size_t transcript_length);

/* The most stretches of hmsr_open_stretches. */
#define HMSR_STRETCHES 64

/* Opens stretches of the transcript of `length` bytes from the k * N symbols of k listed nodes: their bytes, joined in the order given, into
 * a buffer of exactly as many. `stretches` has two numbers for each, start and length, at most HMSR_STRETCHES pairs; they may overlap and
 * repeat, and a length may be 0. Column c, that is, place c of every node, is touched exactly if it is b % N for a wanted byte b; N numbers
 * of `columns` are then the touched columns, rising, and zeros behind them. Symbols in other columns have no effect and may be anything.
 * Where hmsr_open opens the nodes, the bytes are those of its transcript. Returns a refusal number, below 256; or 256 + k * the count of
 * touched columns. Turns back with 1, 2, 4, 9, 5, 7, judged in this order: 4 also for an odd count of numbers, 9 also for an empty stretch
 * that starts behind the end; 5 looks at the touched columns alone, and 7 at the wanted bytes. */
size_t hmsr_open_stretches(size_t n, size_t k, size_t layers,
                           const size_t *list, size_t list_length,
                           const uint16_t *symbols, size_t symbols_length,
                           size_t length,
                           const size_t *stretches, size_t stretches_length,
                           uint8_t *bytes, size_t bytes_length,
                           size_t *columns, size_t columns_length);

/* Corrects byte number `byte` of a transcript of `length` bytes in n * N symbols, by a change from -255 to 255. At the byte's place,
 * byte % N, its own symbol, on node byte / N, changes by the change, and that of each check node, k to n-1, by the change times a factor,
 * modulo 257; all other symbols stay. Where the nodes are what hmsr_write makes of `length` bytes, they are then what it makes of the
 * corrected ones. The time does not depend on N. Turns back with 1, 4, 9, 5, 12, judged in this order; 5 looks at the symbols of the
 * byte's place alone. */
size_t hmsr_correct(size_t n, size_t k, size_t layers,
                    uint16_t *nodes, size_t nodes_length,
                    size_t length, size_t byte, int64_t change);

/* The repair of h dead nodes by k+1 helpers. A message has N/(h+1) symbols. */

/* A helper's message to the dead node `new_node`, from the helper's N symbols. Turns back with 1, 2, 3, 4, 5. */
size_t hmsr_helper_message(size_t n, size_t k, size_t layers,
                           const size_t *dead, size_t dead_length,
                           const size_t *helpers, size_t helpers_length,
                           size_t helper, size_t new_node,
                           const uint16_t *symbols, size_t symbols_length,
                           uint16_t *message, size_t message_length);

/* The first step of `new_node`: from the k+1 helpers' messages (helpers rising) its own pairs, 2 * N/(h+1) symbols, and its messages of
 * sums to the h-1 other dead nodes (rising), (h-1) * N/(h+1) symbols. Turns back with 1, 2, 3, 4, 5. */
size_t hmsr_first_step(size_t n, size_t k, size_t layers,
                       const size_t *dead, size_t dead_length,
                       const size_t *helpers, size_t helpers_length,
                       size_t new_node,
                       const uint16_t *messages, size_t messages_length,
                       uint16_t *pairs, size_t pairs_length,
                       uint16_t *sums, size_t sums_length);

/* The same first step with the helpers' messages taken one by one, in any order. Two buffers keep what was heard from call to call: both
 * begin as zeros, and only hmsr_hear writes them. `sums` has (n-k) * N/(h+1) symbols: for sum x of a message and t from 0 to n-k-1, at
 * x * (n-k) + t stands, modulo 257, the sum over the helpers heard of point^t * symbol x of the helper's message, its point being that of
 * the parity equations at the a of sum x. `heard` is the record, k+2 numbers: how many helpers were heard, then their nodes in the order
 * heard; what stands behind these has no effect and stays. */

/* Hears `helper`: adds its message to `new_node`, N/(h+1) symbols, to the sums, and puts it behind the helpers in the record, which then
 * counts one more. Turns back with 1, 2, 3, 4, 5, judged in this order: 2 also where the record counts more than k+1, or where among the
 * nodes that it counts, as far as the buffer has them, one is no helper, one stands twice, or `helper` stands, which is heard already; 4
 * looks at the lengths of message, sums and record, 5 at the message and at the sums. */
size_t hmsr_hear(size_t n, size_t k, size_t layers,
                 const size_t *dead, size_t dead_length,
                 const size_t *helpers, size_t helpers_length,
                 size_t new_node, size_t helper,
                 const uint16_t *message, size_t message_length,
                 uint16_t *sums, size_t sums_length,
                 size_t *heard, size_t heard_length);

/* Finishes the first step of `new_node` once all k+1 helpers are heard: from the sums its own pairs, 2 * N/(h+1) symbols, and its messages
 * to the h-1 other dead nodes (rising), the exchanges, (h-1) * N/(h+1) symbols. In whatever order the helpers were heard, these are what
 * hmsr_first_step makes of the same messages. Turns back with 1, 2, 3, 4, 5, judged in this order: 2 also for the record, as hmsr_hear
 * does; 4 looks at the lengths of sums, record, pairs and exchanges, and at whether the record counts k+1; 5 at the sums. */
size_t hmsr_finish(size_t n, size_t k, size_t layers,
                   const size_t *dead, size_t dead_length,
                   const size_t *helpers, size_t helpers_length,
                   size_t new_node,
                   const uint16_t *sums, size_t sums_length,
                   const size_t *heard, size_t heard_length,
                   uint16_t *pairs, size_t pairs_length,
                   uint16_t *exchanges, size_t exchanges_length);

/* The second step of `new_node`: from its own pairs and the h-1 messages of sums that it received (senders rising) its N symbols.
 * Turns back with 1, 2, 3, 4, 5. */
size_t hmsr_second_step(size_t n, size_t k, size_t layers,
                        const size_t *dead, size_t dead_length,
                        const size_t *helpers, size_t helpers_length,
                        size_t new_node,
                        const uint16_t *pairs, size_t pairs_length,
                        const uint16_t *received, size_t received_length,
                        uint16_t *symbols, size_t symbols_length);

/* A whole repair in n * N symbols: the dead nodes are written and never read, all others stay as they are. Every message is left in the
 * wire, h * (k+h) * N/(h+1) symbols, in the plan's order. Turns back with 1, 2, 3, 4, 5. */
size_t hmsr_repair(size_t n, size_t k, size_t layers,
                   const size_t *dead, size_t dead_length,
                   const size_t *helpers, size_t helpers_length,
                   uint16_t *nodes, size_t nodes_length,
                   uint16_t *wire, size_t wire_length);

/* Whether the transfers of this repair may run one by one in the order of a list of numbers, sender then receiver. They may exactly if every
 * transfer of the plan (see hmsr_plan) stands in the list once, nothing else does, and each exchange, that is, each transfer between dead
 * nodes, comes after all k+1 helpers' messages to its sender. Then running the list, each message made by hmsr_helper_message or
 * hmsr_first_step from what its sender holds by then, and each dead node finishing with hmsr_second_step, leaves every dead node as
 * hmsr_repair does. The list may have any length and any numbers. Returns 0 where they may run, 13 where they may not; turns back with
 * 1, 2, 3, 4 for an odd count of numbers. */
size_t hmsr_may_run(size_t n, size_t k, size_t layers,
                    const size_t *dead, size_t dead_length,
                    const size_t *helpers, size_t helpers_length,
                    const size_t *pairs, size_t pairs_length);

/* Packs the N symbols of a node into a card, in the front of a buffer of 15 + 2 * N bytes; `length` is the transcript's, `hearing` the
 * hearing number, 1 to 999999, or 0 for none. A card with a hearing number starts with the number 1, which is no n. Returns a refusal
 * number (1, 2, 6 for a length above k * N, 6 for a hearing number above 999999, 4, 5, judged in this order), below 256; or 256 + the
 * card's length. Bytes behind the card keep their values. */
size_t hmsr_pack(size_t n, size_t k, size_t layers, size_t node, size_t length, size_t hearing,
                 const uint16_t *symbols, size_t symbols_length,
                 uint8_t *card, size_t card_length);

/* Unpacks a card into N symbols and a header of HMSR_HEADER numbers: n, k, layers, node, transcript length, hearing number (0 for none).
 * A header buffer of another length is judged with the symbols' buffer (4). In front of its symbols a card has five numbers, n to the
 * length, or, where the first is 1, seven: this 1, the five, and the hearing number. Judged in this order: the form of the five or
 * seven numbers (6), 1, 2, the length against k * N (6), a hearing number that is 0 behind a leading 1 or above 999999 (6), 4, each
 * symbol's form (6) then value (5), bytes left over (6). */
size_t hmsr_unpack(const uint8_t *card, size_t card_length,
                   uint16_t *symbols, size_t symbols_length,
                   size_t *header, size_t header_length);

/* Writes what the plan program prints for an input, a refusal's line too, into the front of a text buffer of at least HMSR_PLAN_TEXT
 * bytes, and returns 256 + the text's length. Bytes behind the text keep their values. A shorter text buffer is turned back with 4. */
size_t hmsr_plan(const uint8_t *input, size_t input_length,
                 uint8_t *text, size_t text_length);

#ifdef __cplusplus
}
#endif

#endif
