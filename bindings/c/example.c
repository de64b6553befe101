/* Each call once: the graph of a pack, each node with its triples, a query's answer and pairs, what an IRI is spelled from.
 *
 *     example catalogue.pack '[family/lead]/name' sty:r1
 *
 * prints numbers; `certain` spells names. */
#include "ciravehy.h"
#include <stdio.h>
#include <string.h>

static uint8_t pack[65537]; /* one more than a pack may have: a longer file is refused too */
static uint16_t nodes[CIRAVEHY_NODE_LIST_LENGTH];
static uint16_t triples[CIRAVEHY_TRIPLE_LIST_LENGTH];
static uint16_t node_index[CIRAVEHY_INDEX_LENGTH]; /* `index` is a function of <strings.h> */
static uint16_t pairs[CIRAVEHY_PAIR_LIST_LENGTH];
static uint16_t rows[CIRAVEHY_ROWS_LENGTH];
static uint64_t heads[CIRAVEHY_HEADS_LENGTH];
static uint64_t alive[CIRAVEHY_STATE_WORDS];
static uint64_t waiting[CIRAVEHY_STATE_WORDS];
static uint16_t stack[CIRAVEHY_STATE_WORDS];
static uint64_t seen[CIRAVEHY_SEEN_WORDS];
static uint16_t own_nodes[CIRAVEHY_NODE_LIST_LENGTH];
static uint16_t own_triples[CIRAVEHY_TRIPLE_LIST_LENGTH];
static uint16_t own_index[CIRAVEHY_INDEX_LENGTH];
static uint16_t report[CIRAVEHY_REPORT_LENGTH];

static void print_numbers(const char *what, const uint16_t *numbers, size_t count)
{
    printf("%s", what);
    for (size_t i = 0; i < count; i++)
        printf(" %u", (unsigned)numbers[i]);
    printf("\n");
}

static int refused(const char *call, unsigned number)
{
    if (number != 0)
        printf("%s: refused %u\n", call, number);
    if (number == 10)
        print_numbers("clash", report + CIRAVEHY_CLASH_SUBJECT, 22);
    return number != 0;
}

/* A node and the triples that have it as subject. */
static void show_node(size_t n)
{
    print_numbers("node", nodes + 7 * n, 7);
    const uint16_t *triple = triples + 3 * node_index[2 * n];
    for (size_t left = node_index[2 * n + 1]; left > 0; left--, triple += 3)
        print_numbers("triple", triple, 3);
}

static void show_graph(size_t size)
{
    if (refused("build", ciravehy_build(pack, size, nodes, CIRAVEHY_NODE_LIST_LENGTH, triples, CIRAVEHY_TRIPLE_LIST_LENGTH,
            node_index, CIRAVEHY_INDEX_LENGTH, rows, CIRAVEHY_ROWS_LENGTH, heads, CIRAVEHY_HEADS_LENGTH, report)))
        return;
    for (size_t n = 0; n < report[CIRAVEHY_NODES]; n++)
        show_node(n);
}

static void show_answer(size_t size, const uint8_t *query, size_t length)
{
    if (!refused("yes/no", ciravehy_yes_no(pack, size, query, length, nodes, CIRAVEHY_NODE_LIST_LENGTH, triples,
            CIRAVEHY_TRIPLE_LIST_LENGTH, node_index, CIRAVEHY_INDEX_LENGTH, rows, CIRAVEHY_ROWS_LENGTH, heads,
            CIRAVEHY_HEADS_LENGTH, alive, CIRAVEHY_STATE_WORDS, waiting, CIRAVEHY_STATE_WORDS, stack, CIRAVEHY_STATE_WORDS,
            report)))
        printf("certain %s\n", report[CIRAVEHY_ANSWER] ? "yes" : "no");
    if (refused("pairs", ciravehy_pairs(pack, size, query, length, nodes, CIRAVEHY_NODE_LIST_LENGTH, triples,
            CIRAVEHY_TRIPLE_LIST_LENGTH, node_index, CIRAVEHY_INDEX_LENGTH, pairs, CIRAVEHY_PAIR_LIST_LENGTH, rows,
            CIRAVEHY_ROWS_LENGTH, heads, CIRAVEHY_HEADS_LENGTH, alive, CIRAVEHY_STATE_WORDS, waiting, CIRAVEHY_STATE_WORDS,
            stack, CIRAVEHY_STATE_WORDS, seen, CIRAVEHY_SEEN_WORDS, own_nodes, CIRAVEHY_NODE_LIST_LENGTH, own_triples,
            CIRAVEHY_TRIPLE_LIST_LENGTH, own_index, CIRAVEHY_INDEX_LENGTH, report)))
        return;
    for (size_t i = 0; i < report[CIRAVEHY_ANSWER]; i++)
        print_numbers("pair", pairs + 2 * i, 2);
}

int main(int count, char **words)
{
    if (count != 4) {
        fprintf(stderr, "use: %s PACK QUERY IRI\n", words[0]);
        return 2;
    }
    FILE *file = fopen(words[1], "rb");
    if (file == NULL) {
        perror(words[1]);
        return 2;
    }
    size_t size = fread(pack, 1, sizeof pack, file);
    fclose(file);
    show_graph(size);
    show_answer(size, (const uint8_t *)words[2], strlen(words[2]));
    uint16_t term[CIRAVEHY_TERM_LENGTH];
    if (!refused("read-back", ciravehy_read_back(pack, size, (const uint8_t *)words[3], strlen(words[3]), term)))
        print_numbers("term", term, CIRAVEHY_TERM_LENGTH);
    return 0;
}
