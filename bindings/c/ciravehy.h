/* Ciravehy: certain answers for a type foundry's catalogue, in every finite graph that a pack allows. C11, and C++.
 *
 * Link target/staticlib/libciravehy.a, which `tests/archive` writes.
 *
 * Each call takes any bytes, and buffers of any length and any content. Its result is a refusal's number from 1 to 13, or 0.
 * Too short a list or working buffer is refusal 1, which touches no list and no working buffer. After any other return the
 * working buffers are zero. A refusal leaves the lists as they were; entries past a reported count keep theirs.
 *
 * What the caller owes: a length counts entries, not bytes, and so many are there behind its pointer. A pointer is aligned for
 * its type and not null, even where its length is 0. What may be written overlaps nothing else that is lent. The calling
 * thread has the stack that the call takes (CIRAVEHY_BUILD_STACK and so on, in bytes; measured on x86-64): with less the
 * operating system may end the program.
 *
 * The calls keep no pointer and no state, so they may run in several threads at once, each with its own buffers. */
#ifndef CIRAVEHY_H
#define CIRAVEHY_H

#include <stddef.h>
#include <stdint.h>

#ifdef __cplusplus
extern "C" {
#endif

/* ---- lengths, or more */

/* Lists: 4,864 nodes of seven numbers, 56,308 triples of three, an index of two numbers for each node, 4,096 pairs of two. The
 * working buffers own_nodes, own_triples and own_index are as long as the lists nodes, triples and index. */
#define CIRAVEHY_NODE_LIST_LENGTH 34048
#define CIRAVEHY_TRIPLE_LIST_LENGTH 168924
#define CIRAVEHY_INDEX_LENGTH 9728
#define CIRAVEHY_PAIR_LIST_LENGTH 8192

/* The other working buffers: rows, heads; each of alive, waiting and stack; seen. */
#define CIRAVEHY_ROWS_LENGTH 9216
#define CIRAVEHY_HEADS_LENGTH 32768
#define CIRAVEHY_STATE_WORDS 19532
#define CIRAVEHY_SEEN_WORDS 3084

/* Stack that the calling thread has, in bytes, or more. */
#define CIRAVEHY_BUILD_STACK 98304
#define CIRAVEHY_YES_NO_STACK 229376
#define CIRAVEHY_PAIRS_STACK 245760
#define CIRAVEHY_READ_BACK_STACK 49152

/* Reports, of exactly these lengths. Every call writes the whole of its report. */
#define CIRAVEHY_REPORT_LENGTH 25
#define CIRAVEHY_TERM_LENGTH 5

/* ---- the places in a report of build, yes/no and pairs */

#define CIRAVEHY_NODES 0   /* the node count; 0 where refused */
#define CIRAVEHY_TRIPLES 1 /* the triple count; 0 where refused */
#define CIRAVEHY_ANSWER 2  /* yes/no: 1 for yes, 0 for no; pairs: the pair count; else 0 */
/* The clash of refusal 10, zero otherwise: a node, a predicate, two objects. A node is seven numbers. It is the first: lowest node
 * in node order, lowest predicate, its two lowest objects, the lower first. */
#define CIRAVEHY_CLASH_SUBJECT 3
#define CIRAVEHY_CLASH_PREDICATE 10
#define CIRAVEHY_CLASH_FIRST 11
#define CIRAVEHY_CLASH_SECOND 18

/* ---- what the lists hold
 *
 * A node: kind (0 IRI, 1 literal, 2 invented literal, 3 invented other), constructor or value or 0, type set (type t has the
 * weight 2 to the power t), four arguments, 65,535 where unused. A triple: subject, predicate, object; nodes by their place
 * in the node list. A pair: start and end, in the same way.
 *
 * The index: for each node, in the order of the node list, the place of its first triple as subject in the triple list and how
 * many it has, 0 and 0 where none. They stand one after another, so the triples of node n are
 *
 *     const uint16_t *triple = triples + 3 * index[2 * n];
 *     for (size_t left = index[2 * n + 1]; left > 0; left--, triple += 3)
 *         ... n is triple[0]; predicate triple[1], object triple[2]
 */

/* The graph of a pack, at the front of nodes, triples and index. Refusals 1 and 3 to 11. */
uint8_t ciravehy_build(
    const uint8_t *pack, size_t pack_length,
    uint16_t *nodes, size_t nodes_length,
    uint16_t *triples, size_t triples_length,
    uint16_t *index, size_t index_length,
    uint16_t *rows, size_t rows_length,
    uint64_t *heads, size_t heads_length,
    uint16_t *report);

/* Whether the query is satisfied in every finite graph that obeys the pack; its graph, as by build. Refusals 1 to 11. */
uint8_t ciravehy_yes_no(
    const uint8_t *pack, size_t pack_length,
    const uint8_t *query, size_t query_length,
    uint16_t *nodes, size_t nodes_length,
    uint16_t *triples, size_t triples_length,
    uint16_t *index, size_t index_length,
    uint16_t *rows, size_t rows_length,
    uint64_t *heads, size_t heads_length,
    uint64_t *alive, size_t alive_length,
    uint64_t *waiting, size_t waiting_length,
    uint16_t *stack, size_t stack_length,
    uint16_t *report);

/* The pairs of named nodes that the query joins in every finite graph that obeys the pack, at the front of pairs; its
 * graph, as by build. Refusals 1 to 12. The working buffers own_nodes, own_triples and own_index hold the graph until it is
 * known that there are not too many pairs. */
uint8_t ciravehy_pairs(
    const uint8_t *pack, size_t pack_length,
    const uint8_t *query, size_t query_length,
    uint16_t *nodes, size_t nodes_length,
    uint16_t *triples, size_t triples_length,
    uint16_t *index, size_t index_length,
    uint16_t *pairs, size_t pairs_length,
    uint16_t *rows, size_t rows_length,
    uint64_t *heads, size_t heads_length,
    uint64_t *alive, size_t alive_length,
    uint64_t *waiting, size_t waiting_length,
    uint16_t *stack, size_t stack_length,
    uint64_t *seen, size_t seen_length,
    uint16_t *own_nodes, size_t own_nodes_length,
    uint16_t *own_triples, size_t own_triples_length,
    uint16_t *own_index, size_t own_index_length,
    uint16_t *report);

/* What an IRI's text is spelled from: the constructor and four values in argument order, 65,535 where unused or refused, in
 * term (CIRAVEHY_TERM_LENGTH numbers). Refusals 3 to 7 and 13. */
uint8_t ciravehy_read_back(
    const uint8_t *pack, size_t pack_length,
    const uint8_t *text, size_t text_length,
    uint16_t *term);

#ifdef __cplusplus
}
#endif

#endif
