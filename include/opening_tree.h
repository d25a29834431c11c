/*
 * Merkle openings over Poseidon2, proved: each function returns and writes what its definition says, whatever numbers it is handed. The
 * library is crates/opening_tree_c/out/libopening_tree_c.a (make library), for x86-64 Linux; this header is C99 and C++11.
 *
 * NUMBERS. A word is a number below p = 18446744069414584321 = 2^64 - 2^32 + 1. Others, p itself among them, are no words, and are refused
 * where a word is wanted. opening_tree_product and opening_tree_power want none: they take any numbers, reduced or not.
 *
 * A PARAMETER SET is an array of OPENING_TREE_SET_SIZE numbers, which opening_tree_validate writes and the functions after it are handed:
 *     [0] to [4]      width t, node_size l, height h, full_rounds R_F, partial_rounds R_P
 *     [5] to [16]     diagonal D, t words in 12 places
 *     [17] to [224]   constants C, t * R_F + R_P words in 208 places
 *     [225] to [236]  kept values: the inverse of each word of D, 0 for a 0, in 12 places
 *     [237]           kept value: the inverse of 1 plus the sum of these, 0 where D has a 0
 * Below k = t / l. The places after a list's last word are 0 in what is written, and are not read in what is handed in.
 * D is the diagonal less one: word i after the internal layer is D_i times itself plus the sum of the state. The layer has to have an
 * inverse, which 8 and 9 below see to: one word of D may be 0, but no two. C is in order of use: t words for each full round of the first
 * half, one for each partial round, t for each full round of the second half.
 * The values are kept so that opening_tree_unpermute inverts nothing, however often it is called. The array is the caller's to copy and to
 * store, and nothing is presumed of it: each call judges the set anew, its kept values by 18 below.
 * Choosing a safe set is the caller's part; opening_tree_published.h has the Poseidon2 authors' instances to start from.
 *
 * A TREE. A node is l words; a row is k nodes side by side, t words. The compression of a row adds its input: it is the first l words of
 * permutation(row) + row, word by word. Level 0 is the k^h leaves; node i of level j + 1 is the compression of the row that begins at node
 * k * i of level j; level h is the root. Where h is 0, the one leaf is the root. A place is a leaf's index, from 0.
 *     leaves      k^h * l numbers
 *     a store     (1 + k + ... + k^h) * l numbers: level after level, leaves first; so the root is its last l
 *     an opening  h * (k - 1) * l numbers, the siblings: level by level from the leaves up, and at each level the row that holds the node
 *                 above the place, ascending, with that node's own place left out. At level j this node is number place / k^j of the level,
 *                 and (place / k^j) % k of its row.
 * opening_tree_sizes writes these three counts for a set, so that nobody has to work them out.
 *
 * A FILE is a list of bytes, its contents, and has a leaf of l words. Its message is what Git calls a blob: "blob ", the number of bytes in
 * decimal, a zero byte, and the contents. One byte 01 is appended, and then the fewest zero bytes that make the count of all a multiple of
 * 7 * (t - l). Each seven bytes in turn are a word, the lowest byte first. The state begins as t zeros; each t - l words in turn are added
 * to its first t - l, and it is permuted. The leaf is the first l words of the state at the end.
 *
 * WHAT IS RETURNED. 0 where the work is done, else the number of a refusal: of those that apply the first in the list of names below, where
 * 18 stands after 9 and before 10, and 16 and 17 after 12 and before 13. An exchange judges two sets, the one that it is handed before the
 * one that it makes: the refusals of the first come before those of the second. After a refusal every buffer holds what it held, and so do
 * the array for a set, *result, *made, *level and the sizes that opening_tree_sizes writes.
 * opening_tree_verify returns 0 for an opening that is accepted and for nothing else; for one that is rejected it returns 255, which is no
 * refusal's number. In a function's comment the brackets after a number say what is tested: for 10 the counts of these buffers, for 12 that
 * these numbers are words. The counts of leaves, store and siblings that fit are those of opening_tree_sizes.
 *
 * WHAT MAY BE HANDED IN. Any numbers and any counts: a count says how many numbers are at the pointer before it (for a file's contents how
 * many bytes), and one that does not fit is refused. What C cannot show is presumed: that many are there, OPENING_TREE_SET_SIZE numbers at
 * a set, one at every other pointer without a count, and what a function writes overlaps nothing else that it is handed: an exchanged set
 * has an array of its own. A pointer before the count 0 is not followed and may be NULL: an opening has no numbers where h is 0, a push may
 * have no records, and a file may be empty.
 *
 * THREADS. No function keeps anything from one call to the next or uses anything but its arguments. Any calls may run at once as long as
 * none writes what another reads or writes.
 *
 * MEMORY. No function allocates. As compiled today a call takes at most 15 kB of stack, but opening_tree_storeless_root takes more with
 * each level of the tree, at most 46 kB, and a push takes 140 kB, most of it for a map of places. Of the C library memcpy and memset are
 * needed, and nothing else.
 */
#ifndef OPENING_TREE_H
#define OPENING_TREE_H

#include <stddef.h>
#include <stdint.h>

#ifdef __cplusplus
extern "C" {
#endif

/* What a function returns; the refusals in the order in which they are tested. */
#define OPENING_TREE_DONE 0
#define OPENING_TREE_ACCEPTED 0
#define OPENING_TREE_BAD_WIDTH 1           /* t is not 4, 8 or 12 */
#define OPENING_TREE_BAD_NODE_SIZE 2       /* l is 0, does not divide t, or k is below 2 */
#define OPENING_TREE_BAD_FULL_ROUNDS 3     /* R_F is odd, 0 or above 12 */
#define OPENING_TREE_BAD_PARTIAL_ROUNDS 4  /* R_P is above 64 */
#define OPENING_TREE_BAD_HEIGHT 5          /* h is above 32, or k^h above 2^32 */
#define OPENING_TREE_BAD_LIST_LENGTH 6     /* D or C is of another length */
#define OPENING_TREE_BAD_LIST_WORD 7       /* a number of D or C is not a word */
#define OPENING_TREE_ZERO_IN_DIAGONAL 8    /* two or more words of D are 0 */
#define OPENING_TREE_SINGULAR_DIAGONAL 9   /* no word of D is 0, and 1 plus their inverses is 0 */
#define OPENING_TREE_BAD_KEPT_VALUES 18    /* the kept values of a set that is handed in are not those of its D */
#define OPENING_TREE_BAD_LENGTH 10         /* another buffer is not of its exact length, or a push has over 2^32 records */
#define OPENING_TREE_BAD_PLACE 11          /* a place is not below k^h, or a level not below h */
#define OPENING_TREE_NOT_A_WORD 12         /* a number that has to be a word is not one */
#define OPENING_TREE_FILE_TOO_LONG 16      /* the contents of a file are over 4294967295 bytes */
#define OPENING_TREE_REPEATED_PLACE 17     /* two records of a push have the same place */
#define OPENING_TREE_NO_INVERSE 13         /* the inverse of 0 */
#define OPENING_TREE_EQUAL_LEAVES 15       /* extraction: the leaves are equal */
#define OPENING_TREE_NOT_ACCEPTED 14       /* extraction: an opening is not accepted */
#define OPENING_TREE_REJECTED 255          /* verification: the opening does not end in the root */

/* How many numbers a set has. */
#define OPENING_TREE_SET_SIZE 238

/* ---- The field: arithmetic modulo p. */

/* a + b. Writes *result. Refusals: 12 (a, b). */
uint8_t opening_tree_sum(uint64_t a, uint64_t b, uint64_t *result);

/* a - b. Writes *result. Refusals: 12 (a, b). */
uint8_t opening_tree_difference(uint64_t a, uint64_t b, uint64_t *result);

/* a * b, for any two numbers, words or not. Writes *result, a word. Refusals: none, so that 0 is always returned. */
uint8_t opening_tree_product(uint64_t a, uint64_t b, uint64_t *result);

/* base to the power exponent, for any two numbers, words or not; 1 for the exponent 0. Writes *result, a word. Refusals: none, so that 0 is
   always returned. */
uint8_t opening_tree_power(uint64_t base, uint64_t exponent, uint64_t *result);

/* The word whose product with x is 1. Writes *result. Refusals, in this order: 12 (x), 13 (x is 0). */
uint8_t opening_tree_inverse(uint64_t x, uint64_t *result);

/* The word whose seventh power is y. Writes *result. Refusals: 12 (y). */
uint8_t opening_tree_seventh_root(uint64_t y, uint64_t *result);

/* ---- Sets */

/* The set of these numbers and lists. Writes the whole set, its kept values too. Refusals, in this order: 1 to 9. */
uint8_t opening_tree_validate(uint64_t width, uint64_t node_size, uint64_t height, uint64_t full_rounds, uint64_t partial_rounds,
                              const uint64_t *diagonal, size_t diagonal_count, const uint64_t *constants, size_t constants_count,
                              uint64_t set[OPENING_TREE_SET_SIZE]);

/* From here on each function first judges the set that it is handed, by 1 to 5, 7 to 9 and 18 in this order. 6 cannot apply, since the
   array has all places of both lists. */

/* The set with another D: what opening_tree_validate writes for its five numbers, the diagonal and its C. Writes the whole exchanged set.
   Refusals, in this order: 1 to 5, 7 to 9, 18; then 6 (the diagonal is not of t numbers), 7 to 9 (the diagonal). */
uint8_t opening_tree_exchange_diagonal(const uint64_t set[OPENING_TREE_SET_SIZE], const uint64_t *diagonal, size_t diagonal_count,
                                       uint64_t exchanged[OPENING_TREE_SET_SIZE]);

/* The set with another h: what opening_tree_validate writes for its numbers and lists with the height in the place of h. Writes the whole
   exchanged set. Refusals, in this order: 1 to 5, 7 to 9, 18; then 5 (the height). */
uint8_t opening_tree_exchange_height(const uint64_t set[OPENING_TREE_SET_SIZE], uint64_t height,
                                     uint64_t exchanged[OPENING_TREE_SET_SIZE]);

/* ---- States */

/* The permutation of t words, in place. Writes the whole state. Refusals, in this order: 1 to 5, 7 to 9, 18, 10 (the state is not of t
   numbers), 12 (the state). */
uint8_t opening_tree_permute(const uint64_t set[OPENING_TREE_SET_SIZE], uint64_t *state, size_t state_count);

/* The words whose permutation is given, in place. Writes the whole state. Refusals, in this order: 1 to 5, 7 to 9, 18, 10 (the state is not
   of t numbers), 12 (the state). */
uint8_t opening_tree_unpermute(const uint64_t set[OPENING_TREE_SET_SIZE], uint64_t *state, size_t state_count);

/* The compression of t words. Writes the node. Refusals, in this order: 1 to 5, 7 to 9, 18, 10 (the state is not of t numbers, or the node
   not of l), 12 (the state). */
uint8_t opening_tree_compress(const uint64_t set[OPENING_TREE_SET_SIZE], const uint64_t *state, size_t state_count,
                              uint64_t *node, size_t node_count);

/* ---- Trees */

/* How many numbers the buffers of the set's tree have, to make them by and to hand in as their counts. Writes *leaves, the leaves_count of
   the functions below, k^h * l; *store, the store_count, (1 + k + ... + k^h) * l; and *opening, the siblings_count, h * (k - 1) * l, which
   is 0 where h is 0. A number takes 8 bytes and a buffer fewer than 2^39, so that *store * sizeof(uint64_t) does not overflow. Refusals, in
   this order: 1 to 5, 7 to 9, 18; after one all three hold what they held. */
uint8_t opening_tree_sizes(const uint64_t set[OPENING_TREE_SET_SIZE], uint64_t *leaves, uint64_t *store, uint64_t *opening);

/* The store of the leaves. Writes the whole store, and reads nothing of it. Refusals, in this order: 1 to 5, 7 to 9, 18, 10 (leaves,
   store), 12 (leaves). */
uint8_t opening_tree_build(const uint64_t set[OPENING_TREE_SET_SIZE], const uint64_t *leaves, size_t leaves_count,
                           uint64_t *store, size_t store_count);

/* The root of a store, its last l numbers. Writes the node. Refusals, in this order: 1 to 5, 7 to 9, 18, 10 (store; the node is not of l
   numbers), 12 (these l; the others are not looked at). */
uint8_t opening_tree_root(const uint64_t set[OPENING_TREE_SET_SIZE], const uint64_t *store, size_t store_count, uint64_t *node,
                          size_t node_count);

/* The root of the leaves, without a store. Writes the node. Refusals, in this order: 1 to 5, 7 to 9, 18, 10 (leaves; the node is not of l
   numbers), 12 (leaves). */
uint8_t opening_tree_storeless_root(const uint64_t set[OPENING_TREE_SET_SIZE], const uint64_t *leaves, size_t leaves_count,
                                    uint64_t *node, size_t node_count);

/* The opening of a place. Writes all siblings. Refusals, in this order: 1 to 5, 7 to 9, 18, 10 (store, siblings), 11 (the place is not
   below k^h), 12 (the numbers copied; the others are not looked at). */
uint8_t opening_tree_open(const uint64_t set[OPENING_TREE_SET_SIZE], const uint64_t *store, size_t store_count, uint64_t place,
                          uint64_t *siblings, size_t siblings_count);

/* Whether the leaf stood at the place under the root, that is, whether compressing its way up among the siblings ends in the root: 0 where
   it does, which is OPENING_TREE_ACCEPTED, and OPENING_TREE_REJECTED where it does not. Writes nothing. Refusals, in this order: 1 to 5, 7
   to 9, 18, 10 (the root or the leaf is not of l numbers; siblings), 11 (the place is not below k^h), 12 (root, leaf, siblings). */
uint8_t opening_tree_verify(const uint64_t set[OPENING_TREE_SET_SIZE], const uint64_t *root, size_t root_count, uint64_t place,
                            const uint64_t *leaf, size_t leaf_count, const uint64_t *siblings, size_t siblings_count);

/* The siblings of one level, (k - 1) * l numbers. Writes the part. Refusals, in this order: 1 to 5, 7 to 9, 18, 10 (siblings; the part is
   not of (k - 1) * l numbers), 11 (the level is not below h), 12 (a number of that level; the others are not looked at). */
uint8_t opening_tree_read_level(const uint64_t set[OPENING_TREE_SET_SIZE], const uint64_t *siblings, size_t siblings_count,
                                uint64_t level, uint64_t *part, size_t part_count);

/* ---- Changes */

/* The leaf at its place, and the h nodes above it, made with the siblings that are stored. Writes these h + 1 nodes of the store, and the
   number of compressions, h, to *made. Refusals, in this order: 1 to 5, 7 to 9, 18, 10 (store; the leaf is not of l numbers), 11 (the place
   is not below k^h), 12 (the leaf, and the stored siblings that are read). */
uint8_t opening_tree_replace(const uint64_t set[OPENING_TREE_SET_SIZE], uint64_t *store, size_t store_count, uint64_t place,
                             const uint64_t *leaf, size_t leaf_count, uint64_t *made);

/* One replacement of a push: the first l words are the leaf, and the others are not looked at. */
typedef struct opening_tree_record {
    uint64_t place;
    uint64_t words[6];
} opening_tree_record;

/* opening_tree_push, below, of records that are handed in as numbers, seven for each: its place, then its words. The count is that of the
   numbers. Writes the same, *made among it, and refuses as that does, with 17 too where a place stands twice; 10 also where the count is no
   multiple of seven. */
uint8_t opening_tree_push_numbers(const uint64_t set[OPENING_TREE_SET_SIZE], uint64_t *store, size_t store_count,
                                  const uint64_t *numbers, size_t numbers_count, uint64_t *made);

/* The replacements that records say, all or none; the count is that of the records. Writes to the store each record's leaf, and each node
   that is above one or more of them, once; the store is then the one that opening_tree_replace leaves, called for each record in order.
   Writes to *made the number of compressions, which is that of the different nodes above the places, on levels 1 to h together: at most h
   for each record, h for one record, and 0 for none or where h is 0. A list that has a place twice is refused, with equal leaves too, and
   nothing is written; equal leaves at different places are taken. Refusals, in this order: 1 to 5, 7 to 9, 18, 10 (store; over 2^32
   records), 11 (the place of any record is not below k^h), 12 (the leaf of any record, and the whole store), 17 (two records have the same
   place). This one function is C, over the proved one above. */
static inline uint8_t opening_tree_push(const uint64_t set[OPENING_TREE_SET_SIZE], uint64_t *store, size_t store_count,
                                        const opening_tree_record *records, size_t records_count, uint64_t *made) {
    /* Of over 2^32 records none is read, however many they are; and seven times this count is below 2^64. */
    const size_t count = records_count > 4294967296U ? 4294967297U : records_count;
    return opening_tree_push_numbers(set, store, store_count, count == 0 ? NULL : &records->place, 7 * count, made);
}

/* ---- Collisions */

/* Of two leaves with their openings, both accepted at the same place under the same root: the lowest level at which their rows differ and
   compress alike. A leaf's row at a level is what opening_tree_verify compresses there. Writes the level to *level, the first leaf's row to
   first_row and the second's to second_row. Refusals, in this order: 1 to 5, 7 to 9, 18, 10 (the root or a leaf is not of l numbers;
   siblings; a row is not of t numbers), 11 (the place is not below k^h), 12 (root, leaves, siblings), 15 (the leaves are equal, whatever
   their openings are), 14 (an opening is not accepted). */
uint8_t opening_tree_extract(const uint64_t set[OPENING_TREE_SET_SIZE], const uint64_t *root, size_t root_count, uint64_t place,
                             const uint64_t *first, size_t first_count, const uint64_t *first_siblings,
                             size_t first_siblings_count, const uint64_t *second, size_t second_count,
                             const uint64_t *second_siblings, size_t second_siblings_count, uint64_t *first_row,
                             size_t first_row_count, uint64_t *second_row, size_t second_row_count, uint64_t *level);

/* ---- Files */

/* The leaf of a file, to build, replace or verify with. The contents are read where they are, and neither they nor the message are copied:
   a file that is mapped may be handed in. Writes the leaf. Refusals, in this order: 1 to 5, 7 to 9, 18, 10 (the leaf is not of l numbers),
   16 (the contents are over 4294967295 bytes). A call that is refused reads nothing of them. */
uint8_t opening_tree_leaf_of_file(const uint64_t set[OPENING_TREE_SET_SIZE], const uint8_t *contents, size_t contents_count,
                                  uint64_t *leaf, size_t leaf_count);

#ifdef __cplusplus
}
#endif

#endif
