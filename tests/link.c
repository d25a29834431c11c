/* Calls every function of the library from C, on numbers whose answers are worked by hand or were published, and on one call that each
   refuses. */
#include "opening_tree.h"
#include "opening_tree_published.h"

#include <stdio.h>
#include <stdlib.h>
#include <string.h>

#define P UINT64_C(18446744069414584321)

static const uint64_t diagonal[4] = {1, 2, 3, 4};
static const uint64_t constants[8] = {0, 0, 0, 0, P - 505316, P - 410806, P - 127289, P - 94519};
static const uint64_t singular[4] = {P - 4, P - 4, P - 4, P - 4};
static const uint64_t two_zeros[4] = {0, 2, 0, 4};

/* Where the numbers of a set stand. */
#define SIZE OPENING_TREE_SET_SIZE
enum { WIDTH, NODE_SIZE, HEIGHT, FULL_ROUNDS, PARTIAL_ROUNDS, DIAGONAL, CONSTANTS = 17, INVERSES = 225, TOTAL_INVERSE = 237 };

/* Small numbers, to be worked with by hand, and not safe; and the same with the heights 0, 3 and 8. */
static uint64_t T[SIZE], LOW[SIZE], HIGH[SIZE], HIGHER[SIZE];

static int passed, failed;

static void expect(const char *what, int holds) {
    if (holds) {
        passed++;
    } else {
        failed++;
        printf("wrong: %s\n", what);
    }
}

static int same(const uint64_t *a, const uint64_t *b, size_t count) { return memcmp(a, b, count * sizeof *a) == 0; }

static int all(const uint64_t *a, uint64_t number, size_t count) {
    while (count > 0 && a[count - 1] == number) count--;
    return count == 0;
}

static void fill(uint64_t *a, uint64_t number, size_t count) {
    for (size_t i = 0; i < count; i++) a[i] = number;
}

/* The numbers of the set with one of them another. */
static void alter(uint64_t *altered, const uint64_t *set, size_t place, uint64_t number) {
    memcpy(altered, set, SIZE * sizeof *set);
    altered[place] = number;
}

static void field(void) {
    uint64_t r = 99;
    expect("p is no word, and the result stays", opening_tree_sum(P, 0, &r) == 12 && r == 99);
    expect("0 has no inverse, and the result stays", opening_tree_inverse(0, &r) == 13 && r == 99);
    expect("p is no word to take away", opening_tree_difference(0, P, &r) == 12 && r == 99);
    expect("p + 1 is no word to invert", opening_tree_inverse(P + 1, &r) == 12 && r == 99);
    expect("2^64 - 1 is no word to take a root of", opening_tree_seventh_root(UINT64_MAX, &r) == 12 && r == 99);
    expect("sum", opening_tree_sum(P - 1, 2, &r) == 0 && r == 1);
    expect("difference", opening_tree_difference(0, 1, &r) == 0 && r == P - 1);
    expect("product", opening_tree_product(UINT64_C(1) << 32, UINT64_C(1) << 32, &r) == 0 && r == 4294967295);
    expect("product of p and p", opening_tree_product(P, P, &r) == 0 && r == 0);
    expect("product of p + 1 and p - 1", opening_tree_product(P + 1, P - 1, &r) == 0 && r == P - 1);
    expect("product of the largest", opening_tree_product(UINT64_MAX, UINT64_MAX, &r) == 0 && r == P - UINT64_C(12884901885));
    expect("power", opening_tree_power(2, 10, &r) == 0 && r == 1024);
    expect("p to the power 0", opening_tree_power(P, 0, &r) == 0 && r == 1);
    expect("p to the power 1", opening_tree_power(P, 1, &r) == 0 && r == 0);
    expect("p + 2 to the power 7", opening_tree_power(P + 2, 7, &r) == 0 && r == 128);
    expect("inverse", opening_tree_inverse(2, &r) == 0 && r == UINT64_C(9223372034707292161));
    expect("seventh root", opening_tree_seventh_root(128, &r) == 0 && r == 2);
}

/* Products and powers are those of the residues, and words: of the numbers at edges, in every pairing. */
static void any_numbers(void) {
    const uint64_t two32 = UINT64_C(1) << 32;
    const uint64_t edges[] = {0, 1, two32 - 1, two32, two32 + 1, UINT64_C(1) << 63, P + P, P - 2, P - 1, P, P + 1, UINT64_MAX};
    const size_t count = sizeof edges / sizeof *edges;
    for (size_t i = 0; i < count * count; i++) {
        const uint64_t a = edges[i / count], b = edges[i % count];
        uint64_t r = 99, of_residues = 99;
        expect("product of any numbers", opening_tree_product(a, b, &r) == 0 && r < P);
        expect("product of residues", opening_tree_product(a % P, b % P, &of_residues) == 0 && of_residues == r);
        expect("power of any number", opening_tree_power(a, b, &r) == 0 && r < P);
        expect("power of a residue", opening_tree_power(a % P, b, &of_residues) == 0 && of_residues == r);
    }
}

/* What is kept of D: each inverse makes 1 with its word, and is 0 for a 0 and beyond the words; that of 1 plus their sum makes 1 with it,
   and is 0 where D has a 0. */
static void kept_values(const uint64_t *set) {
    uint64_t sum = 1, product = 0, zeros = 0;
    for (uint64_t i = 0; i < set[WIDTH]; i++) {
        const uint64_t word = set[DIAGONAL + i], inverse = set[INVERSES + i];
        zeros += word == 0;
        if (word == 0) expect("kept of a zero", inverse == 0);
        else expect("kept of a word", opening_tree_product(word, inverse, &product) == 0 && product == 1);
        expect("the sum of what is kept", opening_tree_sum(sum, inverse, &sum) == 0);
    }
    expect("nothing is kept beyond", all(set + INVERSES + set[WIDTH], 0, 12 - set[WIDTH]));
    if (zeros > 0) expect("kept of a sum, with a zero", set[TOTAL_INVERSE] == 0);
    else expect("kept of a sum", opening_tree_product(sum, set[TOTAL_INVERSE], &product) == 0 && product == 1);
    expect("what is kept of a sum is a word", set[TOTAL_INVERSE] < P);
}

/* Makes a set in an array of any numbers: every number and list in its places, 0 beyond them, and what is kept. */
static void make(uint64_t *set, uint64_t width, uint64_t node_size, uint64_t height, uint64_t full_rounds, uint64_t partial_rounds,
                 const uint64_t *words, size_t words_count, const uint64_t *list, size_t list_count) {
    const uint64_t numbers[5] = {width, node_size, height, full_rounds, partial_rounds};
    fill(set, 9, SIZE);
    expect("validate", opening_tree_validate(width, node_size, height, full_rounds, partial_rounds, words, words_count, list, list_count,
                                             set) == 0);
    expect("its numbers", same(set, numbers, 5));
    expect("its D", same(set + DIAGONAL, words, words_count) && all(set + DIAGONAL + words_count, 0, 12 - words_count));
    expect("its C", same(set + CONSTANTS, list, list_count) && all(set + CONSTANTS + list_count, 0, 208 - list_count));
    kept_values(set);
}

/* Refused with this number, and the array holds what it held. */
static int refuses(uint8_t number, uint64_t width, uint64_t node_size, uint64_t height, uint64_t full_rounds, uint64_t partial_rounds,
                   const uint64_t *words, size_t words_count, const uint64_t *list, size_t list_count) {
    uint64_t set[SIZE];
    fill(set, 9, SIZE);
    return opening_tree_validate(width, node_size, height, full_rounds, partial_rounds, words, words_count, list, list_count, set) ==
               number && all(set, 9, SIZE);
}

/* Sets with one zero in D. Of (1, 0, 0, 0) the internal layer finds (1, 410806, 127289, 94519), whose sum is 632615, and under V leaves
   (632615, 1043421, 887193, 916172). The last round's constants make (1, 0, 0, 0) of that, and M_E (5, 4, 1, 1). So they do under
   CANCELLING, where 1 plus the inverses of the words other than 0 is 0, of (632615, -599803, 250748, 349058). */
static uint64_t V[SIZE], CANCELLING[SIZE];
static const uint64_t one_zero[4] = {0, 1, 2, 3}, cancelling[4] = {0, P - 3, P - 3, P - 3};
static const uint64_t one_zero_constants[9] = {0, 0, 0, 0, P - 505316, P - 632614, P - 1043421, P - 887193, P - 916172};
static const uint64_t cancelling_constants[9] = {0, 0, 0, 0, P - 505316, P - 632614, 599803, P - 250748, P - 349058};

/* T, whose D is not used where there are no partial rounds, with words whose inverses add up to 0: 1 is kept of 1 plus their sum. */
static uint64_t BALANCED[SIZE];
static const uint64_t balanced[4] = {1, P - 1, 2, P - 2};

/* The inverses of 2, 3, 4 and -3 are (p + 1) / 2, (2p + 1) / 3, (3p + 1) / 4 and (p - 1) / 3. For T 1 plus the inverses is 37 / 12. */
static void sets(void) {
    const uint64_t half = UINT64_C(9223372034707292161), third = UINT64_C(12297829379609722881), quarter = UINT64_C(13835058052060938241);
    const uint64_t of_t[4] = {1, half, third, quarter}, of_v[4] = {0, 1, half, third}, of_balanced[4] = {1, P - 1, half, P - half};
    const uint64_t of_cancelling[4] = {0, (P - 1) / 3, (P - 1) / 3, (P - 1) / 3};
    uint64_t product = 0;
    make(T, 4, 2, 1, 2, 0, diagonal, 4, constants, 8);
    make(LOW, 4, 2, 0, 2, 0, diagonal, 4, constants, 8);
    make(HIGH, 4, 2, 3, 2, 0, diagonal, 4, constants, 8);
    make(HIGHER, 4, 2, 8, 2, 0, diagonal, 4, constants, 8);
    make(V, 4, 2, 1, 2, 1, one_zero, 4, one_zero_constants, 9);
    make(CANCELLING, 4, 2, 1, 2, 1, cancelling, 4, cancelling_constants, 9);
    make(BALANCED, 4, 2, 1, 2, 0, balanced, 4, constants, 8);
    expect("kept of T's D", same(T + INVERSES, of_t, 4));
    expect("kept of T's sum", opening_tree_product(T[TOTAL_INVERSE], 37, &product) == 0 && product == 12);
    expect("kept of V", same(V + INVERSES, of_v, 4) && V[TOTAL_INVERSE] == 0);
    expect("kept of CANCELLING", same(CANCELLING + INVERSES, of_cancelling, 4) && CANCELLING[TOTAL_INVERSE] == 0);
    expect("kept of BALANCED", same(BALANCED + INVERSES, of_balanced, 4) && BALANCED[TOTAL_INVERSE] == 1);
}

/* Each refusal of validation, where those after it apply too. */
static void no_sets(void) {
    const uint64_t no_word[4] = {1, 0, 0, P};
    expect("t = 5", refuses(1, 5, 0, 33, 3, 65, singular, 3, constants, 7));
    expect("l = 4", refuses(2, 4, 4, 33, 3, 65, singular, 3, constants, 7));
    expect("R_F = 3", refuses(3, 4, 2, 33, 3, 65, singular, 3, constants, 7));
    expect("R_P = 65", refuses(4, 4, 2, 33, 2, 65, singular, 3, constants, 7));
    expect("h = 33", refuses(5, 4, 2, 33, 2, 0, singular, 3, constants, 7));
    expect("three words of D", refuses(6, 4, 2, 1, 2, 0, no_word, 3, constants, 8));
    expect("seven words of C", refuses(6, 4, 2, 1, 2, 0, no_word, 4, constants, 7));
    expect("no D", refuses(6, 4, 2, 1, 2, 0, NULL, 0, constants, 8));
    expect("no C", refuses(6, 4, 2, 1, 2, 0, diagonal, 4, NULL, 0));
    expect("no lists", refuses(6, 4, 2, 1, 2, 0, NULL, 0, NULL, 0));
    expect("p in D", refuses(7, 4, 2, 1, 2, 0, no_word, 4, constants, 8));
    expect("two zeros in D", refuses(8, 4, 2, 1, 2, 0, two_zeros, 4, constants, 8));
    expect("singular", refuses(9, 4, 2, 1, 2, 0, singular, 4, constants, 8));
    expect("l = 5", refuses(OPENING_TREE_BAD_NODE_SIZE, OPENING_TREE_PUBLISHED_12(5, 3)));
    expect("h = 33, published", refuses(OPENING_TREE_BAD_HEIGHT, OPENING_TREE_PUBLISHED_8(4, 33)));
    expect("12^9 leaves", refuses(OPENING_TREE_BAD_HEIGHT, OPENING_TREE_PUBLISHED_12(1, 9)));
}

static void states(void) {
    const uint64_t first[4] = {1, 0, 0, 0}, permuted[4] = {5, 4, 1, 1}, compressed[2] = {6, 4};
    uint64_t state[4] = {1, 0, 0, 0}, node[2] = {9, 9}, wide[SIZE];
    expect("permute", opening_tree_permute(T, state, 4) == 0 && same(state, permuted, 4));
    expect("unpermute", opening_tree_unpermute(T, state, 4) == 0 && same(state, first, 4));
    expect("a state of three numbers", opening_tree_permute(T, state, 3) == 10 && same(state, first, 4));
    alter(wide, T, WIDTH, 5);
    expect("a set that is refused", opening_tree_permute(wide, state, 4) == 1 && same(state, first, 4));
    expect("compress", opening_tree_compress(T, first, 4, node, 2) == 0 && same(node, compressed, 2));
}

/* States and their permutations, as they were published. */
static const uint64_t known_8[2][2][8] = {
    {{0, 0, 0, 0, 0, 0, 0, 0},
     {4214787979728720400U, 12324939279576102560U, 10353596058419792404U, 15456793487362310586U,
      10065219879212154722U, 16227496357546636742U, 2959271128466640042U, 14285409611125725709U}},
    {{0, 1, 2, 3, 4, 5, 6, 7},
     {14266028122062624699U, 5353147180106052723U, 15203350112844181434U, 17630919042639565165U,
      16601551015858213987U, 10184091939013874068U, 16774100645754596496U, 12047415603622314780U}},
};
static const uint64_t known_12[1][2][12] = {
    {{0, 1, 2, 3, 4, 5, 6, 7, 8, 9, 10, 11},
     {138186169299091649U, 2237493815125627916U, 7098449130000758157U, 16681569560651424230U,
      2885694034573886267U, 1987263728465303211U, 4895658260063552408U, 16782691522897809445U,
      6250362358359317026U, 8723968546836371205U, 17025428646788054631U, 7660698892044183277U}},
};

/* The state permutes as published, and back, and compresses to the first words of its sum with that; the sums stay below p. */
static void known(const uint64_t *set, const uint64_t *given, const uint64_t *permuted) {
    const size_t width = set[WIDTH], node_size = set[NODE_SIZE];
    uint64_t state[12], node[12], sum[12];
    memcpy(state, given, width * sizeof *state);
    for (size_t i = 0; i < node_size; i++) sum[i] = given[i] + permuted[i];
    expect("permute, published", opening_tree_permute(set, state, width) == 0 && same(state, permuted, width));
    expect("unpermute, published", opening_tree_unpermute(set, state, width) == 0 && same(state, given, width));
    expect("compress, published", opening_tree_compress(set, given, width, node, node_size) == 0 && same(node, sum, node_size));
}

static void published(void) {
    uint64_t set[SIZE];
    make(set, OPENING_TREE_PUBLISHED_8(4, 3));
    known(set, known_8[0][0], known_8[0][1]);
    make(set, OPENING_TREE_PUBLISHED_8(2, 1));
    known(set, known_8[1][0], known_8[1][1]);
    make(set, OPENING_TREE_PUBLISHED_12(6, 3));
    known(set, known_12[0][0], known_12[0][1]);
}

static int has_sizes(const uint64_t *set, uint64_t leaves, uint64_t store, uint64_t opening) {
    const uint64_t wanted[3] = {leaves, store, opening};
    uint64_t given[3] = {97, 98, 99};
    return opening_tree_sizes(set, &given[0], &given[1], &given[2]) == 0 && same(given, wanted, 3);
}

static void sizes(void) {
    uint64_t set[SIZE];
    expect("sizes, T", has_sizes(T, 4, 6, 2));
    expect("sizes, h = 0", has_sizes(LOW, 2, 2, 0));
    make(set, OPENING_TREE_PUBLISHED_12(4, 2));
    expect("sizes, k = 3", has_sizes(set, 9 * 4, (9 + 3 + 1) * 4, 2 * 2 * 4));
    make(set, OPENING_TREE_PUBLISHED_8(2, 3));
    expect("sizes, k = 4", has_sizes(set, 64 * 2, (64 + 16 + 4 + 1) * 2, 3 * 3 * 2));
    make(set, OPENING_TREE_PUBLISHED_12(1, 8));
    expect("sizes, k = 12", has_sizes(set, 429981696, 469070941, 8 * 11));
    make(set, OPENING_TREE_PUBLISHED_12(6, 32));
    expect("sizes, the greatest", has_sizes(set, UINT64_C(25769803776), UINT64_C(51539607546), 32 * 6));
}

/* A set under which (1, 0, 0, 0) permutes to (5, 4, 1, 1), such as T and V: this state and back, and the tree of (1, 0) and (0, 0); then a
   state there and back, and the other way round. */
static void works(const uint64_t *set) {
    const uint64_t first[4] = {1, 0, 0, 0}, permuted[4] = {5, 4, 1, 1}, built[6] = {1, 0, 0, 0, 6, 4}, other[4] = {P - 1, 7, 0, 1};
    uint64_t state[4] = {1, 0, 0, 0}, moved[4] = {P - 1, 7, 0, 1}, node[2] = {9, 9}, store[6] = {0};
    expect("works: sizes", has_sizes(set, 4, 6, 2));
    expect("works: permute", opening_tree_permute(set, state, 4) == 0 && same(state, permuted, 4));
    expect("works: unpermute", opening_tree_unpermute(set, state, 4) == 0 && same(state, first, 4));
    expect("works: compress", opening_tree_compress(set, first, 4, node, 2) == 0 && same(node, built + 4, 2));
    expect("works: build", opening_tree_build(set, first, 4, store, 6) == 0 && same(store, built, 6));
    expect("works: verify", opening_tree_verify(set, built + 4, 2, 1, first + 2, 2, first, 2) == OPENING_TREE_ACCEPTED);
    expect("works: there", opening_tree_permute(set, moved, 4) == 0 && !same(moved, other, 4));
    expect("works: and back", opening_tree_unpermute(set, moved, 4) == 0 && same(moved, other, 4));
    expect("works: back", opening_tree_unpermute(set, moved, 4) == 0 && !same(moved, other, 4));
    expect("works: and there", opening_tree_permute(set, moved, 4) == 0 && same(moved, other, 4));
}

/* A set that every function refuses with this number, with arguments that fit T, and with others that nothing fits; nothing is written. */
static void refused(const char *what, const uint64_t *set, uint8_t number) {
    const uint64_t given[6] = {1, 0, 0, 0, 6, 4};
    const opening_tree_record record = {1, {5, 6, 0, 0, 0, 0}};
    const uint8_t contents[1] = {7};
    uint64_t a[6], b[6], c[SIZE], made = 9, level = 9, three[3] = {9, 9, 9};
    fill(a, 9, 6);
    fill(b, 9, 6);
    fill(c, 9, SIZE);
    const uint8_t answers[] = {
        opening_tree_exchange_diagonal(set, diagonal, 4, c),
        opening_tree_exchange_diagonal(set, NULL, 0, c),
        opening_tree_exchange_height(set, 1, c),
        opening_tree_exchange_height(set, 33, c),
        opening_tree_permute(set, a, 4),
        opening_tree_permute(set, NULL, 0),
        opening_tree_unpermute(set, a, 4),
        opening_tree_unpermute(set, NULL, 0),
        opening_tree_compress(set, given, 4, a, 2),
        opening_tree_compress(set, NULL, 0, NULL, 0),
        opening_tree_sizes(set, &three[0], &three[1], &three[2]),
        opening_tree_build(set, given, 4, a, 6),
        opening_tree_build(set, NULL, 0, NULL, 0),
        opening_tree_root(set, given, 6, a, 2),
        opening_tree_root(set, NULL, 0, NULL, 0),
        opening_tree_storeless_root(set, given, 4, a, 2),
        opening_tree_storeless_root(set, NULL, 0, NULL, 0),
        opening_tree_open(set, given, 6, 1, a, 2),
        opening_tree_open(set, NULL, 0, 2, NULL, 0),
        opening_tree_verify(set, given + 4, 2, 1, given + 2, 2, given, 2),
        opening_tree_verify(set, NULL, 0, 2, NULL, 0, NULL, 0),
        opening_tree_read_level(set, given, 2, 0, a + 2, 2),
        opening_tree_read_level(set, NULL, 0, 1, NULL, 0),
        opening_tree_replace(set, a, 6, 1, given, 2, &made),
        opening_tree_replace(set, NULL, 0, 2, NULL, 0, &made),
        opening_tree_push(set, a, 6, &record, 1, &made),
        opening_tree_push(set, NULL, 0, &record, SIZE_MAX, &made),
        opening_tree_push_numbers(set, a, 6, &record.place, 7, &made),
        opening_tree_push_numbers(set, NULL, 0, &record.place, 6, &made),
        opening_tree_extract(set, given + 4, 2, 1, given + 2, 2, given, 2, given + 2, 2, given, 2, a, 4, b, 4, &level),
        opening_tree_extract(set, NULL, 0, 2, NULL, 0, NULL, 0, NULL, 0, NULL, 0, NULL, 0, NULL, 0, &level),
        opening_tree_leaf_of_file(set, contents, 1, a, 2),
        opening_tree_leaf_of_file(set, contents, SIZE_MAX, NULL, 0),
    };
    for (size_t i = 0; i < sizeof answers; i++) {
        if (answers[i] != number) printf("answer %zu is %d and not %d: ", i, answers[i], number);
        expect(what, answers[i] == number);
    }
    expect(what, all(a, 9, 6) && all(b, 9, 6) && all(c, 9, SIZE) && made == 9 && level == 9 && all(three, 9, 3));
}

/* Each refusal of a set, where those after it apply too; the kept values are wrong until the last. */
static void refused_sets(void) {
    const uint64_t no_word[4] = {1, 0, 0, P}, others_cancel[4] = {0, P - 2, P - 2, 0};
    uint64_t set[SIZE];
    fill(set, P, SIZE);
    refused("t = p", set, 1);
    set[WIDTH] = 4;
    refused("l = p", set, 2);
    set[NODE_SIZE] = 2;
    refused("R_F = p", set, 3);
    set[FULL_ROUNDS] = 2;
    refused("R_P = p", set, 4);
    set[PARTIAL_ROUNDS] = 0;
    refused("h = p", set, 5);
    set[HEIGHT] = 33;
    refused("h = 33", set, 5);
    set[HEIGHT] = 1;
    refused("p in D and C", set, 7);
    memcpy(set + CONSTANTS, constants, sizeof constants);
    memcpy(set + DIAGONAL, no_word, sizeof no_word);
    refused("p in D", set, 7);
    memcpy(set + DIAGONAL, two_zeros, sizeof two_zeros);
    refused("two zeros in D", set, 8);
    memcpy(set + DIAGONAL, others_cancel, sizeof others_cancel);
    refused("two zeros in D, and the others cancel", set, 8);
    memcpy(set + DIAGONAL, singular, sizeof singular);
    refused("singular, and the kept values are no words", set, 9);
    memcpy(set + INVERSES, T + INVERSES, 13 * sizeof *T);
    refused("singular, and the kept values of another D", set, 9);
    memcpy(set + DIAGONAL, diagonal, sizeof diagonal);
    set[CONSTANTS + 7] = P;
    refused("p in C", set, 7);
    set[CONSTANTS + 7] = constants[7];
    works(set);
}

/* Each kept value changed in turn: one more, one less, p more, and 0 or another than 0. Beyond the words of D they may be anything. */
static void changed_values(const uint64_t *set) {
    uint64_t changed[SIZE];
    for (size_t i = INVERSES; i < SIZE; i++) {
        const uint64_t value = set[i], others[4] = {value + 1, value - 1, value + P, value == 0 ? P - 1 : 0};
        for (int j = 0; j < 4; j++) {
            alter(changed, set, i, others[j]);
            if (i < INVERSES + set[WIDTH] || i == TOTAL_INVERSE) refused("a kept value is another", changed, OPENING_TREE_BAD_KEPT_VALUES);
            else works(changed);
        }
    }
}

/* Whatever the places hold that a set of four words does not use, it does the same. */
static void junk_beyond(uint64_t *altered, const uint64_t *set) {
    const size_t used = CONSTANTS + 4 * set[FULL_ROUNDS] + set[PARTIAL_ROUNDS];
    memcpy(altered, set, SIZE * sizeof *set);
    fill(altered + DIAGONAL + 4, P, 8);
    fill(altered + used, UINT64_MAX, INVERSES - used);
    fill(altered + INVERSES + 4, 1, 8);
}

static void judged(void) {
    const uint64_t *const sets[4] = {T, BALANCED, V, CANCELLING};
    uint64_t set[SIZE], altered[SIZE];
    for (int i = 0; i < 4; i++) {
        works(sets[i]);
        changed_values(sets[i]);
        junk_beyond(altered, sets[i]);
        works(altered);
    }
    /* The values of one D with another, of which one word is 0 or none. */
    memcpy(altered, T, sizeof T);
    memcpy(altered + INVERSES, BALANCED + INVERSES, 13 * sizeof *T);
    refused("the values of another D", altered, 18);
    memcpy(altered, V, sizeof V);
    memcpy(altered + INVERSES, CANCELLING + INVERSES, 13 * sizeof *V);
    refused("the values of another D, with a zero", altered, 18);
    alter(altered, V, DIAGONAL, 5);
    refused("a word in the place of a zero", altered, 18);
    alter(altered, T, DIAGONAL, 0);
    refused("a zero in the place of a word", altered, 18);
    make(set, OPENING_TREE_PUBLISHED_12(2, 1));
    for (size_t i = INVERSES; i < SIZE; i++) {
        alter(altered, set, i, set[i] ^ 1);
        refused("a kept value is another, published", altered, 18);
    }
}

/* The set with this D, by an exchange: what validation writes for it, and for its other numbers. */
static int exchanges(const uint64_t *set, const uint64_t *words, uint64_t *exchanged) {
    const size_t width = set[WIDTH], list_count = width * set[FULL_ROUNDS] + set[PARTIAL_ROUNDS];
    uint64_t wanted[SIZE];
    make(wanted, width, set[NODE_SIZE], set[HEIGHT], set[FULL_ROUNDS], set[PARTIAL_ROUNDS], words, width, set + CONSTANTS, list_count);
    fill(exchanged, 9, SIZE);
    return opening_tree_exchange_diagonal(set, words, width, exchanged) == 0 && same(exchanged, wanted, SIZE);
}

/* Refused with this number, and the array for the exchanged set holds what it held. */
static int no_exchange(uint8_t number, const uint64_t *set, const uint64_t *words, size_t words_count) {
    uint64_t exchanged[SIZE];
    fill(exchanged, 9, SIZE);
    return opening_tree_exchange_diagonal(set, words, words_count, exchanged) == number && all(exchanged, 9, SIZE);
}

static void exchanged_diagonals(void) {
    const uint64_t words[13] = {P - 1, 2, P, 0, 5, 6, 7, 8, 9, 10, 11, 12, 13};
    uint64_t with[SIZE], back[SIZE], altered[SIZE], set[SIZE];
    expect("another D", exchanges(T, balanced, with) && same(with, BALANCED, SIZE));
    expect("another D, and back", exchanges(with, diagonal, back) && same(back, T, SIZE));
    expect("a D with a zero", exchanges(T, one_zero, with) && exchanges(with, diagonal, back) && same(back, T, SIZE));
    expect("the others cancel", exchanges(V, cancelling, with) && exchanges(with, one_zero, back) && same(back, V, SIZE));
    expect("the same D", exchanges(T, diagonal, back) && same(back, T, SIZE));
    junk_beyond(altered, T);
    fill(with, 9, SIZE);
    expect("beyond its words", opening_tree_exchange_diagonal(altered, balanced, 4, with) == 0 && same(with, BALANCED, SIZE));
    works(with);
    expect("three words", no_exchange(OPENING_TREE_BAD_LIST_LENGTH, T, words, 3));
    expect("five words", no_exchange(6, T, words, 5));
    expect("no words", no_exchange(6, T, NULL, 0));
    expect("twelve words", no_exchange(6, T, words, 12));
    expect("p in D", no_exchange(7, T, words, 4));
    expect("two zeros", no_exchange(8, T, two_zeros, 4));
    expect("singular", no_exchange(9, T, singular, 4));
    make(set, OPENING_TREE_PUBLISHED_12(4, 1));
    expect("eight words of twelve", no_exchange(6, set, words, 8));
    expect("thirteen words of twelve", no_exchange(6, set, words, 13));
}

static void exchanged_heights(void) {
    uint64_t with[SIZE], wanted[SIZE], altered[SIZE], set[SIZE];
    junk_beyond(altered, T);
    for (uint64_t height = 0; height <= 32; height++) {
        make(wanted, 4, 2, height, 2, 0, diagonal, 4, constants, 8);
        fill(with, 9, SIZE);
        expect("another h", opening_tree_exchange_height(T, height, with) == 0 && same(with, wanted, SIZE));
        fill(with, 9, SIZE);
        expect("beyond its words", opening_tree_exchange_height(altered, height, with) == 0 && same(with, wanted, SIZE));
        make(wanted, 4, 2, height, 2, 1, one_zero, 4, one_zero_constants, 9);
        expect("another h, with a zero", opening_tree_exchange_height(V, height, with) == 0 && same(with, wanted, SIZE));
    }
    make(set, OPENING_TREE_PUBLISHED_12(4, 2));
    make(wanted, OPENING_TREE_PUBLISHED_12(4, 20));
    expect("the greatest h", opening_tree_exchange_height(set, 20, with) == 0 && same(with, wanted, SIZE));
    expect("and the set's own", opening_tree_exchange_height(with, 2, altered) == 0 && same(altered, set, SIZE));
    fill(with, 9, SIZE);
    expect("3^21 leaves", opening_tree_exchange_height(set, 21, with) == OPENING_TREE_BAD_HEIGHT && all(with, 9, SIZE));
    expect("h = 33", opening_tree_exchange_height(T, 33, with) == 5 && all(with, 9, SIZE));
    expect("the most", opening_tree_exchange_height(T, UINT64_MAX, with) == 5 && all(with, 9, SIZE));
    alter(altered, T, HEIGHT, 33);
    expect("the old h is 33", opening_tree_exchange_height(altered, 1, with) == 5 && all(with, 9, SIZE));
    expect("and D another", no_exchange(5, altered, balanced, 4));
}

/* A zero at each place of the published sets' diagonals, which then permute otherwise, and back. Two at any two places are refused. */
static void zeros_at_places(const uint64_t *set) {
    const size_t width = set[WIDTH];
    uint64_t given[12], state[12], other[12], words[12], with[SIZE], two[SIZE];
    for (uint64_t i = 0; i < width; i++) given[i] = other[i] = P - 1 - i;
    expect("no zero", opening_tree_permute(set, other, width) == 0);
    for (size_t i = 0; i < width; i++) {
        memcpy(words, set + DIAGONAL, width * sizeof *words);
        memcpy(state, given, width * sizeof *state);
        words[i] = 0;
        expect("a zero", exchanges(set, words, with));
        expect("a zero: permute", opening_tree_permute(with, state, width) == 0 && !same(state, other, width));
        expect("a zero: unpermute", opening_tree_unpermute(with, state, width) == 0 && same(state, given, width));
        for (size_t j = 0; j < i; j++) {
            words[j] = 0;
            expect("two zeros", no_exchange(OPENING_TREE_ZERO_IN_DIAGONAL, set, words, width));
            words[j] = set[DIAGONAL + j];
            alter(two, with, DIAGONAL + j, 0);
            expect("two zeros: kept", opening_tree_unpermute(two, state, width) == 8 && same(state, given, width));
        }
    }
}

static void zeros(void) {
    static const uint64_t places[4][4] = {{0, 2, 3, 4}, {1, 0, 3, 4}, {1, 2, 0, 4}, {1, 2, 3, 0}};
    uint64_t set[SIZE];
    for (int i = 0; i < 4; i++) {
        make(set, 4, 2, 1, 2, 0, places[i], 4, constants, 8);
        works(set);
    }
    make(set, OPENING_TREE_PUBLISHED_8(4, 1));
    zeros_at_places(set);
    make(set, OPENING_TREE_PUBLISHED_12(4, 1));
    zeros_at_places(set);
}

/* A tree in buffers that are made by the sizes: these are the counts that the other functions take, and one more or less is refused. */
static void buffers(const uint64_t *set) {
    const uint64_t node_size = set[NODE_SIZE];
    uint64_t leaves_count = 0, store_count = 0, siblings_count = 0;
    if (opening_tree_sizes(set, &leaves_count, &store_count, &siblings_count) != 0) abort();
    /* One number more each, for a count that is refused. */
    uint64_t *leaves = (uint64_t *)calloc(leaves_count + 1, sizeof *leaves);
    uint64_t *store = (uint64_t *)calloc(store_count + 1, sizeof *store);
    uint64_t *siblings = (uint64_t *)calloc(siblings_count + 1, sizeof *siblings);
    if (leaves == NULL || store == NULL || siblings == NULL) abort();
    for (uint64_t i = 0; i < leaves_count; i++) leaves[i] = i;
    const uint64_t *root = store + store_count - node_size, *leaf = leaves + leaves_count - node_size;
    const uint64_t last = leaves_count / node_size - 1;
    expect("one leaf number more", opening_tree_build(set, leaves, leaves_count + 1, store, store_count) == 10);
    expect("one leaf number less", opening_tree_build(set, leaves, leaves_count - 1, store, store_count) == 10);
    expect("a store of one more", opening_tree_build(set, leaves, leaves_count, store, store_count + 1) == 10);
    expect("a store of one less", opening_tree_build(set, leaves, leaves_count, store, store_count - 1) == 10);
    expect("build, by the sizes", opening_tree_build(set, leaves, leaves_count, store, store_count) == 0);
    expect("an opening of one more", opening_tree_open(set, store, store_count, last, siblings, siblings_count + 1) == 10);
    expect("open, by the sizes", opening_tree_open(set, store, store_count, last, siblings, siblings_count) == 0);
    expect("verify, by the sizes", opening_tree_verify(set, root, node_size, last, leaf, node_size, siblings, siblings_count) == 0);
    free(leaves);
    free(store);
    free(siblings);
}

static void trees(void) {
    const uint64_t leaves[4] = {1, 0, 0, 0}, built[6] = {1, 0, 0, 0, 6, 4}, root[2] = {6, 4};
    uint64_t store[6] = {0}, node[2] = {0}, siblings[2] = {9, 9}, part[2] = {9, 9};
    expect("build", opening_tree_build(T, leaves, 4, store, 6) == 0 && same(store, built, 6));
    expect("root", opening_tree_root(T, store, 6, node, 2) == 0 && same(node, root, 2));
    memset(node, 0, sizeof node);
    expect("storeless root", opening_tree_storeless_root(T, leaves, 4, node, 2) == 0 && same(node, root, 2));
    expect("place 2", opening_tree_open(T, store, 6, 2, siblings, 2) == 11 && siblings[0] == 9);
    expect("open", opening_tree_open(T, store, 6, 1, siblings, 2) == 0 && same(siblings, leaves, 2));
    expect("accepted", opening_tree_verify(T, root, 2, 1, leaves + 2, 2, siblings, 2) == OPENING_TREE_ACCEPTED);
    expect("rejected", opening_tree_verify(T, root, 2, 0, leaves + 2, 2, siblings, 2) == OPENING_TREE_REJECTED);
    expect("refused", opening_tree_verify(T, root, 1, 1, leaves + 2, 2, siblings, 2) == 10);
    expect("level 1", opening_tree_read_level(T, siblings, 2, 1, part, 2) == 11 && part[0] == 9);
    expect("level 0", opening_tree_read_level(T, siblings, 2, 0, part, 2) == 0 && same(part, siblings, 2));
}

static void changes(void) {
    const uint64_t leaf[2] = {1, 0}, built[6] = {1, 0, 0, 0, 6, 4}, record[7] = {0, 1, 0, P, P, P, P};
    uint64_t store[6] = {0}, made = 99;
    expect("place 2", opening_tree_replace(T, store, 6, 2, leaf, 2, &made) == 11 && made == 99 && store[0] == 0);
    expect("replace", opening_tree_replace(T, store, 6, 0, leaf, 2, &made) == 0 && made == 1 && same(store, built, 6));
    memset(store, 0, sizeof store);
    made = 99;
    expect("six numbers", opening_tree_push_numbers(T, store, 6, record, 6, &made) == 10 && made == 99 && store[0] == 0);
    expect("seven numbers", opening_tree_push_numbers(T, store, 6, record, 7, &made) == 0 && made == 1 && same(store, built, 6));
}

/* A count of records is one of records, also where seven times that passes 2^64. */
static void records(void) {
    const uint64_t built[6] = {1, 0, 0, 0, 6, 4};
    const opening_tree_record last = {0, {1, 0, P, P, P, P}}, other = {1, {0, 0, P, P, P, P}}, out = {2, {0, 0, 0, 0, 0, 0}};
    const opening_tree_record two[2] = {other, last}, bad[2] = {last, out};
    const size_t most = UINT64_C(1) << 32, wraps = SIZE_MAX / 7 + 1;
    uint64_t store[6] = {0}, made = 99;
    expect("a record is seven numbers", sizeof last == 7 * sizeof(uint64_t) && 7 * wraps < 7);
    expect("the second place", opening_tree_push(T, store, 6, bad, 2, &made) == 11 && made == 99 && store[0] == 0);
    expect("over 2^32 records", opening_tree_push(T, store, 6, two, most + 1, &made) == 10 && made == 99 && store[0] == 0);
    expect("more than fit", opening_tree_push(T, store, 6, two, wraps, &made) == 10 && made == 99 && store[0] == 0);
    expect("the most", opening_tree_push(T, store, 6, two, SIZE_MAX, &made) == 10 && made == 99 && store[0] == 0);
    expect("two records", opening_tree_push(T, store, 6, two, 2, &made) == 0 && made == 1 && same(store, built, 6));
    memset(store, 0, sizeof store);
    expect("the first", opening_tree_push(T, store, 6, two, 1, &made) == 0 && made == 1 && !same(store, built, 6));
}

/* Seven records for eight places, in no order and with equal leaves among them: the store is that of the leaves that they leave, and all
   4 + 2 + 1 nodes above the leaves are written. */
static void seven_records(void) {
    const uint64_t places[7] = {5, 0, 7, 2, 6, 1, 3};
    uint64_t leaves[16] = {0}, store[30] = {0}, built[30] = {0}, made = 99;
    opening_tree_record seven[7];
    expect("build", opening_tree_build(HIGH, leaves, 16, store, 30) == 0);
    for (uint64_t i = 0; i < 7; i++) {
        const opening_tree_record record = {places[i], {i / 2 + 1, P - 1, P, P, P, P}};
        seven[i] = record;
        memcpy(leaves + 2 * places[i], record.words, 2 * sizeof *leaves);
    }
    expect("build, of what they leave", opening_tree_build(HIGH, leaves, 16, built, 30) == 0 && !same(store, built, 30));
    expect("seven records", opening_tree_push(HIGH, store, 30, seven, 7, &made) == 0 && made == 7 && same(store, built, 30));
}

/* The count of a push for these places in a tree of eight, by both functions, on words that are no built store: they leave what one
   replacement after another leaves. */
static int makes(uint64_t wanted, const uint64_t *places, size_t count) {
    uint64_t store[30], listed[30], singly[30], made = 99, made_listed = 99, made_singly = 99;
    opening_tree_record list[8];
    for (uint64_t i = 0; i < 30; i++) store[i] = listed[i] = singly[i] = P - 1 - i * i;
    for (size_t i = 0; i < count; i++) {
        const opening_tree_record record = {places[i], {places[i], i, P, P, P, P}};
        list[i] = record;
        if (opening_tree_replace(HIGH, singly, 30, places[i], record.words, 2, &made_singly) != 0 || made_singly != 3) return 0;
    }
    if (opening_tree_push(HIGH, store, 30, list, count, &made) != 0 || !same(store, singly, 30)) return 0;
    if (opening_tree_push_numbers(HIGH, listed, 30, &list->place, 7 * count, &made_listed) != 0) return 0;
    return made == wanted && made_listed == wanted && same(listed, singly, 30);
}

/* A node above several places is counted once: on level 1, then 2, then 3. */
static void shared_nodes(void) {
    static const uint64_t row[2] = {4, 5}, border[2] = {3, 4}, ends[2] = {7, 0}, quarter[3] = {2, 0, 1}, half[4] = {5, 7, 4, 6};
    static const uint64_t even[4] = {6, 2, 4, 0}, all[8] = {0, 1, 2, 3, 4, 5, 6, 7};
    expect("no place", makes(0, all, 0));
    expect("one place", makes(1 + 1 + 1, row, 1));
    expect("two of a row", makes(1 + 1 + 1, row, 2));
    expect("two at a border", makes(2 + 2 + 1, border, 2));
    expect("the last and the first", makes(2 + 2 + 1, ends, 2));
    expect("a row, and one of the next", makes(2 + 1 + 1, quarter, 3));
    expect("a whole subtree", makes(2 + 1 + 1, half, 4));
    expect("one of each row", makes(4 + 2 + 1, even, 4));
    expect("all places", makes(4 + 2 + 1, all, 8));
}

/* Refused with this number by both functions, and the store and the count hold what they held. */
static int refuses_push(uint8_t number, uint64_t *store, const opening_tree_record *list, size_t count) {
    static uint64_t kept[1022];
    uint64_t made = 99;
    memcpy(kept, store, sizeof kept);
    if (opening_tree_push(HIGHER, store, 1022, list, count, &made) != number || !same(store, kept, 1022)) return 0;
    if (opening_tree_push_numbers(HIGHER, store, 1022, &list->place, 7 * count, &made) != number) return 0;
    return made == 99 && same(store, kept, 1022);
}

/* A list of records at different places, of which the last gets another's; 11 and 12 come before 17. */
static void repeats_of(uint64_t *store, opening_tree_record *list, size_t count) {
    const opening_tree_record first = list[0], before = list[count - 2], last = list[count - 1];
    const uint64_t root = store[1021];
    list[count - 1].place = first.place;
    expect("a place twice: first and last", refuses_push(OPENING_TREE_REPEATED_PLACE, store, list, count));
    list[0].words[1] = P;
    expect("a place twice, and a leaf with p", refuses_push(12, store, list, count));
    list[0].place = list[count - 1].place = 256;
    expect("place 256 twice, and a leaf with p", refuses_push(11, store, list, count));
    list[0] = first;
    list[count - 1].place = first.place;
    store[1021] = P;
    expect("a place twice, and p in the store", refuses_push(12, store, list, count));
    store[1021] = root;
    list[count - 1].place = before.place;
    expect("a place twice: the last two", refuses_push(17, store, list, count));
    list[count - 1] = before;
    expect("a record twice", refuses_push(17, store, list, count));
    list[count - 1] = last;
}

/* How many of the nodes of HIGHER above its 256 leaves have a place of the list under them. */
static uint64_t nodes_above(const opening_tree_record *list, size_t count) {
    uint64_t nodes = 0;
    for (int level = 1; level <= 8; level++) {
        for (uint64_t node = 0; node < 256U >> level; node++) {
            size_t i = 0;
            while (i < count && list[i].place >> level != node) i++;
            nodes += i < count;
        }
    }
    return nodes;
}

/* Lists of few records and of many, whose places rise, jump or fall: refused where one is made another's, and else taken. Where they rise
   from 0 on, each level has half as many nodes above them as the one below, rounded up; where they fall, they are 0 and the last places. */
static void repeats(void) {
    static const size_t counts[6] = {2, 3, 128, 129, 130, 256};
    static const uint64_t steps[3] = {1, 37, 255};
    static const uint64_t worked[3][6] = {{8, 9, 128, 135, 135, 255}, {0}, {15, 15, 135, 135, 141, 255}};
    static uint64_t leaves[512], store[1022], built[1022];
    static opening_tree_record list[256];
    expect("build", opening_tree_build(HIGHER, leaves, 512, store, 1022) == 0);
    for (int i = 0; i < 18; i++) {
        const size_t count = counts[i % 6];
        uint64_t made = 99;
        for (uint64_t j = 0; j < count; j++) {
            const opening_tree_record record = {steps[i / 6] * j % 256, {j / 2, (uint64_t)i, P, P, P, P}};
            list[j] = record;
        }
        repeats_of(store, list, count);
        for (size_t j = 0; j < count; j++) memcpy(leaves + 2 * list[j].place, list[j].words, 2 * sizeof *leaves);
        expect("no place twice", opening_tree_push(HIGHER, store, 1022, list, count, &made) == 0 && made == nodes_above(list, count));
        if (i / 6 != 1) expect("its count, worked by hand", made == worked[i / 6][i % 6]);
        expect("its leaves", opening_tree_build(HIGHER, leaves, 512, built, 1022) == 0 && same(store, built, 1022));
    }
}

/* A set that was made for two leaves which are both accepted at place 3 under one root, and so is not safe: their rows at level 1 collide.
   At each level the sibling comes first. */
static uint64_t WEAK[SIZE];
static const uint64_t weak_diagonal[4] = {2323977009865630898U, 12518514558001707300U, 668178666096051417U, 9875627240877486526U};
static const uint64_t weak_constants[8] = {1372557943261738864U,  5032861063245982280U, 2810201305772277961U,  1726419793238167099U,
                                           11056965576908617619U, 1269056739062402058U, 13680347514614465711U, 4294967295U};
static const uint64_t weak_root[2] = {7353310026026904088U, 13490686081725479607U};
static const uint64_t weak_leaves[2][2] = {{3669959116008525303U, 17781029918724427263U}, {8531481348199922329U, 1313280933183081952U}};
static const uint64_t weak_siblings[2][4] = {
    {3257721517816812275U, 4705944142922014037U, 16445857043074958901U, 14291850895486815322U},
    {2354424344695467737U, 13835142492714613454U, 3520250776031253462U, 9297292628332905236U}};

static void extraction(void) {
    uint64_t rows[2][4], made[2][4], level = 99;
    make(WEAK, 4, 2, 2, 2, 0, weak_diagonal, 4, weak_constants, 8);
    for (int i = 0; i < 2; i++) {
        const uint64_t *leaf = weak_leaves[i], *siblings = weak_siblings[i];
        const uint64_t below[4] = {siblings[0], siblings[1], leaf[0], leaf[1]};
        memcpy(made[i], siblings + 2, 2 * sizeof *siblings);
        expect("accepted", opening_tree_verify(WEAK, weak_root, 2, 3, leaf, 2, siblings, 4) == OPENING_TREE_ACCEPTED);
        expect("the node above", opening_tree_compress(WEAK, below, 4, made[i] + 2, 2) == 0);
    }
    expect("extract", opening_tree_extract(WEAK, weak_root, 2, 3, weak_leaves[0], 2, weak_siblings[0], 4, weak_leaves[1], 2,
                                           weak_siblings[1], 4, rows[0], 4, rows[1], 4, &level) == 0 && level == 1);
    expect("the rows", same(rows[0], made[0], 4) && same(rows[1], made[1], 4) && !same(rows[0], rows[1], 4));
    for (int i = 0; i < 2; i++) {
        uint64_t node[2] = {0, 0};
        expect("compress alike", opening_tree_compress(WEAK, rows[i], 4, node, 2) == 0 && same(node, weak_root, 2));
    }
}

static void collisions(void) {
    const uint64_t root[2] = {6, 4}, leaf[2] = {1, 0}, other[2] = {2, 0}, siblings[2] = {0, 0};
    uint64_t a[4] = {9, 9, 9, 9}, b[4] = {9, 9, 9, 9}, level = 99;
    expect("equal leaves", opening_tree_extract(T, root, 2, 0, leaf, 2, siblings, 2, leaf, 2, siblings, 2, a, 4, b, 4, &level) == 15);
    expect("not accepted", opening_tree_extract(T, root, 2, 0, leaf, 2, siblings, 2, other, 2, siblings, 2, a, 4, b, 4, &level) == 14);
    expect("nothing written", a[0] == 9 && b[3] == 9 && level == 99);
}

/* Under WEAK: equal leaves are 15 whether an opening is good or bad, and different ones are 14 unless both are good. */
static void good_and_bad_openings(void) {
    for (int which = 0; which < 16; which++) {
        const int one = which & 1, other = which >> 1 & 1, is_good = which < 4, is_equal = one == other;
        uint64_t siblings[2][4], a[4] = {9, 9, 9, 9}, b[4] = {9, 9, 9, 9}, level = 99;
        memcpy(siblings[0], weak_siblings[one], sizeof *siblings);
        memcpy(siblings[1], weak_siblings[other], sizeof *siblings);
        siblings[0][0] += which >> 2 & 1;
        siblings[1][3] += which >> 3 & 1;
        const uint8_t wanted = is_equal ? 15 : is_good ? 0 : 14;
        expect("good and bad openings", opening_tree_extract(WEAK, weak_root, 2, 3, weak_leaves[one], 2, siblings[0], 4, weak_leaves[other], 2,
                                                             siblings[1], 4, a, 4, b, 4, &level) == wanted);
        expect("the level", level == (wanted == 0 ? 1 : 99) && (wanted == 0 || (a[0] == 9 && b[3] == 9)));
    }
}

/* Leaves of files under T, where a message block is two words, 14 bytes. The message of the empty file, with 01 and zeros, is the words
   52915648556130 and 1, and that of `hello\n`, with 01, the words 59512718322786 and 292948653401448. So their leaves begin the permutation
   of these and two zeros: 16155333835464672045, 8750051444766971692 and 7674626845191841513, 11908278685281199477. With the 01 in the
   contents the message is a block longer, and the leaf is 2478763846379610736, 15239368740673049823. */
static void files(void) {
    const uint8_t hello[7] = {'h', 'e', 'l', 'l', 'o', '\n', 1};
    const uint64_t leaves[4] = {16155333835464672045U, 8750051444766971692U, 7674626845191841513U, 11908278685281199477U};
    const uint64_t longer[2] = {2478763846379610736U, 15239368740673049823U};
    uint64_t empty_words[4] = {52915648556130U, 1, 0, 0}, hello_words[4] = {59512718322786U, 292948653401448U, 0, 0};
    uint64_t leaf[2] = {9, 9}, store[6] = {0}, made = 99;
    expect("the empty file", opening_tree_leaf_of_file(T, hello, 0, leaf, 2) == 0 && same(leaf, leaves, 2));
    expect("its words", opening_tree_permute(T, empty_words, 4) == 0 && same(empty_words, leaves, 2));
    expect("hello", opening_tree_leaf_of_file(T, hello, 6, leaf, 2) == 0 && same(leaf, leaves + 2, 2));
    expect("its words", opening_tree_permute(T, hello_words, 4) == 0 && same(hello_words, leaves + 2, 2));
    expect("hello and 01", opening_tree_leaf_of_file(T, hello, 7, leaf, 2) == 0 && same(leaf, longer, 2));
    expect("build, of files", opening_tree_build(T, leaves, 4, store, 6) == 0);
    expect("a file", opening_tree_verify(T, store + 4, 2, 1, leaves + 2, 2, leaves, 2) == OPENING_TREE_ACCEPTED);
    expect("another file", opening_tree_verify(T, store + 4, 2, 1, longer, 2, leaves, 2) == OPENING_TREE_REJECTED);
    expect("replace, by a file", opening_tree_replace(T, store, 6, 1, longer, 2, &made) == 0 && made == 1);
    expect("that file", opening_tree_verify(T, store + 4, 2, 1, longer, 2, leaves, 2) == OPENING_TREE_ACCEPTED);
}

/* 2^32 bytes and more are refused by their count, and none is read; 1 to 10 come before that. */
static void long_files(void) {
    const uint8_t one[1] = {0};
    const uint64_t kept[3] = {9, 9, 9};
    const size_t over = UINT64_C(1) << 32;
    uint64_t leaf[3] = {9, 9, 9};
    expect("2^32 bytes", opening_tree_leaf_of_file(T, one, over, leaf, 2) == OPENING_TREE_FILE_TOO_LONG && same(leaf, kept, 3));
    expect("the most bytes", opening_tree_leaf_of_file(T, one, SIZE_MAX, leaf, 2) == 16 && same(leaf, kept, 3));
    expect("a leaf of one number", opening_tree_leaf_of_file(T, one, over, leaf, 1) == 10 && same(leaf, kept, 3));
    expect("a leaf of three numbers", opening_tree_leaf_of_file(T, one, over, leaf, 3) == 10 && same(leaf, kept, 3));
    expect("a leaf of none", opening_tree_leaf_of_file(T, one, over, NULL, 0) == 10);
    expect("a short file, and a leaf of three", opening_tree_leaf_of_file(T, one, 1, leaf, 3) == 10 && same(leaf, kept, 3));
}

/* NULL with the count 0, for every slice: refused where the slice has numbers, and taken where it has none. */
static void null_buffers(void) {
    const uint64_t four[4] = {1, 0, 0, 0}, store[6] = {1, 0, 0, 0, 6, 4};
    uint64_t out[6] = {9, 9, 9, 9, 9, 9}, kept[6] = {9, 9, 9, 9, 9, 9}, made = 99;
    const opening_tree_record one = {0, {1, 0, 0, 0, 0, 0}};
    expect("NULL: permute", opening_tree_permute(T, NULL, 0) == 10);
    expect("NULL: unpermute", opening_tree_unpermute(T, NULL, 0) == 10);
    expect("NULL: compress, state", opening_tree_compress(T, NULL, 0, out, 2) == 10);
    expect("NULL: compress, node", opening_tree_compress(T, four, 4, NULL, 0) == 10);
    expect("NULL: build, leaves", opening_tree_build(T, NULL, 0, out, 6) == 10);
    expect("NULL: build, store", opening_tree_build(T, four, 4, NULL, 0) == 10);
    expect("NULL: root, store", opening_tree_root(T, NULL, 0, out, 2) == 10);
    expect("NULL: root, node", opening_tree_root(T, store, 6, NULL, 0) == 10);
    expect("NULL: storeless root, leaves", opening_tree_storeless_root(T, NULL, 0, out, 2) == 10);
    expect("NULL: storeless root, node", opening_tree_storeless_root(T, four, 4, NULL, 0) == 10);
    expect("NULL: open, store", opening_tree_open(T, NULL, 0, 0, out, 2) == 10);
    expect("NULL: open, siblings", opening_tree_open(T, store, 6, 0, NULL, 0) == 10);
    expect("NULL: verify, root", opening_tree_verify(T, NULL, 0, 0, four, 2, four + 2, 2) == 10);
    expect("NULL: verify, leaf", opening_tree_verify(T, store + 4, 2, 0, NULL, 0, four + 2, 2) == 10);
    expect("NULL: verify, siblings", opening_tree_verify(T, store + 4, 2, 0, four, 2, NULL, 0) == 10);
    expect("NULL: read level, siblings", opening_tree_read_level(T, NULL, 0, 0, out, 2) == 10);
    expect("NULL: read level, part", opening_tree_read_level(T, four, 2, 0, NULL, 0) == 10);
    expect("NULL: replace, store", opening_tree_replace(T, NULL, 0, 0, four, 2, &made) == 10);
    expect("NULL: replace, leaf", opening_tree_replace(T, out, 6, 0, NULL, 0, &made) == 10);
    expect("NULL: push, store", opening_tree_push(T, NULL, 0, &one, 1, &made) == 10);
    expect("NULL: push, store, and no records", opening_tree_push(T, NULL, 0, NULL, 0, &made) == 10);
    expect("NULL: leaf of a file, leaf", opening_tree_leaf_of_file(T, NULL, 0, NULL, 0) == 10);
    expect("NULL: nothing is written", same(out, kept, 6) && made == 99);
    /* The empty file is taken. */
    expect("NULL: leaf of a file, contents", opening_tree_leaf_of_file(T, NULL, 0, out, 2) == 0 && out[0] == 16155333835464672045U);
}

static void null_rows(void) {
    const uint64_t two[2] = {1, 0}, root[2] = {6, 4};
    uint64_t a[4] = {9, 9, 9, 9}, b[4] = {9, 9, 9, 9}, level = 99;
    expect("NULL: extract, root", opening_tree_extract(T, NULL, 0, 0, two, 2, two, 2, two, 2, two, 2, a, 4, b, 4, &level) == 10);
    expect("NULL: extract, first", opening_tree_extract(T, root, 2, 0, NULL, 0, two, 2, two, 2, two, 2, a, 4, b, 4, &level) == 10);
    expect("NULL: extract, its siblings", opening_tree_extract(T, root, 2, 0, two, 2, NULL, 0, two, 2, two, 2, a, 4, b, 4, &level) == 10);
    expect("NULL: extract, second", opening_tree_extract(T, root, 2, 0, two, 2, two, 2, NULL, 0, two, 2, a, 4, b, 4, &level) == 10);
    expect("NULL: extract, its siblings", opening_tree_extract(T, root, 2, 0, two, 2, two, 2, two, 2, NULL, 0, a, 4, b, 4, &level) == 10);
    expect("NULL: extract, first row", opening_tree_extract(T, root, 2, 0, two, 2, two, 2, two, 2, two, 2, NULL, 0, b, 4, &level) == 10);
    expect("NULL: extract, second row", opening_tree_extract(T, root, 2, 0, two, 2, two, 2, two, 2, two, 2, a, 4, NULL, 0, &level) == 10);
    expect("NULL: nothing is written", a[0] == 9 && b[3] == 9 && level == 99);
}

/* A tree with h = 0 is its one leaf: its opening has no numbers. */
static void null_openings(void) {
    const uint64_t leaf[2] = {3, 4}, other[2] = {4, 3};
    const opening_tree_record one = {0, {5, 6, P, P, P, P}};
    uint64_t store[2] = {9, 9}, part[2] = {9, 9}, a[4] = {9, 9, 9, 9}, b[4] = {9, 9, 9, 9}, made = 99, level = 99;
    expect("h = 0: build", opening_tree_build(LOW, leaf, 2, store, 2) == 0 && same(store, leaf, 2));
    expect("h = 0: open", opening_tree_open(LOW, store, 2, 0, NULL, 0) == 0);
    expect("h = 0: open, place 1", opening_tree_open(LOW, store, 2, 1, NULL, 0) == 11);
    expect("h = 0: accepted", opening_tree_verify(LOW, store, 2, 0, leaf, 2, NULL, 0) == OPENING_TREE_ACCEPTED);
    expect("h = 0: rejected", opening_tree_verify(LOW, store, 2, 0, other, 2, NULL, 0) == OPENING_TREE_REJECTED);
    expect("h = 0: no level", opening_tree_read_level(LOW, NULL, 0, 0, part, 2) == 11 && part[0] == 9);
    expect("h = 0: equal", opening_tree_extract(LOW, store, 2, 0, leaf, 2, NULL, 0, leaf, 2, NULL, 0, a, 4, b, 4, &level) == 15);
    expect("h = 0: not accepted", opening_tree_extract(LOW, store, 2, 0, leaf, 2, NULL, 0, other, 2, NULL, 0, a, 4, b, 4, &level) == 14);
    expect("h = 0: no records", opening_tree_push(LOW, store, 2, NULL, 0, &made) == 0 && made == 0 && same(store, leaf, 2));
    expect("h = 0: nothing is written", a[0] == 9 && b[3] == 9 && level == 99);
    made = 99;
    expect("h = 0: no numbers", opening_tree_push_numbers(LOW, store, 2, NULL, 0, &made) == 0 && made == 0 && same(store, leaf, 2));
    made = 99;
    expect("h = 0: one record", opening_tree_push(LOW, store, 2, &one, 1, &made) == 0 && made == 0 && same(store, one.words, 2));
}

int main(void) {
    uint64_t set[SIZE];
    field();
    any_numbers();
    sets();
    no_sets();
    states();
    published();
    sizes();
    refused_sets();
    judged();
    exchanged_diagonals();
    exchanged_heights();
    zeros();
    buffers(T);
    buffers(LOW);
    make(set, OPENING_TREE_PUBLISHED_12(4, 2));
    buffers(set);
    make(set, OPENING_TREE_PUBLISHED_8(2, 3));
    buffers(set);
    trees();
    changes();
    records();
    seven_records();
    shared_nodes();
    repeats();
    extraction();
    good_and_bad_openings();
    collisions();
    files();
    long_files();
    null_buffers();
    null_rows();
    null_openings();
    printf("%d passed, %d failed\n", passed, failed);
    return failed != 0 || passed == 0;
}
