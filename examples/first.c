#include "opening_tree_published.h"

#include <inttypes.h>
#include <stdio.h>

int main(void) {
    uint64_t set[OPENING_TREE_SET_SIZE], leaves[9 * 4], store[(9 + 3 + 1) * 4], root[4], siblings[2 * 2 * 4];
    /* t = 12, l = 4, h = 2: nodes of four words, three to a row, and nine leaves. */
    if (opening_tree_validate(OPENING_TREE_PUBLISHED_12(4, 2), set) != OPENING_TREE_DONE) return 1;
    for (uint64_t i = 0; i < 36; i++) leaves[i] = i;
    if (opening_tree_build(set, leaves, 36, store, 52) != OPENING_TREE_DONE) return 1;
    if (opening_tree_root(set, store, 52, root, 4) != OPENING_TREE_DONE) return 1;
    if (opening_tree_open(set, store, 52, 5, siblings, 16) != OPENING_TREE_DONE) return 1;
    /* Whoever holds the root alone asks whether this leaf stood at place 5. */
    if (opening_tree_verify(set, root, 4, 5, leaves + 20, 4, siblings, 16) != OPENING_TREE_ACCEPTED) return 1;
    for (int i = 0; i < 4; i++) printf("%" PRIu64 "\n", root[i]);
    puts("accepted");
    return 0;
}
