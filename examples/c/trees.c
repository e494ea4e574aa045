/* An interval 2-3 tree of path numbers. */
#include "example.h"

#include <stdio.h>

static uint64_t tree[GENDUWAL_TREE_WORDS];

/* A tree with the runs 3 to 3 and 5 to 6: three numbers. 4 lies in no run, and 3 to 3 is the adjacent one with the least low. */
void show_tree(void)
{
    uint64_t found[3];
    uint64_t total[1];
    printf("tree empty %u", (unsigned)genduwal_tree_empty(tree, GENDUWAL_TREE_WORDS));
    printf(" insert %u", (unsigned)genduwal_tree_insert(tree, GENDUWAL_TREE_WORDS, 3, 3));
    printf(" insert %u\n", (unsigned)genduwal_tree_insert(tree, GENDUWAL_TREE_WORDS, 5, 6));
    uint32_t code = genduwal_tree_search(tree, GENDUWAL_TREE_WORDS, 4, 4, found);
    printf("tree search %u found %llu run %llu %llu\n", (unsigned)code, (unsigned long long)found[0], (unsigned long long)found[1],
           (unsigned long long)found[2]);
    code = genduwal_tree_total(tree, GENDUWAL_TREE_WORDS, total);
    printf("tree total %u numbers %llu\n", (unsigned)code, (unsigned long long)total[0]);
}

/* Two leaves stand below the root: two nodes are visited for each number. No path has the number 0: its answer is 60. */
void show_tree_numbers(void)
{
    const genduwal_path_no fifth = {5};
    const genduwal_path_no numbers[3] = {{3}, {4}, {0}};
    uint64_t held[2];
    uint64_t answers[3];
    uint64_t levels[1];
    uint32_t code = genduwal_tree_holds(tree, GENDUWAL_TREE_WORDS, fifth, held);
    printf("tree holds %u number 5 %llu visited %llu\n", (unsigned)code, (unsigned long long)held[0], (unsigned long long)held[1]);
    code = genduwal_tree_holds_each(tree, GENDUWAL_TREE_WORDS, numbers, 3, answers, 3, levels);
    printf("tree holds each %u of 3 4 0 %llu %llu %llu visited %llu\n", (unsigned)code, (unsigned long long)answers[0],
           (unsigned long long)answers[1], (unsigned long long)answers[2], (unsigned long long)levels[0]);
}

/* 4 joins both runs to 3 to 6, which is then deleted; 5 to 6 is no run any more: refused 60. */
void show_tree_changes(void)
{
    printf("tree insert %u", (unsigned)genduwal_tree_insert(tree, GENDUWAL_TREE_WORDS, 4, 4));
    printf(" delete %u", (unsigned)genduwal_tree_delete(tree, GENDUWAL_TREE_WORDS, 5, 6));
    printf(" delete %u\n", (unsigned)genduwal_tree_delete(tree, GENDUWAL_TREE_WORDS, 3, 6));
}
