/* What a viewer sees of the store: the faults of paths that end at his outputs. */
#include "example.h"

#include <stdio.h>
#include <string.h>

/* Q has one output, at place 0: who sees it sees all of the store, one rising fault and two falling ones. There is no place 1: refused 89. */
void show_viewer_totals(void)
{
    for (uint16_t place = 0; place < 2; place++) {
        uint64_t answer[2];
        uint32_t code = genduwal_viewer_totals(circuit, sizeof circuit, store, GENDUWAL_STORE_WORDS, &place, 1, answer);
        if (code != 0)
            printf("viewer of place %u refused %u\n", (unsigned)place, (unsigned)code);
        else
            printf("viewer of place %u rising %llu falling %llu\n", (unsigned)place, (unsigned long long)answer[0],
                   (unsigned long long)answer[1]);
    }
}

/* To him fault 4 is held and fault 3, path 2 rising, is not. */
void show_viewer_faults(void)
{
    const uint16_t place = 0;
    const genduwal_fault_no faults[2] = {{4}, {3}};
    for (size_t i = 0; i < 2; i++) {
        uint64_t answer[1];
        uint32_t code = genduwal_viewer_holds(circuit, sizeof circuit, store, GENDUWAL_STORE_WORDS, &place, 1, faults[i], answer);
        print_held("viewer's fault", faults[i], code, answer);
    }
}

/* His runs are those of the store: path 3 rising, paths 2 to 3 falling, three tests. */
void show_viewer_runs(void)
{
    static uint64_t view[GENDUWAL_STORE_WORDS];
    const uint16_t place = 0;
    uint32_t code = genduwal_viewer_runs(circuit, sizeof circuit, store, GENDUWAL_STORE_WORDS, &place, 1, view, GENDUWAL_STORE_WORDS);
    if (code != 0)
        printf("viewer's runs refused %u\n", (unsigned)code);
    else
        printf("viewer's runs %llu %llu tests %llu%s\n", (unsigned long long)view[0], (unsigned long long)view[1],
               (unsigned long long)view[2], memcmp(view, store, sizeof view) == 0 ? ", the store's" : "");
}
