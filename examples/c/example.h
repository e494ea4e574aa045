/* What the files of this example share. */
#ifndef EXAMPLE_H
#define EXAMPLE_H

#include "genduwal.h"

/* Document 01's circuit Q, and the store, which holds what its three tests detect once they are made. */
enum { circuit_bytes = 28 };
extern const uint8_t circuit[circuit_bytes];
extern uint64_t store[GENDUWAL_STORE_WORDS];

/* numbers.c: path numbers and fault numbers, and what is asked by them; prints what a call that was asked for a fault returned and answered. */
void print_held(const char *asked, genduwal_fault_no fault, uint32_t code, const uint64_t answer[1]);
void show_numbers(void);
void show_faults(void);
void show_path(void);

/* viewer.c: what a viewer sees of the store. */
void show_viewer_totals(void);
void show_viewer_faults(void);
void show_viewer_runs(void);

/* trees.c: an interval 2-3 tree. */
void show_tree(void);
void show_tree_numbers(void);
void show_tree_changes(void);

#endif
