/* Genduwal for C and C++: netlists, also from .bench text, path numbers, tests, stores of tested faults, coverage by length, what a viewer sees of
 * a store, reports and their audit, interval 2-3 trees of path numbers.
 *
 * Link crates/exports/out/libexports.a (`rt lib` in crates/exports), on Linux x86-64; it needs memcpy and memset of the C library alone.
 *
 * Each function returns 0 if the call was taken, else the number of the refusal; no refusal has the number 0. What is proved of each
 * function holds for every content and every length of the parts that it is handed, if these hold of the pointers:
 *
 * - A pointer with a length names that many elements, a pointer to an answer as many words as its declaration states.
 * - No pointer is null, also where the length is 0, and each is aligned for its elements.
 * - A part that a call may write (not const) overlaps no other part that this call is handed.
 *
 * Lengths are counted in elements: bytes of a uint8_t part, words of a uint64_t or uint16_t part. A refused call leaves the answer words as
 * they were. The library keeps nothing between calls, so calls that write unlike parts of memory may run at the same time.
 *
 * No call uses a heap. Most calls need at most GENDUWAL_STACK_BYTES of stack, some far more: see there.
 *
 * Refusals, in the order in which they are looked for:
 *   1  store (a viewer's second one, too) not 4,099 words
 *   2  working memory under 8,192 words
 *   3  path buffer under 513 words               4  report buffer under 32,802 bytes, netlist buffer under 10,484 bytes
 *   4  buffer of a load under 2,304 bytes       11  inputs of a load not 1 to 64
 *  87  tree under 32,768 words                  88  words that are no tree in its layout
 *  10  netlist: header cut off or its mark      11  inputs, gates, nets or outputs out of range
 *  12  gate: under 4 bytes, or its mark         13  kind of gate
 *  14  pin count for the kind                   12  gate: its pins cut off
 *  15  pin not from a lower net                 17  count of a net over 2^62
 *  18  output cut off or its mark
 *  19  no such net, or not higher               21  paths of the outputs over 2^62
 *  20  bytes left over after the netlist
 *  83  class of tests neither 1 nor 2           91  all pairs: over 6 inputs
 *  33  test file not whole records, or over 4,294,967,295 of them
 *  30  test record's length                     31  test record's mark
 *  32  spare bit set                            85  a pair without a changed input
 *  40  store: a number of runs over 1,024, tests taken over 4,294,967,295
 *  41  a run out of range or not after the one before, or runs and no tests taken; a run handed to a tree's call out of range
 *  42  word past the last run not zero          86  a test on a store with 4,294,967,295 tests taken
 *  84  coverage by length: a path to an output has more than 63 gates
 *  89  a viewer's places: none, not strictly ascending, or one that is not below the number of outputs
 *  50  over 1,024 working runs of an edge
 *  51  the store (a viewer's second one, too) would have over 1,024 runs of an edge, the tree over 1,024 runs
 *  60  no such path or fault number, edge       61  words are not a path of the netlist
 *      neither 0 nor 1, no such run in the tree
 *  90  a fault of another output than the viewer's
 *  70  report under 34 bytes or its mark        71  report's length
 *  72  another byte of the report differs
 *  80  .bench text: a line of another form      81  unknown or twice defined name or output
 *  82  number of inputs, gates, both together, outputs or pins out of range
 *
 * Kinds 1 and 2 (buffer, NOT) have one pin, kinds 3 to 8 (AND, NAND, OR, NOR, XOR, XNOR) 1 to 8. With one pin AND, OR and XOR act as a
 * buffer, NAND, NOR and XNOR as NOT, and the pin is open (in class 2 where its net differs between V1 and V2).
 *
 * An output that is an input net is a wire without a gate: it has no path and adds nothing to the paths of the outputs (21 and the survey).
 * Where all outputs are wires there is no path: every path and fault number is 60. Words of a path without pins are 61.
 */
#ifndef GENDUWAL_H
#define GENDUWAL_H

#include <stddef.h>
#include <stdint.h>

#define GENDUWAL_VERSION "1.15.0" /* what each program tells by --version, too */

#ifdef __cplusplus
extern "C" {
#endif

/* Words of a store, least words of working memory, of a path buffer and of a tree, least bytes of a report buffer, of a buffer for a netlist
 * file and of one for a vector's records of a load, words of a survey. */
#define GENDUWAL_STORE_WORDS 4099
#define GENDUWAL_WORK_WORDS 8192
#define GENDUWAL_PATH_WORDS 513
#define GENDUWAL_TREE_WORDS 32768
#define GENDUWAL_REPORT_BYTES 32802
#define GENDUWAL_NETLIST_BYTES 10484
#define GENDUWAL_LOAD_BYTES 2304
#define GENDUWAL_SURVEY_WORDS 516

/* Lengths that coverage by length counts, 0 to 63 gates, and the words of its answer. */
#define GENDUWAL_LENGTHS 64
#define GENDUWAL_LENGTHS_WORDS 256

/* Bytes of stack that a call needs below its caller's frame, at least a tenth more than was measured on the largest blocks, paths and trees, in
 * both classes (most: 351,223, a piece of an audit). A signal handler on the same stack, and what a thread library keeps there, come on top. */
#define GENDUWAL_STACK_BYTES 16384          /* every call that is not named in the next four lines */
#define GENDUWAL_VIEWER_STACK_BYTES 49152   /* genduwal_viewer_totals, genduwal_viewer_runs */
#define GENDUWAL_PATH_STACK_BYTES 73728     /* genduwal_path_to_number, genduwal_number_to_path */
#define GENDUWAL_LENGTHS_STACK_BYTES 303104 /* genduwal_lengths */
#define GENDUWAL_AUDIT_STACK_BYTES 393216   /* genduwal_audit, genduwal_audit_piece, genduwal_exhaust */

/* The classes of tests: a test detects a fault non-robustly, or robustly (so that no other delay hides the fault; by the rule of Lin and
 * Reddy). Every robust fault of a test is also one of its non-robust faults. */
#define GENDUWAL_NON_ROBUST 1
#define GENDUWAL_ROBUST 2

/* The edge of a fault, at its path's input, where a call takes or answers it. */
#define GENDUWAL_RISING 0
#define GENDUWAL_FALLING 1

/* A path number and a fault number count unlike things: each is a type of its own, in registers and in memory the same as a uint64_t, so that
 * a compiler refuses one in the place of the other. Both count from 1; path i has the faults 2i - 1 (rising) and 2i (falling). Only
 * genduwal_fault_of and genduwal_path_of lead from one to the other. GENDUWAL_TYPED_NUMBERS says that the header has these types. */
#define GENDUWAL_TYPED_NUMBERS 1
typedef struct { uint64_t number; } genduwal_path_no;
typedef struct { uint64_t number; } genduwal_fault_no;

/* The fault of a path and an edge, GENDUWAL_RISING or GENDUWAL_FALLING. answer: the fault's number, 2i - 1 or 2i for path i.
 * Refusals: 60 (another edge, or a path number that is not 1 to 2^62: no netlist has such a path). */
uint32_t genduwal_fault_of(genduwal_path_no number, uint32_t edge, genduwal_fault_no answer[1]);

/* The path of a fault and its edge. answer: the path's number, (f + 1) / 2 for fault f, rounded down; over 2^62, where no netlist has a path, for
 * f over 2^63. edge: GENDUWAL_RISING if f is odd, GENDUWAL_FALLING if it is even. A refused call leaves both as they were.
 * Refusals: 60 (fault number 0). */
uint32_t genduwal_path_of(genduwal_fault_no fault, genduwal_path_no answer[1], uint32_t edge[1]);

/* The survey of a netlist. answer: inputs, gates, outputs, paths, then the count of paths of each of 512 nets, zero past the last net.
 * Refusals: 10 to 15, 17 to 21. */
uint32_t genduwal_survey(const uint8_t *netlist, size_t netlist_len, uint64_t answer[516]);

/* A store is 4,099 words: the number of rising runs, of falling runs and of tests taken, then 1,024 places of two words for rising runs and as
 * many for falling ones.
 *
 * Empties a store, of any words: all 4,099 words become zero.
 * Refusals: 1. */
uint32_t genduwal_empty(uint64_t *store, size_t store_len);

/* Adds the faults that one test record detects in a class to a store of 4,099 words and counts the test in the third. answer: new rising
 * faults, new falling faults, rising faults then held, falling faults then held. work is at least 8,192 words; the first 8,192 may hold
 * anything afterwards, later ones stay as they were. A refused call leaves the store as it was. A store does not remember classes: calls on
 * one store may be of unlike classes.
 * Refusals: 1, 2, 10 to 15, 17 to 21, 83, 30 to 32, 85, 40 to 42, 86, 50, 51. */
uint32_t genduwal_test(const uint8_t *netlist, size_t netlist_len, const uint8_t *test, size_t test_len, uint32_t test_class,
                       uint64_t *store, size_t store_len, uint64_t *work, size_t work_len, uint64_t answer[4]);

/* The faults that a store of 4,099 words holds. answer: rising faults, falling faults.
 * Refusals: 1, 10 to 15, 17 to 21, 40 to 42. */
uint32_t genduwal_totals(const uint8_t *netlist, size_t netlist_len, const uint64_t *store, size_t store_len, uint64_t answer[2]);

/* Everything that tests of a small block can show: empties the store unread and applies every legal pair of vectors of a netlist of up to 6
 * inputs in one class, V1 counted upward and V2 upward within it, input 0 the low bit, equal pairs skipped. The store then holds exactly the
 * faults that some legal test of the class detects, and counts the pairs. answer: rising faults, falling faults. store is 4,099 words, of any
 * content; work is at least 8,192 words, used as by a test. A call refused with 50 or 51 leaves the store all zeros, another refusal leaves
 * store and working memory as they were.
 * Refusals: 1, 2, 10 to 15, 17 to 21, 83, 91, then for one pair after another 50, 51. */
uint32_t genduwal_exhaust(const uint8_t *netlist, size_t netlist_len, uint32_t test_class, uint64_t *store, size_t store_len, uint64_t *work,
                          size_t work_len, uint64_t answer[2]);

/* Coverage by length: how many paths of each number of gates there are, and how many of their faults a store of 4,099 words holds. answer: for
 * rising 64 numbers of paths, of 0 to 63 gates, then 64 of faults held; the same for falling. A path has the same length for both edges, so
 * words 128 to 191 are words 0 to 63; no path has 0 gates. The paths add up to those of the survey, the faults to those of genduwal_totals.
 * A net that leads to no output has no path, however deep it lies.
 * Refusals: 1, 10 to 15, 17 to 21, 40 to 42, 84. */
uint32_t genduwal_lengths(const uint8_t *netlist, size_t netlist_len, const uint64_t *store, size_t store_len, uint64_t answer[256]);

/* Whether a store of 4,099 words holds a fault. answer: 1 if it does, else 0.
 * Refusals: 1, 10 to 15, 17 to 21, 40 to 42, 60. */
uint32_t genduwal_holds(const uint8_t *netlist, size_t netlist_len, const uint64_t *store, size_t store_len,
                        genduwal_fault_no fault, uint64_t answer[1]);

/* What a viewer may see of a store of 4,099 words: the faults of paths that end at his outputs. places: the outputs' places, from 0, strictly
 * ascending. Path numbers and T are those of the whole netlist. answer: the number of rising, then of falling faults.
 * Refusals: 1, 10 to 15, 17 to 21, 40 to 42, 89. */
uint32_t genduwal_viewer_totals(const uint8_t *netlist, size_t netlist_len, const uint64_t *store, size_t store_len, const uint16_t *places,
                                size_t places_len, uint64_t answer[2]);

/* Whether the store holds a fault of one of the viewer's outputs. answer: 1 if it does, else 0.
 * Refusals: 1, 10 to 15, 17 to 21, 40 to 42, 89, 60, 90. */
uint32_t genduwal_viewer_holds(const uint8_t *netlist, size_t netlist_len, const uint64_t *store, size_t store_len, const uint16_t *places,
                               size_t places_len, genduwal_fault_no fault, uint64_t answer[1]);

/* Writes the runs that the viewer sees into view, a second store of 4,099 words, whatever they hold, with the store's number of tests. A refused
 * call leaves them as they were.
 * Refusals: 1 (either store), 10 to 15, 17 to 21, 40 to 42, 89, 51. */
uint32_t genduwal_viewer_runs(const uint8_t *netlist, size_t netlist_len, const uint64_t *store, size_t store_len, const uint16_t *places,
                              size_t places_len, uint64_t *view, size_t view_len);

/* The number of a path. path: the output's place, the number n of pins, then n pins from the output back; path_len is exactly 2 + n.
 * answer: the path's number, from 1.
 * Refusals: 10 to 15, 17 to 21, 61. */
uint32_t genduwal_path_to_number(const uint8_t *netlist, size_t netlist_len, const uint16_t *path, size_t path_len, genduwal_path_no answer[1]);

/* Writes the path of a number into the first 513 words of path, with zeros after it; path is at least 513 words, and later ones stay as they
 * were. A refused call leaves all of them as they were.
 * Refusals: 3, 10 to 15, 17 to 21, 60. */
uint32_t genduwal_number_to_path(const uint8_t *netlist, size_t netlist_len, genduwal_path_no number, uint16_t *path, size_t path_len);

/* Writes the report of a store of 4,099 words; its number of tests is the store's third word. report is at least 32,802 bytes; those past the
 * record, or all of them if the call is refused, stay as they were. answer: the record's length in bytes.
 * Refusals: 1, 4, 10 to 15, 17 to 21, 40 to 42. */
uint32_t genduwal_write_report(const uint8_t *netlist, size_t netlist_len, const uint64_t *store, size_t store_len, uint8_t *report,
                               size_t report_len, uint64_t answer[1]);

/* Judges a report: empties the store unread, takes the test records, which lie end to end in tests, in their order, all in one class, and
 * accepts (returns 0) if the report is the one that the writer gives for the store then reached and the number of records. store is 4,099
 * words, of any content; work is at least 8,192 words, used as by a test. An accepting call leaves the store that the tests reach, which
 * counts the records, one refused with a number over 2 leaves it all zeros.
 * Refusals: 1, 2, 10 to 15, 17 to 21, 83, 33, then for one record after another 31, 32, 85, 50, 51, and then 70 to 72. */
uint32_t genduwal_audit(const uint8_t *netlist, size_t netlist_len, const uint8_t *tests, size_t tests_len, const uint8_t *report,
                        size_t report_len, uint32_t test_class, uint64_t *store, size_t store_len, uint64_t *work, size_t work_len);

/* The same audit with its test file in pieces, so that a file of any length is judged: the same answer and the same store as genduwal_audit
 * has for the pieces joined. A caller keeps two numbers, the bytes so far and the first refusal, 0 if there is none:
 *
 * 1. genduwal_audit_begin. If it is refused, that is the answer of the audit, and no other call is made.
 * 2. genduwal_audit_piece for each piece in file order, each but the last a whole number of records, with the store as the call before left
 *    it. The first refusal is kept; once a piece is refused no other is handed over, but the bytes of all pieces are counted.
 * 3. genduwal_audit_end with these two numbers: its answer is that of the audit. If it is 33, that comes before the refusal of a record.
 *
 * The netlist is the same in all calls, and the class in the beginning and in all pieces.
 *
 * The beginning: empties the store unread. store is 4,099 words, of any content; work is at least 8,192 words, of which none is read. A call
 * refused with 1 or 2 leaves the store as it was, any other leaves it all zeros.
 * Refusals: 1, 2, 10 to 15, 17 to 21, 83. */
uint32_t genduwal_audit_begin(const uint8_t *netlist, size_t netlist_len, uint32_t test_class, uint64_t *store, size_t store_len,
                              const uint64_t *work, size_t work_len);

/* A piece: takes its records in their order; bytes after the last whole record are not looked at. answer: the number of records, all taken.
 * work is at least 8,192 words, used as by a test, and only once 40 to 42 are passed. A call refused with 1 or 2 leaves the store as it was,
 * with any other number all zeros.
 * Refusals: 1, 2, 10 to 15, 17 to 21, 83, 40 to 42, then for one record after another 31, 32, 85, 86, 50, 51. */
uint32_t genduwal_audit_piece(const uint8_t *netlist, size_t netlist_len, const uint8_t *piece, size_t piece_len, uint32_t test_class,
                              uint64_t *store, size_t store_len, uint64_t *work, size_t work_len, uint64_t answer[1]);

/* The end: bytes is the length of the whole test file, first the number of the first refusal of a piece, or 0. Accepts (returns 0) if no
 * piece was refused and the report is the one that the writer gives for the store and the number of records in so many bytes. An accepting
 * call leaves the store as it was, and so does one refused because this store is not 4,099 words. Any other refusal leaves it all zeros, also
 * where the answer is a first of 1 or 2.
 * Refusals: 1, 10 to 15, 17 to 21, 33, first if it is not 0, 40 to 42, 70 to 72. */
uint32_t genduwal_audit_end(const uint8_t *netlist, size_t netlist_len, uint64_t bytes, uint32_t first, const uint8_t *report,
                            size_t report_len, uint64_t *store, size_t store_len);

/* Converts a circuit in ISCAS .bench text, of any length, to a netlist file. netlist is at least 10,484 bytes; those past the file, or all of
 * them if the call is refused, stay as they were. answer: the file's length in bytes. genduwal_survey takes every file so made, unless a
 * count (17) or their sum (21) passes 2^62.
 * Refusals: 4, then the lowest of 80, 81, 82 on the first bad line, at the text's end 81, 82. */
uint32_t genduwal_bench_to_netlist(const uint8_t *text, size_t text_len, uint8_t *netlist, size_t netlist_len, uint64_t answer[1]);

/* A test load that anyone can repeat: draws a vector from a state (at first the seed) and writes its test records, for input 0 upward a rising
 * test and a falling one. answer: the state afterwards, to be handed to the next call, and the bytes written. records is at least 2,304 bytes;
 * those past the records stay as they were, and all of them where the call is refused.
 * Refusals: 4, 11. */
uint32_t genduwal_load(uint32_t state, uint32_t inputs, uint8_t *records, size_t records_len, uint64_t answer[2]);

/* An interval 2-3 tree holds up to 1,024 runs of path numbers, 1 to 2^62, of one edge, in 32,768 words or more; words past these are neither
 * read nor written. A caller makes a tree of any words by genduwal_tree_empty and changes it by insert and delete alone; what stands in the
 * words is said here so that 88 has a meaning.
 *
 * Words 0 to 2 are levels, root and free; word 3 may hold anything. An empty tree has zeros in words 0 to 2 and anything in the others. Else
 * root is the word where the root stands. All nodes stand in the half of the root, the words 4 to 16,383 or the words 16,384 to 32,767; every
 * node ends at or before word free, and free is at most the half's end, 16,384 or 32,768. Nothing else is asked of free or of a node's place:
 * words before free may be used by no node, and nodes may share words. A leaf is 3 words: low and high of a run, and how many numbers it has.
 * An inner node is 8 words: the least number below it, the greatest, how many numbers the runs below it have, the least number below its second
 * child and below its third (0 if it has two children), then the words where its children stand (0 for a third that it has not). There are 1 to
 * 11 levels and 1 to 1,024 leaves, all leaves are on the last level, and their runs ascend, with at least one number between two of them.
 * Words that no node uses may hold anything.
 *
 * A change writes new nodes from free on and leaves the others as they are. Where fewer than 1,100 words are left to it, it first copies the
 * tree into the other half: so words freed by a deletion serve again, and a change is refused for its runs alone.
 *
 * Every call but emptying first checks all words of the tree (88), which costs more than the answer: a caller with many questions asks them
 * together by genduwal_tree_holds_each.
 *
 * Empties a tree, of any words: words 0 to 2 become zero, no other is written.
 * Refusals: 87. */
uint32_t genduwal_tree_empty(uint64_t *tree, size_t tree_len);

/* Inserts the run low..high, merged with all runs that overlap it or are adjacent. A refused call leaves the words as they were.
 * Refusals: 87, 88, 41 (low 0, low over high, high over 2^62), 51. */
uint32_t genduwal_tree_insert(uint64_t *tree, size_t tree_len, uint64_t low, uint64_t high);

/* Deletes the run low..high, which must be stored with these two ends. A refused call leaves the words as they were.
 * Refusals: 87, 88, 41 (low 0, low over high, high over 2^62), 60. */
uint32_t genduwal_tree_delete(uint64_t *tree, size_t tree_len, uint64_t low, uint64_t high);

/* Searches the least run that overlaps low..high; if there is none, the adjacent one with the least low. answer: 1, its low and its high; zeros
 * if there is neither.
 * Refusals: 87, 88, 41 (low 0, low over high, high over 2^62). */
uint32_t genduwal_tree_search(const uint64_t *tree, size_t tree_len, uint64_t low, uint64_t high, uint64_t answer[3]);

/* How many numbers the runs of a tree have. answer: that number.
 * Refusals: 87, 88. */
uint32_t genduwal_tree_total(const uint64_t *tree, size_t tree_len, uint64_t answer[1]);

/* Whether a tree holds a path number. answer: 1 if it does, else 0; the nodes visited for the answer, root and leaf included: 0 in an empty
 * tree, else its levels, at most 1 plus the greatest w with 2^w at most the runs held.
 * Refusals: 87, 88, 60 (a number not 1 to 2^62). */
uint32_t genduwal_tree_holds(const uint64_t *tree, size_t tree_len, genduwal_path_no number, uint64_t answer[2]);

/* The same for many numbers, with one check of the tree's words. answers: for each number 1 if it is held, 0 if not, 60 if it is not 1 to 2^62.
 * As many numbers are answered as there are places; places past the last number stay as they were, and all of them where the call is refused.
 * answer: the tree's levels, as many as the nodes visited for each.
 * Refusals: 87, 88. */
uint32_t genduwal_tree_holds_each(const uint64_t *tree, size_t tree_len, const genduwal_path_no *numbers, size_t numbers_len,
                                  uint64_t *answers, size_t answers_len, uint64_t answer[1]);

#ifdef __cplusplus
}
#endif

#endif
