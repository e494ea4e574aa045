/* Path numbers and fault numbers of circuit Q, and what is asked by them. */
#include "example.h"

#include <stdio.h>

static uint16_t path[GENDUWAL_PATH_WORDS];

/* The fault of path 2 and each edge, and back: faults 3 and 4. There is no third edge, and no fault 0: refused 60. */
void show_numbers(void)
{
    for (uint32_t edge = GENDUWAL_RISING; edge <= GENDUWAL_FALLING + 1; edge++) {
        const genduwal_path_no second = {2};
        genduwal_fault_no fault[1] = {{0}};
        genduwal_path_no back[1] = {{0}};
        uint32_t side[1] = {0};
        uint32_t code = genduwal_fault_of(second, edge, fault);
        if (code != 0)
            printf("path 2 edge %u refused %u\n", (unsigned)edge, (unsigned)code);
        else
            printf("path 2 edge %u is fault %llu\n", (unsigned)edge, (unsigned long long)fault[0].number);
        code = genduwal_path_of(fault[0], back, side);
        if (code != 0)
            printf("fault %llu refused %u\n", (unsigned long long)fault[0].number, (unsigned)code);
        else
            printf("fault %llu is of path %llu edge %u\n", (unsigned long long)fault[0].number, (unsigned long long)back[0].number,
                   (unsigned)side[0]);
    }
}

void print_held(const char *asked, genduwal_fault_no fault, uint32_t code, const uint64_t answer[1])
{
    if (code != 0)
        printf("%s %llu refused %u\n", asked, (unsigned long long)fault.number, (unsigned)code);
    else
        printf("%s %llu %s\n", asked, (unsigned long long)fault.number, answer[0] == 1 ? "held" : "not held");
}

/* Fault 4 is path 2, falling, which the second test detects. There is no fault 7, since there are three paths: refused 60. */
void show_faults(void)
{
    const genduwal_fault_no faults[2] = {{4}, {7}};
    for (size_t i = 0; i < 2; i++) {
        uint64_t answer[1];
        uint32_t code = genduwal_holds(circuit, sizeof circuit, store, GENDUWAL_STORE_WORDS, faults[i], answer);
        print_held("fault", faults[i], code, answer);
    }
}

/* Path 2 goes from output 0 through two pins: pin 0 of the OR, then pin 1 of the AND. Its number leads back to it. */
void show_path(void)
{
    const genduwal_path_no second = {2};
    genduwal_path_no answer[1];
    uint32_t code = genduwal_number_to_path(circuit, sizeof circuit, second, path, GENDUWAL_PATH_WORDS);
    if (code != 0) {
        printf("path %llu refused %u\n", (unsigned long long)second.number, (unsigned)code);
        return;
    }
    size_t words = 2 + (size_t)path[1];
    printf("path %llu words", (unsigned long long)second.number);
    for (size_t i = 0; i < words; i++)
        printf(" %u", (unsigned)path[i]);
    printf("\n");
    code = genduwal_path_to_number(circuit, sizeof circuit, path, words, answer);
    if (code != 0)
        printf("number refused %u\n", (unsigned)code);
    else
        printf("number %llu\n", (unsigned long long)answer[0].number);
}
