/* Measures the run entry from C on a workload, whose code words it reads from standard input.
 * Use: speed WORKLOAD BUDGET MAINLEN W TIMES < WORDS. The settings are those of bench/run: local memory of 1024 bytes, the stack area in the
 * upper half of main memory, all memory zero; methods has entry 4 and a method cache of 4 blocks and 96 bytes; interrupts has a list of
 * 131,072 records, the others an empty one.
 * It prints what came of the run in the form of the program speed, and the least processor time a bundle of TIMES calls, each with its record
 * read and written once.
 */
#include <stdio.h>
#include <stdlib.h>
#include <string.h>
#include <time.h>

#include "laqemdit.h"

enum { RECORDS = 131072 };

static uint8_t record[8192], out[8192], code[65536], main_memory[65536], local_memory[1024], list[8 * RECORDS], table[128];

static void put_word(uint8_t *at, uint32_t w)
{
    at[0] = (uint8_t)(w >> 24);
    at[1] = (uint8_t)(w >> 16);
    at[2] = (uint8_t)(w >> 8);
    at[3] = (uint8_t)w;
}

static uint32_t word(const uint8_t *at)
{
    return (uint32_t)at[0] << 24 | (uint32_t)at[1] << 16 | (uint32_t)at[2] << 8 | at[3];
}

/* The interrupts of the workload interrupts, one for every hundred bundles, and its two handlers. */
static size_t interrupts(void)
{
    for (uint32_t i = 0; i < RECORDS; i++) {
        put_word(list + 8 * i, 100 * (i + 1));
        put_word(list + 8 * i + 4, 1 + i % 2);
    }
    put_word(table + 4 * 1, 48);
    put_word(table + 4 * 2, 72);
    return sizeof list;
}

int main(int argc, char **argv)
{
    uint32_t budget, words, lo, hi, entry = 0, on = 0, answer, sum = 0, w;
    size_t code_length = 0, main_length, list_length = 0;
    double least = 1e9;
    const uint8_t *at;
    int times;
    if (argc != 6) {
        fprintf(stderr, "usage: speed WORKLOAD BUDGET MAINLEN W TIMES < WORDS\n");
        return 2;
    }
    budget = (uint32_t)strtoul(argv[2], NULL, 10);
    main_length = strtoul(argv[3], NULL, 10);
    words = (uint32_t)strtoul(argv[4], NULL, 10);
    times = atoi(argv[5]);
    while (code_length < sizeof code && scanf("%x", &w) == 1) {
        put_word(code + code_length, w);
        code_length += 4;
    }
    if (main_length > sizeof main_memory || times < 1) {
        fprintf(stderr, "speed: too much main memory, or no times\n");
        return 2;
    }
    lo = (uint32_t)(main_length / 8 * 4);
    hi = (uint32_t)(main_length / 4 * 4);
    if (strcmp(argv[1], "methods") == 0) {
        entry = 4;
        on = 1;
    }
    if (strcmp(argv[1], "interrupts") == 0)
        list_length = interrupts();
    answer = laqemdit_open(code, code_length, main_memory, main_length, local_memory, sizeof local_memory, record, sizeof record, entry,
        words, lo, hi, on, 4, 96);
    if (answer != LAQEMDIT_OPENED) {
        fprintf(stderr, "speed: the opening is refused with %u\n", (unsigned)answer);
        return 1;
    }
    for (int i = 0; i < times; i++) {
        clock_t start;
        double took;
        memset(main_memory, 0, sizeof main_memory);
        memset(local_memory, 0, sizeof local_memory);
        start = clock();
        answer = laqemdit_run(record, 4 * (69 + (size_t)words), code, code_length, main_memory, main_length, local_memory,
            sizeof local_memory, out, sizeof out, list, list_length, table, sizeof table, budget, words, lo, hi, on, 4, 96);
        took = (double)(clock() - start) / CLOCKS_PER_SEC;
        least = took < least ? took : least;
    }
    if (answer == 1 || answer == 14 || answer == 15) {
        fprintf(stderr, "speed: the run is refused with %u\n", (unsigned)answer);
        return 1;
    }
    at = out + 12;
    for (int i = 0; i < 32; i++)
        sum = (sum << 1 | sum >> 31) ^ word(at + 4 + 4 * i);
    for (int k = 1; k < 8; k++)
        at += 4 + 4 * (size_t)word(at);
    at += 4;
    if (answer == LAQEMDIT_ENDED || answer == LAQEMDIT_SPENT)
        printf("%s %s", argv[1], answer == LAQEMDIT_ENDED ? "ended" : "spent");
    else
        printf("%s refused %u", argv[1], (unsigned)answer);
    for (int i = 0; i < (on ? 6 : 4); i++) {
        static const char *names[6] = {"bundles", "cycles", "spilled", "filled", "misses", "fetched"};
        printf(" %s %llu", names[i], (unsigned long long)word(at + 8 * i) << 32 | word(at + 8 * i + 4));
    }
    printf(" checksum %08x\n", (unsigned)sum);
    printf("%s: through C %.1f ns a bundle\n", argv[1], least / budget * 1e9);
    return 0;
}
