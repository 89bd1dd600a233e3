/* Runs target.c over files, and over inputs made from them at random, without the fuzzer.  usage: replay N LIST
 * LIST names a file on each line; N inputs are made. */
#include "tally.h"
#include <stdio.h>
#include <stdlib.h>
#include <string.h>

enum { MAX_LEN = 512, MAX_FILES = 100000, NAME = 256 };

int LLVMFuzzerTestOneInput(const uint8_t *data, size_t size);
int LLVMFuzzerInitialize(int *argc, char ***argv);
size_t LLVMFuzzerMutate(uint8_t *data, size_t size, size_t max_size);
size_t LLVMFuzzerCustomMutator(uint8_t *data, size_t size, size_t max_size, unsigned int seed);

static uint8_t data[MAX_LEN];

static size_t upto(size_t n) { return n ? (size_t)rand() % n : 0; }

/* in place of libFuzzer's: some bytes changed, a byte more or fewer */
size_t LLVMFuzzerMutate(uint8_t *at, size_t size, size_t max_size) {
    for (size_t times = 1 + upto(4); times > 0 && size > 0; times--) at[upto(size)] = (uint8_t)rand();
    if (upto(4) == 0 && size < max_size) at[size++] = (uint8_t)rand();
    else if (upto(4) == 0 && size > 0) size--;
    return size;
}

static size_t read_file(const char *name) {
    FILE *f = fopen(name, "rb");
    if (!f) perror(name), exit(2);
    size_t n = fread(data, 1, MAX_LEN, f);
    fclose(f);
    return n;
}

static char names[MAX_FILES][NAME];
static size_t names_len;

static void read_names(const char *list) {
    FILE *f = fopen(list, "r");
    if (!f) perror(list), exit(2);
    while (names_len < MAX_FILES && fgets(names[names_len], NAME, f)) names[names_len][strcspn(names[names_len], "\n")] = 0, names_len++;
    fclose(f);
    if (names_len == 0) fprintf(stderr, "%s: no files\n", list), exit(2);
}

/* exactly as many bytes as the input has */
static void run(size_t size) {
    uint8_t *copy = malloc(size);
    if (!copy) abort();
    memcpy(copy, data, size);
    LLVMFuzzerTestOneInput(copy, size);
    free(copy);
}

int main(int argc, char **argv) {
    if (argc != 3) return fprintf(stderr, "usage: replay N LIST\n"), 2;
    long made = strtol(argv[1], NULL, 10);
    read_names(argv[2]);
    LLVMFuzzerInitialize(&argc, &argv);
    srand(1);
    for (size_t i = 0; i < names_len; i++) run(read_file(names[i]));
    for (long i = 0; i < made; i++) {
        size_t size = read_file(names[upto(names_len)]);
        for (size_t times = 1 + upto(4); times > 0; times--) size = LLVMFuzzerCustomMutator(data, size, MAX_LEN, (unsigned)rand());
        run(size);
    }
    printf("%zu files, %ld inputs made from them\n", names_len, made);
    return 0;
}
