/* Reads the round file and the list named on the command line and prints the review of the list. */
#include <inttypes.h>
#include <stdio.h>
#include "tazbilk.h"

/* One byte more than the longest lawful file and the longest list decides any file and list. */
static uint8_t file[TAZBILK_FILE_MOST + 1], list[TAZBILK_LIST_MOST + 1];

/* Reads at most so many bytes of a named file; whether it can be opened. */
static int read_bytes(const char *name, uint8_t *to, size_t most, size_t *len) {
    FILE *from = fopen(name, "rb");
    if (from == NULL) return 0;
    *len = fread(to, 1, most, from);
    fclose(from);
    return 1;
}

int main(int count, char **words) {
    size_t file_len, list_len;
    if (count != 3 || !read_bytes(words[1], file, sizeof file, &file_len)
        || !read_bytes(words[2], list, sizeof list, &list_len)) {
        fprintf(stderr, "usage: review FILE LIST, a round file and a list that can be read\n");
        return 2;
    }

    uint8_t work[TAZBILK_WORK_MOST];
    uint64_t result[4];
    tazbilk_review(file, file_len, list, list_len, work, sizeof work, result);
    switch (result[0]) {
    case 0: printf("passes\n"); break;
    case 1: printf("refused %" PRIu64 " at %" PRIu64 "\n", result[1], result[2]); break;
    case 2: printf("seat of %" PRIu64 "\n", result[1]); break;
    default: printf("entry of %" PRIu64 ": %" PRIu64 " %" PRIu64 "\n", result[1], result[2], result[3]);
    }
    return 0;
}
