/* Reads the round file named on the command line and prints its allotment or its refusal. */
#include <inttypes.h>
#include <stdio.h>
#include "tazbilk.h"

/* One byte more than the longest lawful file decides any file. */
static uint8_t file[TAZBILK_FILE_MOST + 1];

/* The two-byte number at a place of a file or an answer area. */
static unsigned two_bytes(const uint8_t *at) {
    return at[0] + 256u * at[1];
}

/* The lines below the offers: candidate, institute, step, type; then each institute with its closing places, so many of them. A seat
   has four bytes in a wide round, the institute in two of them, and else two. */
static void print_answer(const uint8_t *answer, int wide, unsigned places, unsigned n, unsigned m) {
    const uint8_t *seat = answer, *place = answer + (wide ? 4 : 2) * n, *types = place + 2 * places * m;
    for (unsigned candidate = 0; candidate < n; candidate++, seat += wide ? 4 : 2) {
        unsigned institute = wide ? two_bytes(seat) : seat[0];
        printf("%u %u %u %u\n", candidate + 1, institute, seat[wide ? 2 : 1], types[candidate]);
    }
    for (unsigned institute = 0; institute < m; institute++) {
        printf("closing %u", institute + 1);
        for (unsigned step = 0; step < places; step++, place += 2) {
            printf(" %u", two_bytes(place));
        }
        printf("\n");
    }
}

int main(int count, char **words) {
    FILE *from = count == 2 ? fopen(words[1], "rb") : NULL;
    if (from == NULL) {
        fprintf(stderr, "usage: allot FILE, a round file that can be read\n");
        return 2;
    }
    size_t file_len = fread(file, 1, sizeof file, from);
    fclose(from);

    uint8_t answer[TAZBILK_ANSWER_MOST], work[TAZBILK_WORK_MOST];
    uint64_t result[3];
    tazbilk_allot(file, file_len, answer, sizeof answer, work, sizeof work, result);
    if (result[0] != 0) {
        printf("refused %" PRIu64 " at %" PRIu64 "\n", result[1], result[2]);
        return 0;
    }
    printf("offers %" PRIu64 "\n", result[1]);
    /* The file passed, so its head tells the form, 5 for wide, n and m, and the policy, which is 2 where institutes list their steps. */
    unsigned places = two_bytes(file + 10) == 2 ? 12 : 6;
    print_answer(answer, two_bytes(file + 2) == 5, places, two_bytes(file + 4), two_bytes(file + 6));
    return 0;
}
