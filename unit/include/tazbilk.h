/* The seat-allotment unit, called from C. Link target/staticlib/libtazbilk.a (`evidence/archives.sh tazbilk`).
   A call never fails, keeps no pointer and needs nothing set up before. A pointer is never null, even where its length is
   0, and what is written overlaps nothing else. */
#ifndef TAZBILK_H
#define TAZBILK_H

#include <stddef.h>
#include <stdint.h>

#ifdef __cplusplus
extern "C" {
#endif

/* The bytes of the areas that a narrow round (head of kind 1) of n candidates and m institutes needs under policies 0 and 1, and of a
   list under review. */
#define TAZBILK_ANSWER_SIZE(n, m) (3 * (size_t)(n) + 12 * (size_t)(m))
#define TAZBILK_WORK_SIZE(n) (8 * (size_t)(n))
#define TAZBILK_LIST_SIZE(n) (2 * (size_t)(n))

/* Those of a wide round (head of kind 5), where they are others. */
#define TAZBILK_WIDE_ANSWER_SIZE(n, m) (5 * (size_t)(n) + 12 * (size_t)(m))
#define TAZBILK_WIDE_LIST_SIZE(n) (4 * (size_t)(n))

/* Those of the answer area under policy 2, where each institute lists its own steps. */
#define TAZBILK_STEPS_ANSWER_SIZE(n, m) (3 * (size_t)(n) + 24 * (size_t)(m))
#define TAZBILK_WIDE_STEPS_ANSWER_SIZE(n, m) (5 * (size_t)(n) + 24 * (size_t)(m))

/* The bytes that suffice for every round of both forms and all policies, and those of the longest lawful file and list, which are wide
   ones; the longest narrow file has 60,172. */
#define TAZBILK_ANSWER_MOST TAZBILK_WIDE_STEPS_ANSWER_SIZE(512, 1000)
#define TAZBILK_WORK_MOST TAZBILK_WORK_SIZE(512)
#define TAZBILK_FILE_MOST 1299660
#define TAZBILK_LIST_MOST TAZBILK_WIDE_LIST_SIZE(512)

/* Allots the seats of a round file. The result is 0, the number of offers, 0 where it is allotted, and 1, the number of the
   question, the byte offset where it is refused; line N of unit/meanings.txt says what a refusal with number N means (16 is
   the program's alone). Any file and areas of any length are taken. Where it is allotted, the answer area begins with two
   bytes for each candidate, institute and step (0 0 for none), then for each institute six closing places of two bytes, the
   low byte first: for steps 1 to 6, the largest merit place among those whom the step seated in its fill by merit, 0 if
   nobody; then one byte for each candidate, from byte 2n + 12m on: the horizontal type under which the candidate is seated,
   0 for those whom a step seated in its fill by merit, marked or not, and for those without a seat. For a wide round each
   candidate has four bytes instead of two: a two-byte institute, the low byte first, the step and a zero byte (0 0 0 0 for
   no seat); closing places and types are as before, the types from byte 4n + 12m on. Under policy 2 steps are numbered as the
   institute lists them, and each institute has twelve closing places, 0 beyond its steps, so that the types stand from byte
   2n + 24m on, or 4n + 24m for a wide round. */
void tazbilk_allot(const uint8_t *file, size_t file_len,
                   uint8_t *answer, size_t answer_len,
                   uint8_t *work, size_t work_len,
                   uint64_t result[3]);

/* Reviews a list of seats for a round file, two bytes for each candidate, institute and step (0 0 for none); for a wide round
   four: a two-byte institute, the low byte first, the step and a zero byte (0 0 0 0 for none), and a seat with another last
   byte counts as not in the row. Under policy 2 so does a seat whose step the institute does not list. The result is
   0, 0, 0, 0 where the list passes, which it does just where it is stable;
   1, the number of the question, the byte offset, 0 where it is refused: after the questions about the file, by 15 at 0 where the
   list does not have exactly 2n bytes (4n for a wide round), then by 14 at 0 where the work area has fewer than 8n;
   2, candidate, 0, 0 for the first candidate whose seat is not in the row, or whose step is not the one the institute gives when it
   chooses from the listed seats that are in their rows;
   3, candidate, institute, code, where there is no such candidate, for the first candidate and best entry ranked above the seat which
   the institute would choose if that one entry were added.
   Any file and list and a work area of any length are taken. */
void tazbilk_review(const uint8_t *file, size_t file_len,
                    const uint8_t *list, size_t list_len,
                    uint8_t *work, size_t work_len,
                    uint64_t result[4]);

#ifdef __cplusplus
}
#endif

#endif
