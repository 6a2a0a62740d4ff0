/* Velejume: haplotype phasing whose answer is proved to be the answer.

   Rooms. Each is a pointer and the number of entries from it on. NULL with length 0 is an empty room, lawful wherever a room is asked for.
   `second` points to a number and is not NULL. What a call writes to (work, out, margins, *second) may overlap nothing else that it is given; a block
   and an answer are only read and may overlap each other. Every block, every answer and every length is lawful: a call gives an answer, a
   verdict or a refusal, and stays within its rooms. It allocates nothing, keeps nothing between calls, may run in any number of threads at once,
   each with rooms of its own, and takes about 60 KiB of stack.

   A fragment block, all numbers big-endian: version (1 byte), the number of bytes after byte 4 (4), columns m (2), reads n (2); then for each read
   L (2), its first column (2) and c cells. A cell is a letter (1), 0, 1 or 2 for a hole, and its weight, 0 for a hole. In version 1 a weight has 1
   byte, so a cell has 2 and L = 2 + 2c; in version 2 a weight has 2 bytes, so a cell has 3 and L = 2 + 3c, and every read has cells. Phasing and
   judging take both versions, and the same matrix gets the same answer in both. Reads and columns are numbered from 0.

   A read is active in every column from its first to its last entry, holes between included. A is the largest number of active reads of any
   column; T is 1 if A = 0, otherwise 2 to the power A - 1. */
#ifndef VELEJUME_H
#define VELEJUME_H

#include <stddef.h>
#include <stdint.h>

/* The largest m, n and A that are accepted. */
#define VELEJUME_MOST_COLUMNS 1024
#define VELEJUME_MOST_READS 1024
#define VELEJUME_MOST_ACTIVE 12

/* Rooms that suffice for every block: entries of work, m x T, bytes of out, 17 + n + 2m, and numbers of margins, 2m. */
#define VELEJUME_MOST_ENTRIES 2097152 /* 1024 x 2 to the power 11 */
#define VELEJUME_LARGEST_ANSWER 3089  /* 17 + 1024 + 2 x 1024 */
#define VELEJUME_MOST_MARGINS 2048    /* 2 x 1024 */

/* Bytes of the largest block that passes refusals 1 to 8, of version 2, in which each read has all columns. A block that is accepted has at most
   40969 in version 2, 9 + 4 x 1024 + 3 x 12 x 1024, since a column has at most 12 active reads, and 28681 in version 1. */
#define VELEJUME_LARGEST_BLOCK 3149833 /* 9 + 1024 x (4 + 3 x 1024) */

/* No cost is above the weight of all entries: 12 active reads in 1024 columns, of weight 65535. In version 1 it is 3133440. */
#define VELEJUME_LARGEST_COST 805294080 /* 12 x 1024 x 65535 */

/* No margin is above the weight of a column's entries. In version 1 it is 3060. */
#define VELEJUME_LARGEST_MARGIN 786420 /* 12 x 65535 */

/* Refusals. The checks run in this order, the first that applies is returned, and no room is written to.

   Number  Given exactly when                                                        Second number
        1  fewer than 9 bytes                                                        0
        2  version neither 1 nor 2 (of velejume_convert: not 1)                      0
        3  length field differs from the bytes present after byte 4                  0
        4  m = 0, m > 1024 or n > 1024                                               0
        5  a read's L is cut off, L < 2, L is odd (in version 2: L - 2 is no         read
           multiple of 3), or L runs past the block
       38  c = 0 in version 2; looked for here, between 5 and 6                      read
        6  c = 0 with first column not 0 (in version 1), or first column + c > m     read
        7  letter above 2, a hole with weight, first or last cell a hole             read
        8  bytes remain after the last read                                          0
        9  a column has more than 12 active reads                                    first such column
       10  work room below m x T entries                                             m x T
       11  output below 17 + n + 2m bytes                                            17 + n + 2m
       13  of velejume_phase_margins: margins below 2m numbers                       2m
       39  of velejume_convert: output below the bytes of the converted block        these bytes

   5, 38, 6 and 7 are looked for read by read: the first read that gets one of them is the second number.

   Verdicts on an answer. The first that applies is returned. "Ours" is what velejume_phase answers, so an answer of
   velejume_phase_heterozygous is judged as any other program's.

   Number  Given                                                                     Second number
       50  malformed: under 17 bytes, version not 2, or a length field that is not   0
           both the bytes after byte 4 and 12 + n + 2m of the answer's own n and m
       51  other n or m                                                              0
       52  a side above 1 or a letter above 2                                        0
       53  a letter 2 where that side's two sums differ                              0
       54  stated cost not the weight of the entries that disagree with its letters  0
       55  not least                                                                 the least cost
       56  least but other sides or letters than ours                                0
       57  ours; the number of flips is not judged                                   0 */

#ifdef __cplusplus
extern "C" {
#endif

/* Phases a fragment block. Returns 0 on acceptance, with the least cost in *second, or a refusal, 1 to 11 or 38.

   On acceptance the first 17 + n + 2m bytes of out hold the answer block, all numbers big-endian: version 2 (1 byte), the number of bytes after
   byte 4 (4), cost (4), flips (4), n (2), m (2), then n sides, m letters of haplotype 1 (side 0) and m of haplotype 2 (side 1), a byte each. A
   letter is 0, 1, or 2 where that side's two sums, the weights of its entries with 0 and with 1, are equal.

   The first m x T entries of work hold the table, column j's from j x T on. Let a column's active reads be a0, a1, .., those with later last
   columns first, equal ones by read number. Its entry k stands for a0 on side 0 and ai on the side that binary digit i - 1 of k gives, and holds the
   least cost of columns 0 to j over all divisions that agree with it; entries for which there are no reads are 0.

   What lies beyond in both rooms is kept. With empty rooms, 10 says how many work entries a block takes; with those and an empty output, 11
   says how many bytes. */
uint32_t velejume_phase(const uint8_t *block, size_t block_len, uint32_t *work, size_t work_len, uint8_t *out, size_t out_len,
                        uint32_t *second);

/* Phases a fragment block and says how sure each letter is. Returns, and writes to work and out, what velejume_phase does, but for refusal 13, which
   comes after all others.

   On acceptance the first 2m numbers of margins hold m margins of haplotype 1, then m of haplotype 2; what lies beyond is kept. The margin of a
   haplotype at a column is the distance between the two sums that its letter is chosen from, the weights of that side's entries with 0 and with 1: what
   the other letter would cost more. It is 0 exactly where the letter is 2. With sufficient work and output and empty margins, 13 says how many numbers a
   block takes. */
uint32_t velejume_phase_margins(const uint8_t *block, size_t block_len, uint32_t *work, size_t work_len, uint8_t *out, size_t out_len,
                                uint32_t *margins, size_t margins_len, uint32_t *second);

/* Phases a fragment block in the all-heterozygous mode: the two haplotypes differ at every column. Rooms, refusals, layouts and what is kept are those
   of velejume_phase, with another charge. Let W0 of a side be the weight of its entries with 1 at a column, and W1 that of its entries with 0: what a 0 or
   a 1 written there would cost. A column costs the lesser of W0 of side 0 plus W1 of side 1, and W1 of side 0 plus W0 of side 1. Haplotype 1 has 0 there
   if the first sum is smaller, otherwise 1, and haplotype 2 has the other letter; where the sums are equal both have 2, and flips are counted against 1
   on side 0 and 0 on side 1. The cost is never below that of velejume_phase. */
uint32_t velejume_phase_heterozygous(const uint8_t *block, size_t block_len, uint32_t *work, size_t work_len, uint8_t *out, size_t out_len,
                                     uint32_t *second);

/* Judges an answer block of version 2, of whatever program, to a fragment block. Returns a verdict, 50 to 57, with the table in the first m x T
   entries of work and the others kept, or the refusal of the fragment block, 1 to 10 or 38. */
uint32_t velejume_judge(const uint8_t *block, size_t block_len, const uint8_t *answer, size_t answer_len, uint32_t *work,
                        size_t work_len, uint32_t *second);

/* Converts a fragment block of version 1 into one of version 2 without its reads without cells (c = 0). Returns 0 on success, with 0 in *second and
   the block of version 2 at the start of out, the rest of which is kept; or a refusal: 1, then 2 for any version but 1, a block of version 2 too,
   then 3 to 8, then 39. More than 12 active reads are no reason to refuse.

   The reads that have cells keep their order, first columns, letters and weights, so velejume_phase gives them the same sides and the block the same cost,
   flips, letters and table; their numbers close up. With an empty output, 39 says how many bytes a block takes: VELEJUME_LARGEST_BLOCK suffice for every
   one. */
uint32_t velejume_convert(const uint8_t *block, size_t block_len, uint8_t *out, size_t out_len, uint32_t *second);

#ifdef __cplusplus
}
#endif

#endif
