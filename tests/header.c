/* What velejume.h says of lengths, versions, modes and margins: NULL with length 0 stands for each room, alone and together with others, both versions
   of a matrix get the same answer in either mode, with the same margins, one is converted into the other, and the constants are the limits of the
   library. */
#include <stdio.h>
#include <string.h>
#include <velejume.h>

static int passed, failed;

static void expect(const char *what, uint32_t number, uint32_t second, uint32_t found, uint32_t found_second) {
  if (number == found && second == found_second) {
    passed++;
  } else {
    failed++;
    printf("header: %s: expected %u %u, found %u %u\n", what, number, second, found, found_second);
  }
}

/* the calls that phase: in the general mode and in the all-heterozygous one */
enum { MODES = 2 };
typedef uint32_t phasing(const uint8_t *, size_t, uint32_t *, size_t, uint8_t *, size_t, uint32_t *);
static phasing *const phase_in[MODES] = {velejume_phase, velejume_phase_heterozygous};

/* 0:5 . / 1:3 0:2 / 1:6 1:1 / . 0:2 and its answers: cost 1, sides 1000, haplotypes 10 and 0-, or 10 and 01 where they differ at every column */
static const uint8_t small[] = {1, 0, 0, 0, 32, 0, 2, 0, 4, 0, 4, 0, 0, 0, 5, 0, 6, 0, 0,
                                1, 3, 0, 2, 0, 6, 0, 0, 1, 6, 1, 1, 0, 4, 0, 1, 0, 2};
static const uint8_t wide[] = {2, 0, 0, 0, 38, 0, 2, 0, 4, 0, 5, 0, 0, 0, 0, 5, 0, 8, 0, 0, 1, 0,
                               3, 0, 0, 2, 0, 8, 0, 0, 1, 0, 6, 1, 0, 1, 0, 5, 0, 1, 0, 0, 2}; /* the same in version 2 */
enum { BLOCK = sizeof small, ENTRIES = 8, BYTES = 25, MARGINS = 4 };
static const uint8_t answers[MODES][BYTES] = {{2, 0, 0, 0, 20, 0, 0, 0, 1, 0, 0, 0, 1, 0, 4, 0, 2, 1, 0, 0, 0, 1, 0, 0, 2},
                                              {2, 0, 0, 0, 20, 0, 0, 0, 1, 0, 0, 0, 1, 0, 4, 0, 2, 1, 0, 0, 0, 1, 0, 0, 1}};
static const uint32_t tables[MODES][ENTRIES] = {{5, 3, 0, 5, 1, 3, 1, 4}, {5, 3, 0, 6, 1, 3, 2, 5}};
static const uint32_t sure[MARGINS] = {9, 3, 5, 0};

static void empty_rooms_of_phase(phasing *phase) {
  uint32_t work[ENTRIES], number, second;
  uint8_t out[BYTES];
  for (int empty = 0; empty < 8; empty++) {
    int no_block = empty & 1, no_work = empty & 2, no_out = empty & 4;
    size_t block_len = no_block ? 0 : BLOCK, work_len = no_work ? 0 : ENTRIES, out_len = no_out ? 0 : BYTES;
    uint32_t refusal = no_block ? 1 : no_work ? 10 : no_out ? 11 : 0;
    uint32_t beside = no_block ? 0 : no_work ? ENTRIES : no_out ? BYTES : 1;
    number = phase(no_block ? NULL : small, block_len, no_work ? NULL : work, work_len, no_out ? NULL : out, out_len, &second);
    expect("phase, NULL", refusal, beside, number, second);
    number = phase(small, block_len, work, work_len, out, out_len, &second);
    expect("phase, length 0", refusal, beside, number, second);
  }
}

static void empty_rooms_of_phase_margins(void) {
  uint32_t work[ENTRIES], margins[MARGINS], number, second;
  uint8_t out[BYTES];
  for (int empty = 0; empty < 16; empty++) {
    int no_block = empty & 1, no_work = empty & 2, no_out = empty & 4, no_margins = empty & 8;
    size_t block_len = no_block ? 0 : BLOCK, work_len = no_work ? 0 : ENTRIES, out_len = no_out ? 0 : BYTES, margins_len = no_margins ? 0 : MARGINS;
    uint32_t refusal = no_block ? 1 : no_work ? 10 : no_out ? 11 : no_margins ? 13 : 0;
    uint32_t beside = no_block ? 0 : no_work ? ENTRIES : no_out ? BYTES : no_margins ? MARGINS : 1;
    number = velejume_phase_margins(no_block ? NULL : small, block_len, no_work ? NULL : work, work_len, no_out ? NULL : out, out_len,
                                    no_margins ? NULL : margins, margins_len, &second);
    expect("phase_margins, NULL", refusal, beside, number, second);
    number = velejume_phase_margins(small, block_len, work, work_len, out, out_len, margins, margins_len, &second);
    expect("phase_margins, length 0", refusal, beside, number, second);
  }
}

static void empty_rooms(void) {
  const uint8_t *answer = answers[0];
  uint32_t work[ENTRIES], number, second;
  for (int mode = 0; mode < MODES; mode++) empty_rooms_of_phase(phase_in[mode]);
  empty_rooms_of_phase_margins();
  for (int empty = 0; empty < 8; empty++) {
    int no_block = empty & 1, no_answer = empty & 2, no_work = empty & 4;
    size_t block_len = no_block ? 0 : BLOCK, answer_len = no_answer ? 0 : BYTES, work_len = no_work ? 0 : ENTRIES;
    uint32_t verdict = no_block ? 1 : no_work ? 10 : no_answer ? 50 : 57;
    uint32_t beside = !no_block && no_work ? ENTRIES : 0;
    number = velejume_judge(no_block ? NULL : small, block_len, no_answer ? NULL : answer, answer_len, no_work ? NULL : work, work_len, &second);
    expect("judge, NULL", verdict, beside, number, second);
    number = velejume_judge(small, block_len, answer, answer_len, work, work_len, &second);
    expect("judge, length 0", verdict, beside, number, second);
  }
  number = velejume_judge(small, BLOCK, small, BLOCK, work, ENTRIES, &second);
  expect("a block as its own answer", 50, 0, number, second);
  uint8_t converted[sizeof wide];
  for (int empty = 0; empty < 4; empty++) {
    int no_block = empty & 1, no_out = empty & 2;
    size_t block_len = no_block ? 0 : BLOCK, out_len = no_out ? 0 : sizeof wide;
    uint32_t refusal = no_block ? 1 : no_out ? 39 : 0, beside = !no_block && no_out ? sizeof wide : 0;
    number = velejume_convert(no_block ? NULL : small, block_len, no_out ? NULL : converted, out_len, &second);
    expect("convert, NULL", refusal, beside, number, second);
    number = velejume_convert(small, block_len, converted, out_len, &second);
    expect("convert, length 0", refusal, beside, number, second);
  }
}

static void versions(void) {
  uint32_t work[2][ENTRIES], number, second;
  uint8_t out[2][BYTES];
  for (int mode = 0; mode < MODES; mode++) {
    number = phase_in[mode](small, sizeof small, work[0], ENTRIES, out[0], BYTES, &second);
    expect("version 1", 0, 1, number, second);
    number = phase_in[mode](wide, sizeof wide, work[1], ENTRIES, out[1], BYTES, &second);
    expect("version 2", 0, 1, number, second);
    for (int of = 0; of < 2; of++) {
      expect("the table", 0, 0, (uint32_t)memcmp(work[of], tables[mode], sizeof tables[mode]), 0);
      expect("the answer", 0, 0, (uint32_t)memcmp(out[of], answers[mode], BYTES), 0);
    }
    /* a letter where that side has no entry is no answer of the general mode */
    number = velejume_judge(wide, sizeof wide, answers[mode], BYTES, work[1], ENTRIES, &second);
    expect("judge, version 2", mode == 0 ? 57 : 56, 0, number, second);
  }
}

/* a run of one number too few, and one of one too many, the last of which is kept */
static void margins(void) {
  static const struct { const uint8_t *block; size_t size; } blocks[] = {{small, sizeof small}, {wide, sizeof wide}};
  for (int of = 0; of < 2; of++) {
    uint32_t work[ENTRIES] = {77}, run[MARGINS + 1] = {77, 77, 77, 77, 77}, number, second;
    uint8_t out[BYTES] = {77};
    number = velejume_phase_margins(blocks[of].block, blocks[of].size, work, ENTRIES, out, BYTES, run, MARGINS - 1, &second);
    expect("a number too few", 13, MARGINS, number, second);
    expect("nothing is written", 77 + 77, 77, work[0] + out[0], run[0]);
    number = velejume_phase_margins(blocks[of].block, blocks[of].size, work, ENTRIES, out, BYTES, run, MARGINS + 1, &second);
    expect("a number too many", 0, 1, number, second);
    expect("the margins", 0, 77, (uint32_t)memcmp(run, sure, sizeof sure), run[MARGINS]);
    expect("the table and the answer beside", 0, 0, (uint32_t)memcmp(work, tables[0], sizeof work), (uint32_t)memcmp(out, answers[0], BYTES));
  }
}

/* . / 0:7 / . of version 1: its read with cells alone is converted */
static void conversion(void) {
  static const uint8_t empty[] = {1, 0, 0, 0, 18, 0, 1, 0, 3, 0, 2, 0, 0, 0, 4, 0, 0, 0, 7, 0, 2, 0, 0};
  static const uint8_t one[] = {2, 0, 0, 0, 11, 0, 1, 0, 1, 0, 5, 0, 0, 0, 0, 7};
  uint8_t converted[sizeof wide + 1], kept[sizeof wide + 1];
  uint32_t number, second;
  memset(converted, 9, sizeof converted), memset(kept, 9, sizeof kept);
  number = velejume_convert(small, sizeof small, converted, sizeof wide - 1, &second);
  expect("a byte too few", 39, sizeof wide, number, second);
  number = velejume_convert(wide, sizeof wide, converted, sizeof converted, &second);
  expect("version 2", 2, 0, number, second);
  expect("nothing is written", 0, 0, (uint32_t)memcmp(converted, kept, sizeof kept), 0);
  number = velejume_convert(small, sizeof small, converted, sizeof converted, &second);
  expect("version 1", 0, 0, number, second);
  expect("what is written", 0, 9, (uint32_t)memcmp(converted, wide, sizeof wide), converted[sizeof wide]);
  memset(converted, 9, sizeof converted);
  number = velejume_convert(empty, sizeof empty, converted, sizeof one, &second);
  expect("reads without cells", 0, 0, number, second);
  expect("the other", 0, 9, (uint32_t)memcmp(converted, one, sizeof one), converted[sizeof one]);
}

static uint8_t block[VELEJUME_LARGEST_BLOCK + 1];
static uint32_t work[VELEJUME_MOST_ENTRIES];
static uint8_t out[VELEJUME_LARGEST_ANSWER];
static uint8_t converted[VELEJUME_LARGEST_BLOCK];

static size_t put(size_t at, size_t number) {
  block[at] = (uint8_t)(number >> 8);
  block[at + 1] = (uint8_t)number;
  return at + 2;
}

static uint8_t version;

/* a block of so many columns and reads, each read of so many cells 0:0 from column 0 on; its length */
static size_t build(size_t columns, size_t reads, size_t cells) {
  size_t bytes = version == 1 ? 2 : 3;
  memset(block, 0, sizeof block);
  block[0] = version;
  size_t at = put(put(5, columns), reads);
  for (size_t read = 0; read < reads; read++) at = put(put(at, 2 + bytes * cells), 0) + bytes * cells;
  put(1, (at - 5) >> 16);
  put(3, (at - 5) & 0xffff);
  return at;
}

/* puts reads of one cell, so many, at columns of their own */
static void spread(size_t reads) {
  size_t read_bytes = version == 1 ? 6 : 7;
  for (size_t read = 0; read < reads; read++) put(9 + read_bytes * read + 2, read);
}

static void constants_of_phase(phasing *phase) {
  uint32_t number, second;
  size_t size = build(VELEJUME_MOST_COLUMNS, VELEJUME_MOST_ACTIVE, VELEJUME_MOST_COLUMNS);
  number = phase(block, size, work, VELEJUME_MOST_ENTRIES - 1, out, VELEJUME_LARGEST_ANSWER, &second);
  expect("the most entries less one", 10, VELEJUME_MOST_ENTRIES, number, second);
  size = build(VELEJUME_MOST_COLUMNS, VELEJUME_MOST_ACTIVE + 1, VELEJUME_MOST_COLUMNS);
  number = phase(block, size, work, VELEJUME_MOST_ENTRIES, out, VELEJUME_LARGEST_ANSWER, &second);
  expect("one more active read", 9, 0, number, second);
  size = build(VELEJUME_MOST_COLUMNS, VELEJUME_MOST_READS, 1);
  spread(VELEJUME_MOST_READS);
  number = phase(block, size, work, VELEJUME_MOST_ENTRIES, out, VELEJUME_LARGEST_ANSWER - 1, &second);
  expect("the largest answer less one", 11, VELEJUME_LARGEST_ANSWER, number, second);
  number = phase(block, size, work, VELEJUME_MOST_ENTRIES, out, VELEJUME_LARGEST_ANSWER, &second);
  expect("the largest answer", 0, 0, number, second);
  size = build(VELEJUME_MOST_COLUMNS, VELEJUME_MOST_READS, 0);
  number = phase(block, size, work, VELEJUME_MOST_ENTRIES, out, VELEJUME_LARGEST_ANSWER, &second);
  expect("reads without cells", version == 1 ? 0 : 38, 0, number, second);
  size = build(VELEJUME_MOST_COLUMNS + 1, 0, 0);
  number = phase(block, size, work, VELEJUME_MOST_ENTRIES, out, VELEJUME_LARGEST_ANSWER, &second);
  expect("one more column", 4, 0, number, second);
  size = build(1, VELEJUME_MOST_READS + 1, 0);
  number = phase(block, size, work, VELEJUME_MOST_ENTRIES, out, VELEJUME_LARGEST_ANSWER, &second);
  expect("one more read", 4, 0, number, second);
  size = build(VELEJUME_MOST_COLUMNS, VELEJUME_MOST_READS, VELEJUME_MOST_COLUMNS);
  number = phase(block, size, work, VELEJUME_MOST_ENTRIES, out, VELEJUME_LARGEST_ANSWER, &second);
  expect("the largest block", 9, 0, number, second);
}

static void constants(void) {
  uint32_t number, second;
  for (int mode = 0; mode < MODES; mode++) constants_of_phase(phase_in[mode]);
  size_t size = build(VELEJUME_MOST_COLUMNS, VELEJUME_MOST_READS, VELEJUME_MOST_COLUMNS);
  expect("its length", version == 1 ? 2101257 : VELEJUME_LARGEST_BLOCK, 0, (uint32_t)size, 0);
  number = velejume_convert(block, size, converted, VELEJUME_LARGEST_BLOCK - 1, &second);
  expect("a byte too few for it", version == 1 ? 39 : 2, version == 1 ? VELEJUME_LARGEST_BLOCK : 0, number, second);
  number = velejume_convert(block, size, converted, VELEJUME_LARGEST_BLOCK, &second);
  expect("converted", version == 1 ? 0 : 2, 0, number, second);
  /* what version 1 was converted into is what version 2 is built as */
  if (version == 2) expect("into the largest block", 0, 0, (uint32_t)memcmp(converted, block, size), 0);
}

enum { COLUMNS = VELEJUME_MOST_COLUMNS, READS = VELEJUME_MOST_ACTIVE, LENGTH = 17 + READS + 2 * COLUMNS };

/* a block of version 2 with as many columns and active reads as there can be, all entries zeros at the heaviest weight; its length */
static size_t heaviest(void) {
  size_t size = build(COLUMNS, READS, COLUMNS);
  for (size_t read = 0; read < READS; read++)
    for (size_t column = 0; column < COLUMNS; column++) put(9 + read * (4 + 3 * COLUMNS) + 5 + 3 * column, 65535);
  return size;
}

/* An answer has ones for all entries: its cost is the weight of all. */
static void largest_cost(void) {
  static uint8_t stated[LENGTH];
  uint32_t cost = VELEJUME_LARGEST_COST, number, second;
  size_t size = heaviest();
  memset(stated, 0, sizeof stated);
  stated[0] = 2;
  stated[3] = (uint8_t)((LENGTH - 5) >> 8), stated[4] = (uint8_t)(LENGTH - 5);
  for (int i = 0; i < 4; i++) stated[5 + i] = (uint8_t)(cost >> (24 - 8 * i));
  stated[14] = READS;
  stated[15] = COLUMNS >> 8;
  memset(stated + 17 + READS, 1, COLUMNS);
  memset(stated + 17 + READS + COLUMNS, 2, COLUMNS);
  number = velejume_judge(block, size, stated, LENGTH, work, VELEJUME_MOST_ENTRIES, &second);
  expect("the largest cost", 55, 0, number, second);
  stated[8]++;
  number = velejume_judge(block, size, stated, LENGTH, work, VELEJUME_MOST_ENTRIES, &second);
  expect("one more than it", 54, 0, number, second);
}

static void largest_margin(void) {
  static uint32_t run[VELEJUME_MOST_MARGINS];
  uint32_t number, second;
  size_t size = heaviest();
  number = velejume_phase_margins(block, size, work, VELEJUME_MOST_ENTRIES, out, LENGTH, run, VELEJUME_MOST_MARGINS - 1, &second);
  expect("the most margins less one", 13, VELEJUME_MOST_MARGINS, number, second);
  number = velejume_phase_margins(block, size, work, VELEJUME_MOST_ENTRIES, out, LENGTH, run, VELEJUME_MOST_MARGINS, &second);
  expect("the most margins", 0, 0, number, second);
  uint32_t right = 0;
  for (size_t column = 0; column < COLUMNS; column++) right += run[column] == VELEJUME_LARGEST_MARGIN && run[COLUMNS + column] == 0;
  expect("the largest margins", COLUMNS, 0, right, 0);
}

int main(void) {
  empty_rooms();
  versions();
  margins();
  conversion();
  for (version = 1; version <= 2; version++) constants();
  version = 2;
  largest_cost();
  largest_margin();
  printf("%d passed, %d failed\n", passed, failed);
  return failed != 0;
}
