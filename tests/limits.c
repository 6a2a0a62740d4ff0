/* Both sides of every limit in both versions, both modes and with margins, through the C names: numbers, what the rooms hold, and a guard behind each
   room. The largest block, 1,024 columns under 12 reads, is held against plain search through its 2,048 divisions: every table entry and margin too. */
typedef unsigned char u8;
typedef unsigned int u32;
typedef unsigned long usize;

typedef u32 phasing(const u8 *block, usize block_len, u32 *work, usize work_len, u8 *out, usize out_len, u32 *second);
phasing velejume_phase, velejume_phase_heterozygous;
u32 velejume_phase_margins(const u8 *block, usize block_len, u32 *work, usize work_len, u8 *out, usize out_len, u32 *margins, usize margins_len,
                           u32 *second);
u32 velejume_convert(const u8 *block, usize block_len, u8 *out, usize out_len, u32 *second);
int printf(const char *format, ...);

enum { GUARD = 16, MOST_WORK = 1024 * 2048, MOST_OUT = 17 + 1024 + 2048, MOST_MARGINS = 2 * 1024, MOST_BLOCK = 400000 };

static u8 block[MOST_BLOCK];
static usize size;
static u32 work[MOST_WORK + GUARD];
static u8 out[MOST_OUT + GUARD];
static u32 margins[MOST_MARGINS + GUARD];
static u8 wide[MOST_BLOCK + GUARD];
static int passed, failed;

static void expect(int ok, const char *what) {
  if (ok) {
    passed++;
  } else {
    failed++;
    printf("limits: %s\n", what);
  }
}

static void put16(usize at, u32 x) {
  block[at] = (u8)(x >> 8);
  block[at + 1] = (u8)x;
}

/* the version of the blocks, the bytes of a cell, and how heavy an entry can be */
static u8 version;
static u32 bytes, heaviest;

static void begin(u32 m, u32 n) {
  block[0] = version;
  put16(5, m);
  put16(7, n);
  size = 9;
}

/* letters and weights by a small generator */
static u32 seed = 1;
static u32 next(void) {
  seed = seed * 1103515245u + 12345u;
  return seed >> 16;
}

/* where every entry is as heavy as it can be */
static int heavy;

/* a read of c cells from a column on, with holes inside where asked */
static void read_of(u32 first, u32 c, int gap) {
  put16(size, 2 + bytes * c);
  put16(size + 2, first);
  size += 4;
  for (u32 i = 0; i < c; i++) {
    int hole = gap && i > 0 && i + 1 < c;
    block[size] = hole ? 2 : (u8)(next() & 1);
    u32 weight = hole ? 0 : heavy ? heaviest : next() % (heaviest + 1);
    if (version == 1) {
      block[size + 1] = (u8)weight;
    } else {
      put16(size + 1, weight);
    }
    size += bytes;
  }
}

static u32 weight_at(usize cell) { return version == 1 ? block[cell + 1] : block[cell + 1] * 256u + block[cell + 2]; }

static void finish(void) {
  u32 length = (u32)(size - 5);
  block[1] = (u8)(length >> 24);
  block[2] = (u8)(length >> 16);
  block[3] = (u8)(length >> 8);
  block[4] = (u8)length;
}

/* which call phases: in the general mode, for haplotypes that differ at every column, or in the general mode with margins */
static enum { GENERAL, HETEROZYGOUS, WITH_MARGINS } mode;

static u32 phased(usize work_len, usize out_len, usize run_len, u32 *second) {
  if (mode == WITH_MARGINS) return velejume_phase_margins(block, size, work, work_len, out, out_len, margins, run_len, second);
  return (mode == GENERAL ? velejume_phase : velejume_phase_heterozygous)(block, size, work, work_len, out, out_len, second);
}

/* one call with rooms of these sizes: the numbers, and that a refusal and the guards leave everything as it was, and so what lies beyond the margins */
static void call_with(usize work_len, usize out_len, usize run_len, u32 number, u32 second, const char *what) {
  for (usize i = 0; i < work_len + GUARD; i++) work[i] = 7777;
  for (usize i = 0; i < out_len + GUARD; i++) out[i] = 77;
  for (usize i = 0; i < run_len + GUARD; i++) margins[i] = 7777;
  u32 got = 99999;
  u32 answered = phased(work_len, out_len, run_len, &got);
  usize written = number || mode != WITH_MARGINS ? 0 : 2 * (block[5] * 256u + block[6]);
  int kept = 1;
  for (usize i = written; i < run_len + GUARD; i++) kept &= margins[i] == 7777;
  for (usize i = number ? 0 : work_len; i < work_len + GUARD; i++) kept &= work[i] == 7777;
  for (usize i = number ? 0 : out_len; i < out_len + GUARD; i++) kept &= out[i] == 77;
  expect(answered == number, what);
  if (number) expect(got == second, what);
  expect(kept, what);
}

static void call(usize work_len, usize out_len, u32 number, u32 second, const char *what) {
  call_with(work_len, out_len, MOST_MARGINS, number, second, what);
}

/* a block that is accepted in these rooms, with runs of just 2m numbers and one less */
static void runs(usize work_len, usize out_len, u32 m, const char *what) {
  if (mode != WITH_MARGINS) return;
  call_with(work_len, out_len, 2 * m - 1, 13, 2 * m, what);
  call_with(work_len, out_len, 0, 13, 2 * m, what);
  call_with(work_len, out_len, 2 * m, 0, 0, what);
}

/* one converting with an output of this size: the numbers, and that a refusal and the guard leave everything as it was */
static void convert(usize out_len, u32 number, u32 second, const char *what) {
  for (usize i = 0; i < out_len + GUARD; i++) wide[i] = 77;
  u32 got = 99999;
  expect(velejume_convert(block, size, wide, out_len, &got) == number, what);
  expect(got == second, what);
  int kept = 1;
  for (usize i = number ? 0 : out_len; i < out_len + GUARD; i++) kept &= wide[i] == 77;
  expect(kept, what);
}

static u32 lesser(u32 a, u32 b) { return a < b ? a : b; }

/* by the weights of entries, by side and letter */
static u32 charge(u32 w[2][2]) {
  return mode == HETEROZYGOUS ? lesser(w[0][1] + w[1][0], w[0][0] + w[1][1]) : lesser(w[0][0], w[0][1]) + lesser(w[1][0], w[1][1]);
}

/* the weights of the largest block's entries at a column, by side and letter, where read r but the first is on the side that digit r - 1 of k gives */
static void weigh(u32 j, u32 k, u32 w[2][2]) {
  w[0][0] = w[0][1] = w[1][0] = w[1][1] = 0;
  for (u32 r = 0; r < 12; r++) {
    usize cell = 9 + r * (4 + bytes * 1024) + 4 + bytes * j;
    w[r ? k >> (r - 1) & 1 : 0][block[cell]] += weight_at(cell);
  }
}

/* the margins of a division of the largest block: the distance of both sums of each side at each column */
static void largest_margins(u32 k) {
  if (mode != WITH_MARGINS) return;
  int right = 1;
  for (u32 j = 0; j < 1024; j++) {
    u32 w[2][2];
    weigh(j, k, w);
    for (u32 side = 0; side < 2; side++) {
      u32 less = lesser(w[side][0], w[side][1]);
      right &= margins[side * 1024 + j] == w[side][0] + w[side][1] - 2 * less;
    }
  }
  expect(right, "every margin of the largest block");
}

/* 12 reads over all columns: entry k of column j is the sum of charges to j of the one division that k stands for */
static void largest(void) {
  static u32 sums[2048];
  u32 m = 1024, reads = 12;
  for (u32 k = 0; k < 2048; k++) sums[k] = 0;
  begin(m, reads);
  for (u32 r = 0; r < reads; r++) read_of(0, m, 0);
  finish();
  call(MOST_WORK - 1, MOST_OUT, 10, MOST_WORK, "work one entry short");
  call(MOST_WORK, 17 + reads + 2 * m - 1, 11, 17 + reads + 2 * m, "output one byte short");
  runs(MOST_WORK, 17 + reads + 2 * m, m, "the largest block, runs of margins");
  call(MOST_WORK, 17 + reads + 2 * m, 0, 0, "the largest block");
  int right = 1;
  for (u32 j = 0; j < m; j++)
    for (u32 k = 0; k < 2048; k++) {
      u32 w[2][2];
      weigh(j, k, w);
      sums[k] += charge(w);
      right &= work[j * 2048 + k] == sums[k];
    }
  expect(right, "every entry of the largest table");
  /* reads with one last column come by number: read 1 is compared first, the lowest digit */
  u32 best = 0, least = sums[0];
  for (u32 k = 1; k < 2048; k++) {
    int before = 0;
    for (u32 d = 0; d < 11 && !before; d++)
      if ((k >> d & 1) != (best >> d & 1)) {
        before = (k >> d & 1) ? -1 : 1;
      }
    if (sums[k] < least || (sums[k] == least && before == 1)) {
      best = k;
      least = sums[k];
    }
  }
  u32 cost = (u32)out[5] << 24 | (u32)out[6] << 16 | (u32)out[7] << 8 | out[8];
  expect(cost == least, "the largest cost");
  int sides = out[17] == 0;
  for (u32 r = 1; r < reads; r++) sides &= out[17 + r] == (best >> (r - 1) & 1);
  expect(sides, "the largest sides");
  largest_margins(best);
}

/* a read of one entry that is longer by 0 to 6 bytes, and a hole with a weight in each of its bytes */
static void cells(usize ample) {
  for (u32 more = 0; more < 7; more++) {
    begin(9, 1), read_of(0, 1, 0);
    put16(9, 2 + bytes + more);
    for (u32 i = 0; i < more; i++) block[size++] = 0;
    finish();
    call(9, ample, more % bytes ? 5 : 0, 0, "a length field that is longer");
  }
  for (u32 at = 1; at < bytes; at++) {
    begin(3, 1), read_of(0, 3, 1), finish();
    call(3, ample, 0, 0, "a hole without weight");
    block[13 + bytes + at] = 1;
    call(3, ample, 7, 0, "a hole with a weight in one byte");
  }
}

/* 1,024 reads in 12 layers over 1,024 columns: as many bytes as an accepted block can have */
static void longest(usize ample) {
  begin(1024, 1024);
  for (u32 layer = 0; layer < 12; layer++) {
    u32 reads = layer < 8 ? 85 : 86;
    for (u32 r = 0; r < reads; r++) read_of(r * 1024 / reads, (r + 1) * 1024 / reads - r * 1024 / reads, 0);
  }
  finish();
  expect(size == (version == 1 ? 28681 : 40969), "the bytes of the longest block");
  call(MOST_WORK, ample - 1, 11, MOST_OUT, "the longest block, output one byte short");
  call(MOST_WORK, ample, 0, 0, "the longest block");
  convert(40968, version == 1 ? 39 : 2, version == 1 ? 40969 : 0, "the longest block, converted into one byte too few");
  convert(40969, version == 1 ? 0 : 2, 0, "the longest block, converted");
}

/* a read without cells, which version 2 does not have: after 5, before 6, and by its number */
static void without_cells(usize ample) {
  begin(3, 1), read_of(0, 0, 0), finish(), call(3, ample, version == 1 ? 0 : 38, 0, "no cells");
  begin(3, 1), read_of(7, 0, 0), finish(), call(3, ample, version == 1 ? 6 : 38, 0, "no cells from column 7 on");
  begin(3, 2), read_of(0, 1, 0), read_of(0, 0, 0), finish();
  call(3, ample, version == 1 ? 0 : 38, 1, "the second read has no cells");
  convert(16, version == 1 ? 0 : 2, 0, "the first alone is converted");
  convert(15, version == 1 ? 39 : 2, version == 1 ? 16 : 0, "a byte too few for it");
  begin(3, 2), read_of(0, 0, 0), read_of(3, 1, 0), finish();
  call(3, ample, version == 1 ? 6 : 38, version == 1 ? 1 : 0, "no cells before a cell at column m");
  begin(3, 2), read_of(3, 1, 0), read_of(0, 0, 0), finish();
  call(3, ample, 6, 0, "a cell at column m before no cells");
}

static void limits(void) {
  usize ample = 17 + 1024 + 2048;
  begin(1024, 0), finish(), call(1024, ample, 0, 0, "m 1,024");
  begin(1025, 0), finish(), call(1025, ample, 4, 0, "m 1,025");
  begin(0, 0), finish(), call(1, ample, 4, 0, "m 0");
  begin(1024, 1024);
  for (u32 r = 0; r < 1024; r++) read_of(r, 1, 0);
  finish(), call(1024, ample, 0, 0, "n 1,024");
  begin(1024, 1025);
  for (u32 r = 0; r < 1025; r++) read_of(r % 1024, 1, 0);
  finish(), call(2048, ample, 4, 0, "n 1,025");
  begin(1, 1024);
  for (int r = 0; r < 1024; r++) read_of(0, 0, 0);
  finish(), call(1, ample, version == 1 ? 0 : 38, 0, "n 1,024 without cells");
  convert(9, version == 1 ? 0 : 2, 0, "n 1,024 without cells, converted");
  convert(8, version == 1 ? 39 : 2, version == 1 ? 9 : 0, "into one byte too few");
  begin(3, 12);
  for (int r = 0; r < 11; r++) read_of(1, 1, 0);
  read_of(0, 3, 1), finish(), call(3 * 2048, ample, 0, 0, "12 active, one by its gap");
  begin(3, 13);
  for (int r = 0; r < 12; r++) read_of(1, 1, 0);
  read_of(0, 3, 1), finish(), call(3 * 4096, ample, 9, 1, "13 active, the thirteenth by its gap");
  begin(128, 8);
  for (int r = 0; r < 8; r++) read_of(0, 128, 0);
  finish(), call(16384, ample, 0, 0, "128 columns under 8 reads in 16,384 entries");
  begin(129, 8);
  for (int r = 0; r < 8; r++) read_of(0, 129, 0);
  finish(), call(16384, ample, 10, 16512, "129 columns under 8 reads in 16,384 entries");
  begin(1, 0), finish();
  size = 8, call(1, ample, 1, 0, "8 bytes");
  begin(1, 0), finish(), call(1, ample, 0, 0, "9 bytes");
  begin(5, 1), read_of(4, 1, 0), finish(), call(5, ample, 0, 0, "a cell at column m - 1");
  begin(5, 1), read_of(5, 1, 0), finish(), call(5, ample, 6, 0, "a cell at column m");
  begin(1, 1), read_of(0, 1, 0), finish();
  call(0, ample, 10, 1, "no work room");
  call(1, 0, 11, 20, "no output");
  call(1, 19, 11, 20, "output one byte short of 20");
  call(1, 20, 0, 0, "output of just 20 bytes");
  runs(1, 20, 1, "one column, runs of margins");
  if (mode == WITH_MARGINS) call_with(1, 19, 0, 11, 20, "output one byte short of 20, and no run"), call_with(0, 19, 0, 10, 1, "no room at all");
  cells(ample);
  without_cells(ample);
  longest(ample);
  heavy = 0, largest();
  heavy = 1, largest();
}

int main(void) {
  for (mode = GENERAL; mode <= WITH_MARGINS; mode++) {
    version = 1, bytes = 2, heaviest = 255, limits();
    version = 2, bytes = 3, heaviest = 65535, limits();
    begin(1, 0), finish();
    for (u32 other = 0; other < 256; other++) {
      block[0] = (u8)other;
      call(1, MOST_OUT, other == 1 || other == 2 ? 0 : 2, 0, "each version byte");
    }
  }
  printf("%d passed, %d failed\n", passed, failed);
  return failed != 0;
}
