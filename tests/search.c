/* Phasing in both modes and with margins against plain search: random blocks of up to 8 reads, solved here by trying every division, with no thought of
   columns that follow from one another. Both numbers, every entry of the work room, every byte of the output and every margin are compared,
   and guards behind the rooms. Blocks of both versions come gapless, in pairs, with holes, with ties, weight 0 and empty reads, which
   version 2 refuses, and damaged. Each block is converted too, against a converter of its own. */
typedef unsigned char u8;
typedef unsigned int u32;
typedef unsigned long usize;

typedef u32 phasing(const u8 *block, usize block_len, u32 *work, usize work_len, u8 *out, usize out_len, u32 *second);
phasing velejume_phase, velejume_phase_heterozygous;
u32 velejume_phase_margins(const u8 *block, usize block_len, u32 *work, usize work_len, u8 *out, usize out_len, u32 *margins, usize margins_len,
                           u32 *second);
u32 velejume_convert(const u8 *block, usize block_len, u8 *out, usize out_len, u32 *second);
int printf(const char *format, ...);

enum { COLUMNS = 7, READS = 8, CELLS = 16, GUARD = 8, WORK = 4096, OUT = 256, RUN = 64, BLOCK = 1024 };

/* the block and what it says */
static u8 block[BLOCK];
static usize size;
static u32 m, n;
static u32 first[64], cells[64];
static u8 letter[64][CELLS];
static u32 weight[64][CELLS];

/* the answer by search */
static u32 number, second;
static u32 table[WORK];
static usize entries;
static u8 answer[OUT];
static usize length;
static u32 margins[2 * COLUMNS];

static unsigned long long state;
static u32 next(u32 below) {
  state = state * 6364136223846793005ull + 1442695040888963407ull;
  return (u32)(state >> 33) % below;
}

static u32 word(usize at) { return block[at] * 256u + block[at + 1]; }

/* the bytes of a cell by the version: a letter and a weight of one byte or of two */
static u32 bytes(void) { return block[0] == 1 ? 2 : 3; }

static void refuse(u32 a, u32 b) {
  number = a;
  second = b;
}

/* checks 1 to 8, in order, 38 between 5 and 6; the cells are kept where they fit */
static int checked(void) {
  if (size < 9) return refuse(1, 0), 0;
  if (block[0] != 1 && block[0] != 2) return refuse(2, 0), 0;
  if (((u32)block[1] << 24 | (u32)block[2] << 16 | (u32)block[3] << 8 | block[4]) != size - 5) return refuse(3, 0), 0;
  m = word(5), n = word(7);
  if (m == 0 || m > 1024 || n > 1024) return refuse(4, 0), 0;
  usize at = 9;
  for (u32 r = 0; r < n; r++) {
    if (size - at < 2) return refuse(5, r), 0;
    u32 l = word(at);
    if (l < 2 || (l - 2) % bytes() || size - at - 2 < l) return refuse(5, r), 0;
    u32 f = word(at + 2), c = (l - 2) / bytes();
    if (c == 0 && block[0] == 2) return refuse(38, r), 0;
    if ((c == 0 && f != 0) || f + c > m) return refuse(6, r), 0;
    for (u32 i = 0; i < c; i++) {
      usize cell = at + 4 + bytes() * i;
      u8 x = block[cell];
      u32 w = block[0] == 1 ? block[cell + 1] : word(cell + 1);
      if (x > 2 || (x == 2 && w) || (x == 2 && (i == 0 || i + 1 == c))) return refuse(7, r), 0;
      if (r < 64 && i < CELLS) letter[r][i] = x, weight[r][i] = w;
    }
    if (r < 64) first[r] = f, cells[r] = c;
    at += 2 + l;
  }
  if (at != size) return refuse(8, 0), 0;
  return 1;
}

static int active(u32 r, u32 j) { return first[r] <= j && j < first[r] + cells[r]; }
static u8 letter_at(u32 r, u32 j) { return active(r, j) ? letter[r][j - first[r]] : 2; }
static u32 weight_at(u32 r, u32 j) { return active(r, j) ? weight[r][j - first[r]] : 0; }

/* by side and letter: the weight of the entries that have this letter */
static void weigh(u32 division, u32 j, u32 w[2][2]) {
  w[0][0] = w[0][1] = w[1][0] = w[1][1] = 0;
  for (u32 r = 0; r < n; r++)
    if (letter_at(r, j) < 2) w[division >> r & 1][letter_at(r, j)] += weight_at(r, j);
}

static u32 lesser(u32 a, u32 b) { return a < b ? a : b; }

/* whether the haplotypes are to differ at every column; then a column costs as much with 0 on haplotype 1 and 1 on haplotype 2, or with 1 and 0 */
static int heterozygous;
static u32 zero_one(u32 w[2][2]) { return w[0][1] + w[1][0]; }
static u32 one_zero(u32 w[2][2]) { return w[0][0] + w[1][1]; }

static u32 charge(u32 division, u32 j) {
  u32 w[2][2];
  weigh(division, j, w);
  return heterozygous ? lesser(zero_one(w), one_zero(w)) : lesser(w[0][0], w[0][1]) + lesser(w[1][0], w[1][1]);
}

/* the letter of a side, and whether none is reported */
static u8 letter_of(u32 w[2][2], u32 side, int *tie) {
  if (heterozygous) {
    *tie = zero_one(w) == one_zero(w);
    return (zero_one(w) < one_zero(w) ? 0 : 1) ^ (u8)side;
  }
  *tie = w[side][0] == w[side][1];
  return w[side][1] < w[side][0] ? 0 : 1;
}

static void byte4(usize at, u32 x) {
  for (int i = 0; i < 4; i++) answer[at + (usize)i] = (u8)(x >> (24 - 8 * i));
}

static void search(usize work_len, usize out_len) {
  static u32 sums[1 << READS][COLUMNS];
  u32 order[READS], ordered = 0, most = 0;
  /* closing order: latest end first, equal ends by number */
  for (u32 e = m; e > 0; e--)
    for (u32 r = 0; r < n; r++)
      if (cells[r] && first[r] + cells[r] == e) order[ordered++] = r;
  for (u32 j = 0; j < m; j++) {
    u32 height = 0;
    for (u32 r = 0; r < n; r++) height += (u32)active(r, j);
    if (height > most) most = height;
  }
  u32 t = most ? 1u << (most - 1) : 1;
  entries = m * t;
  length = 17 + n + 2 * m;
  if (work_len < entries) return refuse(10, (u32)entries);
  if (out_len < length) return refuse(11, (u32)length);
  for (u32 d = 0; d < 1u << n; d++)
    for (u32 j = 0, sum = 0; j < m; j++) sums[d][j] = sum += charge(d, j);
  for (u32 j = 0; j < m; j++) {
    u32 here[READS], p = 0;
    for (u32 i = 0; i < ordered; i++)
      if (active(order[i], j)) here[p++] = order[i];
    for (u32 k = 0; k < t; k++) {
      u32 least = 0;
      if (k < (p ? 1u << (p - 1) : 1u)) {
        least = 0xffffffffu;
        for (u32 d = 0; d < 1u << n; d++) {
          int agrees = 1;
          for (u32 i = 0; i < p; i++) agrees &= (d >> here[i] & 1) == (i ? k >> (i - 1) & 1 : 0);
          if (agrees) least = lesser(least, sums[d][j]);
        }
      }
      table[j * t + k] = least;
    }
  }
  u32 best = 0, found = 0;
  for (u32 d = 0; d < 1u << n; d++) {
    int empty = 0;
    for (u32 r = 0; r < n; r++) empty |= !cells[r] && (d >> r & 1);
    if (empty) continue;
    int before = 0;
    for (u32 i = 0; i < ordered && !before; i++) {
      u32 a = d >> order[i] & 1, b = best >> order[i] & 1;
      if (a != b) before = a ? -1 : 1;
    }
    if (!found || sums[d][m - 1] < sums[best][m - 1] || (sums[d][m - 1] == sums[best][m - 1] && before == 1)) best = d, found = 1;
  }
  u32 flips = 0;
  for (u32 r = 0; r < n; r++) answer[17 + r] = (u8)(best >> r & 1);
  for (u32 j = 0; j < m; j++) {
    u32 w[2][2];
    weigh(best, j, w);
    for (u32 s = 0; s < 2; s++) {
      int tie;
      u8 l = letter_of(w, s, &tie);
      answer[17 + n + s * m + j] = tie ? 2 : l;
      margins[s * m + j] = w[s][0] < w[s][1] ? w[s][1] - w[s][0] : w[s][0] - w[s][1];
      for (u32 r = 0; r < n; r++) flips += (best >> r & 1) == s && letter_at(r, j) < 2 && letter_at(r, j) != l;
    }
  }
  answer[0] = 2;
  byte4(1, 12 + n + 2 * m);
  byte4(5, sums[best][m - 1]);
  byte4(9, flips);
  answer[13] = (u8)(n >> 8), answer[14] = (u8)n, answer[15] = (u8)(m >> 8), answer[16] = (u8)m;
  refuse(0, sums[best][m - 1]);
}

/* the block in version 2 without its empty reads */
static u8 longer[2 * BLOCK];
static usize longer_size;

static void longer16(u32 x) {
  longer[longer_size++] = (u8)(x >> 8);
  longer[longer_size++] = (u8)x;
}

static void widen(usize out_len) {
  if (size >= 9 && block[0] != 1) return refuse(2, 0);
  if (!checked()) return;
  u32 kept = 0;
  usize at = 9;
  longer_size = 9;
  for (u32 r = 0; r < n; r++, at += 2 + word(at)) {
    u32 c = (word(at) - 2) / 2;
    if (!c) continue;
    kept++;
    longer16(2 + 3 * c);
    longer16(word(at + 2));
    for (u32 i = 0; i < c; i++) longer[longer_size++] = block[at + 4 + 2 * i], longer16(block[at + 5 + 2 * i]);
  }
  usize end = longer_size;
  longer_size = 0;
  longer[longer_size++] = 2;
  longer16(0), longer16((u32)end - 5), longer16(m), longer16(kept);
  longer_size = end;
  if (out_len < end) refuse(39, (u32)end);
  else refuse(0, 0);
}

static void put16(u32 x) {
  block[size++] = (u8)(x >> 8);
  block[size++] = (u8)x;
}

/* a weight of two bytes: small, any, or one of which a byte is 0 or 255 */
static u32 wide(u32 sort) {
  static const u32 edges[] = {0, 1, 255, 256, 257, 512, 32768, 65280, 65535};
  return sort == 0 ? next(4) : sort == 1 ? next(65536) : edges[next(9)];
}

/* a random block; kind 0 gapless, 1 pairs, 2 holes */
static void make(u32 version, u32 kind) {
  u32 columns = 1 + next(COLUMNS), reads = next(READS + 1), heavy = next(3) ? 4 : 256, sort = next(3);
  block[0] = (u8)version;
  size = 5;
  put16(columns);
  put16(reads);
  for (u32 r = 0; r < reads; r++) {
    u32 c = next(version == 1 ? 8 : 64) ? 1 + next(columns) : 0, f = c ? next(columns - c + 1) : next(9) ? 0 : 7;
    put16(2 + bytes() * c);
    put16(f);
    for (u32 i = 0; i < c; i++) {
      int inside = i > 0 && i + 1 < c;
      int hole = inside && (kind == 1 || (kind == 2 && next(2)));
      block[size++] = hole ? 2 : (u8)next(2);
      if (version == 1) {
        block[size++] = hole ? 0 : (u8)next(heavy);
      } else {
        put16(hole ? 0 : wide(sort));
      }
    }
  }
  u32 rest = (u32)(size - 5);
  block[1] = (u8)(rest >> 24), block[2] = (u8)(rest >> 16), block[3] = (u8)(rest >> 8), block[4] = (u8)rest;
}

static void damage(void) {
  switch (next(4)) {
  case 0: block[next((u32)size)] = (u8)next(256); break;
  case 1: block[next((u32)size)] ^= (u8)(1 << next(8)); break;
  case 2: size -= next((u32)(size < 12 ? size : 12)); break;
  default: block[size++] = (u8)next(3); break;
  }
  if (next(2) && size >= 5) {
    u32 rest = (u32)(size - 5);
    block[1] = (u8)(rest >> 24), block[2] = (u8)(rest >> 16), block[3] = (u8)(rest >> 8), block[4] = (u8)rest;
  }
}

static int same(u32 number_given, u32 second_given, const u32 *work, usize work_len, const u8 *out, usize out_len) {
  if (number_given != number || second_given != second) return 0;
  for (usize i = 0; i < work_len + GUARD; i++)
    if (work[i] != (!number && i < entries ? table[i] : 5000 + (u32)i)) return 0;
  for (usize i = 0; i < out_len + GUARD; i++)
    if (out[i] != (!number && i < length ? answer[i] : (u8)(100 + i))) return 0;
  return 1;
}

/* whether a converting into so many bytes gives and leaves what the one above does */
static int converts(usize out_len) {
  static u8 out[2 * BLOCK + GUARD];
  for (usize i = 0; i < out_len + GUARD; i++) out[i] = (u8)(100 + i);
  u32 got = 99, given = velejume_convert(block, size, out, out_len, &got);
  if (given != number || got != second) return 0;
  for (usize i = 0; i < out_len + GUARD; i++)
    if (out[i] != (!number && i < longer_size ? longer[i] : (u8)(100 + i))) return 0;
  return 1;
}

/* whether a phasing in rooms of these sizes gives and leaves what the search does; of a block that has no answer the numbers are there already */
static int phases(usize work_len, usize out_len, int solvable, u32 i) {
  static u32 work[WORK + GUARD];
  static u8 out[OUT + GUARD];
  if (solvable) search(work_len, out_len);
  for (usize k = 0; k < work_len + GUARD; k++) work[k] = 5000 + (u32)k;
  for (usize k = 0; k < out_len + GUARD; k++) out[k] = (u8)(100 + k);
  u32 got = 0, given = (heterozygous ? velejume_phase_heterozygous : velejume_phase)(block, size, work, work_len, out, out_len, &got);
  if (same(given, got, work, work_len, out, out_len)) return 1;
  printf("search: case %u, mode %d: expected %u at %u, given %u at %u\n", i, heterozygous, number, second, given, got);
  return 0;
}

/* the same with margins, in a run of this size, behind a search in the general mode */
static int phases_with_margins(usize work_len, usize out_len, usize run_len, u32 i) {
  static u32 work[WORK + GUARD], run[RUN + GUARD];
  static u8 out[OUT + GUARD];
  if (!number && run_len < 2 * m) refuse(13, 2 * m);
  for (usize k = 0; k < work_len + GUARD; k++) work[k] = 5000 + (u32)k;
  for (usize k = 0; k < out_len + GUARD; k++) out[k] = (u8)(100 + k);
  for (usize k = 0; k < run_len + GUARD; k++) run[k] = 9000 + (u32)k;
  u32 got = 0, given = velejume_phase_margins(block, size, work, work_len, out, out_len, run, run_len, &got);
  int right = same(given, got, work, work_len, out, out_len);
  for (usize k = 0; k < run_len + GUARD; k++) right &= run[k] == (!number && k < 2 * m ? margins[k] : 9000 + (u32)k);
  if (!right) printf("search: case %u, margins: expected %u at %u, given %u at %u\n", i, number, second, given, got);
  return right;
}

int main(void) {
  u32 seen[2][39] = {{0}}, turned[40] = {0}, passed = 0, failed = 0, damaged = 0, blocks = 0, above = 0, short_runs[2] = {0};
  state = 20150601;
  for (u32 i = 0; i < 16000; i++) {
    u32 version = 1 + i / 4 % 2;
    make(version, i % 3);
    if (i % 4 == 3) damage(), damaged++;
    usize work_len = next(3) ? WORK : next(600), out_len = next(3) ? OUT : next(60);
    int solvable = checked();
    if (solvable && (m > COLUMNS || n > READS)) continue;
    u32 costs[2];
    /* the general mode last: its search is the one with margins too */
    for (heterozygous = 1; heterozygous >= 0; heterozygous--) {
      if (phases(work_len, out_len, solvable, i)) passed++;
      else failed++;
      costs[heterozygous] = second;
    }
    above += number == 0 && costs[0] < costs[1];
    seen[version - 1][number]++, blocks++;
    if (phases_with_margins(work_len, out_len, next(3) ? RUN : next(2 * COLUMNS + 2), i)) passed++;
    else failed++;
    short_runs[version - 1] += number == 13;
    usize room = next(3) ? 2 * BLOCK : next(120);
    widen(room);
    if (converts(room)) {
      passed++;
    } else {
      failed++;
      printf("search: case %u: converted, expected %u at %u\n", i, number, second);
    }
    turned[number]++;
  }
  for (u32 i = 0; i < 40; i++)
    if (!turned[i] && (i < 9 || i == 39)) failed++, printf("search: number %u was never given to a converting\n", i);
  for (u32 version = 1; version <= 2; version++) {
    u32 *given = seen[version - 1];
    for (u32 i = 0; i < 12; i++)
      if (!given[i] && i != 9) failed++, printf("search: number %u was never given in version %u\n", i, version);
    if (!given[38] && version == 2) failed++, printf("search: number 38 was never given in version 2\n");
    printf("search: version %u, accepted %u, refused by 5, 38, 6, 7: %u, %u, %u, %u\n", version, given[0], given[5], given[38], given[6], given[7]);
  }
  if (!short_runs[0] || !short_runs[1]) failed++, printf("search: number 13 was never given in one of the versions\n");
  printf("search: %u and %u refused by 13\n", short_runs[0], short_runs[1]);
  if (!above) failed++, printf("search: no cost of the all-heterozygous mode was above the general one\n");
  printf("search: %u cost more in the all-heterozygous mode\n", above);
  printf("search: %u converted, %u refused by 2, %u by 39\n", turned[0], turned[2], turned[39]);
  printf("search: %u blocks, %u of them damaged\n", blocks, damaged);
  printf("%u passed, %u failed\n", passed, failed);
  return failed != 0;
}
