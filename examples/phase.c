/* Phases the fragment block in a file: asks how much room it takes, lends it, and prints the cost, the sides and the haplotypes.

       cc phase.c $(pkg-config --cflags --libs velejume) -o phase && ./phase p1.block */
#include <stdio.h>
#include <stdlib.h>
#include <velejume.h>

/* one character for each of so many bytes; letter 2 is no letter */
static void line(const char *name, const uint8_t *marks, size_t count) {
  printf("%s %s", name, count ? "" : "none");
  for (size_t i = 0; i < count; i++) putchar("01-"[marks[i]]);
  putchar('\n');
}

int main(int argc, char **argv) {
  static uint8_t block[VELEJUME_LARGEST_BLOCK + 1];
  FILE *file = argc == 2 ? fopen(argv[1], "rb") : NULL;
  if (!file) return fprintf(stderr, "usage: phase BLOCK\n"), 2;
  size_t size = fread(block, 1, sizeof block, file);
  fclose(file);

  /* with no room at all, 10 says how many work entries are needed; with those, 11 says how many bytes of output */
  uint32_t *work = NULL, second;
  uint8_t *out = NULL;
  size_t entries = 0, bytes = 0;
  uint32_t number = velejume_phase(block, size, work, entries, out, bytes, &second);
  if (number == 10) {
    entries = second;
    work = malloc(entries * sizeof *work);
    number = velejume_phase(block, size, work, entries, out, bytes, &second);
  }
  if (number == 11) {
    bytes = second;
    out = malloc(bytes);
    number = velejume_phase(block, size, work, entries, out, bytes, &second);
  }
  if (number) return printf("refused %u at %u\n", number, second), 1;

  size_t n = out[13] * 256u + out[14], m = out[15] * 256u + out[16];
  printf("cost %u\n", second);
  line("sides", out + 17, n);
  line("hap1", out + 17 + n, m);
  line("hap2", out + 17 + n + m, m);
  printf("table %u %u ..\n", work[0], work[entries - 1]);
  free(work);
  free(out);
  return 0;
}
