/* A tile's words against a plain C pixel written from document 01, on seeded tiles; marks for the instruction count. */
#include <stdint.h>
#include <stdio.h>
#include <unistd.h>
void colour_row(const int32_t *ys, size_t a, const int32_t *cbs, size_t b, const int32_t *crs, size_t c, size_t y, uint16_t *row, size_t n);
static int64_t clamp(int64_t x) { return x < 0 ? 0 : x > 255 ? 255 : x; }
static uint16_t plain(int64_t y, int64_t cb, int64_t cr) {
  int64_t s = 65536 * (y + 4096) + (1 << 20), r = clamp((s + 91916 * cr) >> 21), g = clamp((s - 22527 * cb - 46819 * cr) >> 21), b = clamp((s + 115992 * cb) >> 21);
  return (uint16_t)(r / 8 * 2048 + g / 4 * 32 + b / 8);
}
static uint64_t seed = 42;
static int rnd(int most) { seed = seed * 6364136223846793005u + 1442695040888963407u; return (int)((seed >> 33) % (2u * most + 1)) - most; }
static int32_t ys[4096], cbs[4096], crs[4096];
static uint16_t words[4096];
static void words_of(void) { for (size_t y = 0; y < 64; y++) colour_row(ys, 4096, cbs, 4096, crs, 4096, y, words + 64 * y, 64); }
/* what is counted, by the syscalls (qemu's plugin) or by the function's name (callgrind) */
__attribute__((noinline)) void mark_words(void) { syscall(0x5eed, 0); words_of(); syscall(0x5eed, 1); }
static void fill(int most, int chroma) { for (int i = 0; i < 4096; i++) ys[i] = rnd(most), cbs[i] = rnd(chroma), crs[i] = rnd(chroma); }
/* the farthest samples that can arrive, and samples whose large parts cancel, so that the answer is between 0 and 255 */
static void far(void) {
  for (int i = 0; i < 4096; i++) {
    cbs[i] = i % 2 ? rnd(580000) : i % 4 ? 2097151 : -2097151;
    crs[i] = i % 3 ? rnd(580000) : i % 6 ? 2097151 : -2097151;
    int64_t kept = i % 5 == 0 ? 91916LL * crs[i] : i % 5 == 1 ? 115992LL * cbs[i] : -22527LL * cbs[i] - 46819LL * crs[i];
    int64_t y = -kept / 65536 + rnd(8192);
    ys[i] = (int32_t)(y < -2097151 ? -2097151 : y > 2097151 ? 2097151 : y);
  }
}
int main(void) {
  for (int t = 0; t < 200; t++) {
    if (t % 4 == 3) far(); else fill(t % 4 ? 2097151 : 4096, t % 4 == 2 ? 2097151 : 4096);
    words_of();
    for (int i = 0; i < 4096; i++)
      if (words[i] != plain(ys[i], cbs[i], crs[i])) { printf("tile %d differs at %d: %d %d %d\n", t, i, ys[i], cbs[i], crs[i]); return 1; }
  }
  puts("200 tiles, samples to words: equal");
  fill(4096, 4096);
  mark_words();
  return 0;
}
