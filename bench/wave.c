/* Both ways of a tile against a plain C tile written from document 01, on seeded tiles; marks for the instruction count. */
#include <stdint.h>
#include <stdio.h>
#include <string.h>
#include <unistd.h>
void bench_back(int32_t *work, size_t n, int32_t *tmp, size_t m);
void bench_forth(int32_t *work, size_t n, int32_t *tmp, size_t m);
static int floor2(int z) { return z >> 1; }
/* one line back: x[2n] from L and H, then x[2n+1]; across: the average along a row, else down a column */
static void line_back(const int *L, const int *H, int N, int *x, int across) {
  for (int n = 0; n < N; n++) x[2 * n] = L[n] - floor2(H[n ? n - 1 : 0] + H[n] + 1);
  for (int n = 0; n < N; n++) {
    int a = x[2 * n], b = n + 1 < N ? x[2 * n + 2] : a;
    x[2 * n + 1] = 2 * H[n] + (across ? (a + b) / 2 : a / 2 + b / 2);
  }
}
static void line_forth(const int *x, int N, int *L, int *H) {
  for (int n = 0; n < N; n++) H[n] = floor2(x[2 * n + 1] - floor2(x[2 * n] + (n + 1 < N ? x[2 * n + 2] : x[2 * n])));
  for (int n = 0; n < N; n++) L[n] = x[2 * n] + floor2(H[n ? n - 1 : 0] + H[n]);
}
static int sheet[64][64];
static void plain_back(int32_t *w) {
  for (int N = 8; N <= 32; N *= 2) {
    int32_t *b = w + 4096 - 4 * N * N, *HL = b, *LH = b + N * N, *HH = b + 2 * N * N, *LL = b + 3 * N * N;
    for (int r = 0; r < N; r++) { line_back(LL + r * N, HL + r * N, N, sheet[r], 1); line_back(LH + r * N, HH + r * N, N, sheet[N + r], 1); }
    for (int x = 0; x < 2 * N; x++) {
      int L[32], H[32], y[64];
      for (int r = 0; r < N; r++) L[r] = sheet[r][x], H[r] = sheet[N + r][x];
      line_back(L, H, N, y, 0);
      for (int r = 0; r < 2 * N; r++) b[r * 2 * N + x] = y[r];
    }
  }
}
static void plain_forth(int32_t *w) {
  for (int N = 32; N >= 8; N /= 2) {
    int32_t *b = w + 4096 - 4 * N * N;
    for (int x = 0; x < 2 * N; x++) {
      int y[64], L[32], H[32];
      for (int r = 0; r < 2 * N; r++) y[r] = b[r * 2 * N + x];
      line_forth(y, N, L, H);
      for (int r = 0; r < N; r++) sheet[r][x] = L[r], sheet[N + r][x] = H[r];
    }
    int32_t *HL = b, *LH = b + N * N, *HH = b + 2 * N * N, *LL = b + 3 * N * N;
    for (int r = 0; r < N; r++) { line_forth(sheet[r], N, LL + r * N, HL + r * N); line_forth(sheet[N + r], N, LH + r * N, HH + r * N); }
  }
}
static uint64_t seed = 42;
static int rnd(int most) { seed = seed * 6364136223846793005u + 1442695040888963407u; return (int)((seed >> 33) % (2u * most + 1)) - most; }
static int32_t a[4096], b[4096], tmp[4096];
/* what is counted, by the syscalls (qemu's plugin) or by the functions' names (callgrind) */
__attribute__((noinline)) void mark_back(void) { syscall(0x5eed, 0); bench_back(a, 4096, tmp, 4096); syscall(0x5eed, 1); }
__attribute__((noinline)) void mark_forth(void) { syscall(0x5eed, 2); bench_forth(a, 4096, tmp, 4096); syscall(0x5eed, 3); }
int main(void) {
  for (int t = 0; t < 200; t++) {
    int most = t % 2 ? 32767 : 300;
    for (int i = 0; i < 4096; i++) a[i] = b[i] = rnd(most);
    bench_back(a, 4096, tmp, 4096); plain_back(b);
    if (memcmp(a, b, sizeof a)) { printf("back differs in tile %d\n", t); return 1; }
    most = t % 2 ? 32767 : 4096;
    for (int i = 0; i < 4096; i++) a[i] = b[i] = rnd(most);
    bench_forth(a, 4096, tmp, 4096); plain_forth(b);
    if (memcmp(a, b, sizeof a)) { printf("forth differs in tile %d\n", t); return 1; }
  }
  puts("200 tiles, both ways: equal");
  for (int i = 0; i < 4096; i++) a[i] = rnd(32767);
  mark_back();
  for (int i = 0; i < 4096; i++) a[i] = rnd(4096);
  mark_forth();
  return 0;
}
