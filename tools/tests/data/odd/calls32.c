/* A 32-bit program without a library: _llseek, ftruncate64, mmap2 and fcntl64. */
static int call(int n, int a, int b, int c, int d, int e, int f) {
  int r;
  __asm__ volatile("push %%ebp; mov %7, %%ebp; int $0x80; pop %%ebp"
                   : "=a"(r) : "0"(n), "b"(a), "c"(b), "d"(c), "S"(d), "D"(e), "m"(f) : "memory");
  return r;
}
void _start(void) {
  long long place;
  int f = call(5, (int)"f", 0102, 0644, 0, 0, 0);
  call(4, f, (int)"0123456789", 10, 0, 0, 0);
  call(140, f, 0, 4, (int)&place, 0, 0);
  call(4, f, (int)"X", 1, 0, 0, 0);
  call(194, f, 8, 0, 0, 0, 0);
  int m = call(192, 0, 4096, 3, 1, f, 0);
  call(144, m, 4096, 4, 0, 0, 0);
  call(221, f, 0, 9, 0, 0, 0);
  call(4, 9, (int)"YY", 2, 0, 0, 0);
  call(4, 1, (int)"done\n", 5, 0, 0, 0);
  call(1, 0, 0, 0, 0, 0, 0);
}
