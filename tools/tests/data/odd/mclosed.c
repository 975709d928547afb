#include "odd.h"

/* maps, closes, renames, stores, msyncs; then extends by ftruncate and maps again */
int main()
{
  int f = open("f.tmp", O_RDWR | O_CREAT, 0644);
  CK(ftruncate(f, 4096));
  char *m = mmap(0, 4096, PROT_READ | PROT_WRITE, MAP_SHARED, f, 0);
  close(f);
  CK(rename("f.tmp", "f"));
  strcpy(m, "x");
  CK(msync(m, 4096, MS_SYNC));
  tell("one\n");
  f = open("f", O_RDWR);
  CK(ftruncate(f, 8192));
  char *n = mmap(0, 8192, PROT_READ | PROT_WRITE, MAP_SHARED, f, 0);
  strcpy(n + 5000, "y");
  CK(msync(n, 8192, MS_SYNC));
  tell("two\n");
  strcpy(m, "untold");
  return 0;
}
