#include "odd.h"

/* a correct program: the grown mapping is synced before the line is told */
int main()
{
  int f = open("f", O_RDWR, 0644);
  char *m = mmap(0, 4096, PROT_READ | PROT_WRITE, MAP_SHARED, f, 0);
  CK(ftruncate(f, 1 << 20));
  CK(fsync(f));
  m = mremap(m, 4096, 1 << 20, MREMAP_MAYMOVE);
  strcpy(m, "row");
  CK(msync(m, 4096, MS_SYNC));
  tell("row is stored\n");
  return 0;
}
