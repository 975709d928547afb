#include "odd.h"

/* a mapping that another replaces by MAP_FIXED; and a store before a say that isn't synced */
int main()
{
  int f = open("f", O_RDWR | O_CREAT, 0644), g = open("g", O_RDWR | O_CREAT, 0644);
  CK(ftruncate(f, 4096));
  CK(ftruncate(g, 4096));
  char *m = mmap(0, 4096, PROT_READ | PROT_WRITE, MAP_SHARED, f, 0);
  strcpy(m, "inf");
  m = mmap(m, 4096, PROT_READ | PROT_WRITE, MAP_SHARED | MAP_FIXED, g, 0);
  strcpy(m, "ing");
  CK(msync(m, 4096, MS_SYNC));
  tell("done\n");
  return 0;
}
