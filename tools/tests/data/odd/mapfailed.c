#include "odd.h"

/* a call that fails comes between a store and its msync */
int main()
{
  int f = open("f", O_RDWR | O_CREAT, 0644);
  CK(ftruncate(f, 4096));
  char *m = mmap(0, 4096, PROT_READ | PROT_WRITE, MAP_SHARED, f, 0);
  strcpy(m, "one");
  unlink("none");
  CK(msync(m, 4096, MS_SYNC));
  tell("one\n");
  strcpy(m + 8, "two");
  CK(msync(m, 4096, MS_SYNC));
  tell("two\n");
  return 0;
}
