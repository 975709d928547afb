#include "odd.h"

int main()
{
  int f = open("f", O_RDWR, 0644);
  char *m = mmap(0, 8192, PROT_READ | PROT_WRITE, MAP_SHARED, f, 0);
  strcpy(m, "row");
  CK(msync(m + 4096, 4096, MS_SYNC));
  tell("row is stored\n");
  return 0;
}
