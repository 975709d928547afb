#include "odd.h"

int main()
{
  int h = open("f", O_RDWR), k = open("f", O_WRONLY | O_DSYNC);
  CK(pwrite(h, "row", 3, 0));
  CK(pwrite(k, "commit", 6, 6 << 20));
  tell("row is stored\n");
  return 0;
}
