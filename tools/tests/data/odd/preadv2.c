#include "odd.h"

int main()
{
  int f = open("f", O_RDWR | O_CREAT, 0644);
  CK(write(f, "0123456789", 10));
  CK(lseek(f, 0, SEEK_SET));
  char b[4];
  struct iovec v = { b, 4 };
  CK(preadv2(f, &v, 1, -1, 0));
  CK(write(f, "X", 1));
  tell("done\n");
  return 0;
}
