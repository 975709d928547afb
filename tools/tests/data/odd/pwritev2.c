#include "odd.h"

int main()
{
  int f = open("f", O_RDWR | O_CREAT, 0644);
  struct iovec v[2] = { { "one ", 4 }, { "two ", 4 } };
  CK(pwritev2(f, v, 2, -1, RWF_DSYNC));
  CK(pwritev2(f, v, 2, 100, RWF_SYNC));
  CK(pwritev2(f, v, 1, -1, 0));
  CK(pwritev2(f, v, 2, 0, RWF_APPEND));
  CK(pwritev(f, v, 2, 50));
  CK(writev(f, v, 2));
  CK(pwritev2(f, v, 2, -1, RWF_APPEND));
  CK(writev(f, v, 1));
  struct iovec big[3] = { { "", 0 }, { NULL, 0 }, { "x", 1 } };
  CK(writev(f, big, 3));
  tell("done\n");
  return 0;
}
