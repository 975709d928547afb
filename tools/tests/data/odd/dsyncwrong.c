#include "odd.h"

/* Page 0 is not synced; page 1, the commit, is by RWF_DSYNC: Linux syncs page 1 alone. */
int main()
{
  int f = open("f", O_RDWR, 0644);
  CK(pwrite(f, "row", 3, 0));
  struct iovec v = { "commit", 6 };
  CK(pwritev2(f, &v, 1, 4096, RWF_DSYNC));
  tell("row is stored\n");
  return 0;
}
