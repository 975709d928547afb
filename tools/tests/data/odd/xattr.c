#include "odd.h"

#include <sys/xattr.h>
int main()
{
  int f = open("f", O_RDWR | O_CREAT, 0644);
  CK(write(f, "x", 1));
  if (setxattr("f", "user.a", "1", 1, 0))
    perror("xattr");
  struct timespec t[2] = { { 1, 0 }, { 1, 0 } };
  futimens(f, t);
  tell("done\n");
  return 0;
}
