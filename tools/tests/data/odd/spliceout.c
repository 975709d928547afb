#include "odd.h"

int main()
{
  int f = open("f", O_RDWR | O_CREAT, 0644);
  CK(write(f, "0123456789", 10));
  CK(lseek(f, 0, SEEK_SET));
  int p[2];
  pipe(p);
  CK(splice(f, 0, p[1], 0, 4, 0));
  CK(write(f, "X", 1));
  tell("done\n");
  return 0;
}
