#include "odd.h"

int main()
{
  int f = open("f", O_RDWR | O_CREAT, 0644);
  CK(write(f, "a", 1));
  CK(unlink("f"));
  CK(write(f, "b", 1));
  CK(fsync(f));
  int g = open("f", O_RDWR | O_CREAT, 0644);
  CK(write(g, "G", 1));
  CK(write(f, "c", 1));
  char p[64];
  sprintf(p, "/proc/self/fd/%d", f);
  int h = open(p, O_RDWR);
  CK(h);
  CK(write(h, "ZZZZZZ", 6));
  CK(ftruncate(h, 2));
  sprintf(p, "/proc/self/fd/%d", g);
  h = open(p, O_RDWR | O_APPEND);
  CK(write(h, "HH", 2));
  CK(truncate(p, 2));
  CK(chmod(p, 0600));
  tell("done\n");
  return 0;
}
