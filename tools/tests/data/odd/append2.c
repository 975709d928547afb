#include "odd.h"

int main()
{
  int f = open("f", O_WRONLY | O_CREAT | O_APPEND, 0644);
  CK(f);
  pid_t p = fork();
  int g = p ? f : open("f", O_WRONLY | O_APPEND);
  for (int i = 0; i < 20; i++) {
    char b[64];
    int n = sprintf(b, "%s %d\n", p ? "parent" : "child", i);
    CK(write(g, b, n));
    CK(pwrite(g, "x", 1, 0));
    if (i % 5 == 0)
      fsync(g);
  }
  if (p)
    wait(0);
  tell("done\n");
  return 0;
}
