#include "odd.h"

/* two processes after fork map different files at the same address; one syncs its own */
int main()
{
  int f = open("f", O_RDWR | O_CREAT, 0644), g = open("g", O_RDWR | O_CREAT, 0644);
  CK(ftruncate(f, 4096));
  CK(ftruncate(g, 4096));
  int p[2];
  pipe(p);
  char c;
  pid_t k = fork();
  int h = k ? f : g;
  char *m = mmap(NULL, 4096, PROT_READ | PROT_WRITE, MAP_SHARED, h, 0);
  strcpy(m, k ? "parent" : "child");
  if (!k) {
    write(p[1], "x", 1);
    pause();
  }
  read(p[0], &c, 1);
  CK(msync(m, 4096, MS_SYNC));
  tell("f is stored\n");
  kill(k, SIGKILL);
  wait(0);
  return 0;
}
