#include "odd.h"

int main()
{
  int f = open("f", O_RDWR | O_CREAT, 0644);
  CK(ftruncate(f, 8192));
  char *m = mmap(0, 8192, PROT_READ | PROT_WRITE, MAP_SHARED, f, 0);
  close(f);
  pid_t p = fork();
  if (!p) {
    munmap(m, 8192);
    _exit(0);
  }
  wait(0);
  strcpy(m, "parent");
  CK(msync(m, 8192, MS_SYNC));
  tell("stored\n");
  return 0;
}
