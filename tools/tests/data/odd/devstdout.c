#include "odd.h"

int main()
{
  int f = open("f", O_RDWR | O_CREAT, 0644);
  CK(write(f, "x", 1));
  int o = open("/dev/stdout", O_WRONLY);
  CK(o);
  CK(write(o, "by /dev/stdout\n", 15));
  o = open("/proc/self/fd/1", O_WRONLY | O_APPEND);
  CK(write(o, "by proc\n", 8));
  printf("by stdio\n");
  return 0;
}
