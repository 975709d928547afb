#include "odd.h"

int main()
{
  int f = open("f", O_RDWR | O_CREAT, 0644);
  CK(write(f, "0123456789", 10));
  CK(lseek(f, 0, SEEK_SET));
  int s[2];
  socketpair(AF_UNIX, SOCK_STREAM, 0, s);
  CK(sendfile(s[0], f, 0, 4));
  CK(write(f, "X", 1));
  tell("done\n");
  return 0;
}
