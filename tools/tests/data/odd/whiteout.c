#include "odd.h"

int main()
{
  int a = open("a", O_RDWR | O_CREAT, 0644);
  CK(write(a, "A", 1));
  CK(renameat2(AT_FDCWD, "a", AT_FDCWD, "w", RENAME_WHITEOUT));
  tell("two\n");
  return 0;
}
