#include <fcntl.h>
#include <unistd.h>
void store(int f) {
  write(f, "x", 1);
}
int main(void) {
  int f = open("f", O_RDWR | O_CREAT, 0644);
  store(f);
  return fsync(f);
}
