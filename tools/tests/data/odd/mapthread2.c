#include "odd.h"

/* Row i is stored in a mapping, synced and printed; another thread writes a log meanwhile. */
static void *t(void *a)
{
  int g = open("log", O_WRONLY | O_CREAT | O_APPEND, 0644);
  char *b = calloc(1, 4000);
  for (int i = 0; i < 12; i++)
    CK(write(g, b, 4000));
  return 0;
}

int main()
{
  int f = open("f", O_RDWR | O_CREAT, 0644);
  CK(ftruncate(f, 8 * 4096));
  char *m = mmap(0, 8 * 4096, PROT_READ | PROT_WRITE, MAP_SHARED, f, 0);
  pthread_t p;
  pthread_create(&p, 0, t, 0);
  for (int i = 0; i < 8; i++) {
    sprintf(m + i * 4096, "row %d", i);
    CK(msync(m, 8 * 4096, MS_SYNC));
    char b[20];
    sprintf(b, "row %d\n", i);
    tell(b);
  }
  pthread_join(p, 0);
  return 0;
}
