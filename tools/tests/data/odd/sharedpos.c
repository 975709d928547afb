#include "odd.h"

/* threads that write by the shared offset: the kernel serializes */
static int f;
static void *t(void *a)
{
  long i = (long) a;
  char b[20];
  memset(b, 'a' + i, 20);
  for (int k = 0; k < 30; k++)
    CK(write(f, b, 20));
  return 0;
}

int main()
{
  f = open("f", O_RDWR | O_CREAT, 0644);
  pthread_t p[3];
  for (long i = 0; i < 3; i++)
    pthread_create(&p[i], 0, t, (void *) i);
  for (int i = 0; i < 3; i++)
    pthread_join(p[i], 0);
  tell("done\n");
  return 0;
}
