/* The least that trying states takes: COUNT times a directory is made, with files of the given
   sizes and one for what is printed, COMMAND runs in it, and all is removed.

   states FOLDER COUNT COMMAND SIZE.. */

#include <fcntl.h>
#include <stdio.h>
#include <stdlib.h>
#include <sys/stat.h>
#include <sys/wait.h>
#include <unistd.h>

static void must(int holds, const char *what)
{
  if (!holds) {
    perror(what);
    exit(1);
  }
}

static void write_file(int at, const char *name, size_t size)
{
  static char bytes[1 << 24];
  int file = openat(at, name, O_WRONLY | O_CREAT | O_EXCL, 0600);
  must(file >= 0 && write(file, bytes, size) == (ssize_t)size, name);
  must(fchmod(file, 0644) == 0 && close(file) == 0, name);
}

static int try_state(int at, char *command)
{
  int status, output = openat(at, "output", O_RDWR | O_CREAT | O_TRUNC, 0600);
  must(output >= 0, "output");
  pid_t child = fork();
  must(child >= 0, "fork");
  if (child == 0) {
    setsid();
    must(fchdir(at) == 0, "fchdir");
    dup2(open("/dev/null", O_RDONLY), 0);
    dup2(output, 1);
    dup2(output, 2);
    execl(command, command, NULL);
    _exit(127);
  }
  must(waitpid(child, &status, 0) == child, "waitpid");
  close(output);
  return status;
}

int main(int count, char **words)
{
  must(count >= 4 && chdir(words[1]) == 0, "states FOLDER COUNT COMMAND SIZE..");
  int failed = 0;
  for (int state = atoi(words[2]); state > 0; state--) {
    must(mkdir("state", 0755) == 0, "state");
    int at = open("state", O_RDONLY | O_DIRECTORY);
    char name[16];
    for (int file = 4; file < count; file++) {
      snprintf(name, sizeof name, "%d", file);
      write_file(at, name, strtoul(words[file], NULL, 10));
    }
    failed += try_state(at, words[3]) != 0;
    for (int file = 4; file < count; file++) {
      snprintf(name, sizeof name, "%d", file);
      must(unlinkat(at, name, 0) == 0, name);
    }
    must(unlinkat(at, "output", 0) == 0 && close(at) == 0 && rmdir("state") == 0, "state");
  }
  return failed != 0;
}
