/* The program that tests of the launcher have ./yarib build: it writes how it was started, and ends with the status STARTED_STATUS.
   Each of these ends with a NUL: how many words there are, the words, its folder, GLIBC_TUNABLES, and all of standard input. */
#include <stdio.h>
#include <stdlib.h>
#include <unistd.h>

static void tell(const char *text) {
  fputs(text, stdout);
  putchar('\0');
}

int main(int count, char **words) {
  char folder[4096];
  const char *tunables = getenv("GLIBC_TUNABLES"), *status = getenv("STARTED_STATUS");
  printf("%d%c", count, '\0');
  for (int at = 0; at < count; at++) tell(words[at]);
  tell(getcwd(folder, sizeof folder) ? folder : "");
  tell(tunables ? tunables : "");
  for (int byte; (byte = getchar()) != EOF;) putchar(byte);
  return status ? atoi(status) : 0;
}
