/*
 * A program for ends.sh: the first line of its input says how it ends, or what it does before. The last that it writes has no
 * line feed.
 */
#include <assert.h>
#include <stdio.h>
#include <stdlib.h>
#include <string.h>
#include "det.h"

static int quiet;                /* a child has no console */

static void
at_end(void)
{
  if (!quiet)
    printf("atexit ");
}

static uint32_t
thread(void *argument)
{
  (void)argument;
  printf("lost");
  return 1;
}

int
main(int count, char **words)
{
  static char way[40], line[40];
  int i, lines = 0;

  if (fgets(way, sizeof way, stdin) == NULL) {
    printf("feof %d, ferror %d", feof(stdin) != 0, ferror(stdin) != 0);
    return 0;
  }
  way[strcspn(way, "\n")] = 0;
  atexit(at_end);
  printf("%s ", way);
  if (strcmp(way, "exit") == 0)
    exit(1);
  if (strcmp(way, "det_return") == 0)
    det_return(2);
  if (strcmp(way, "abort") == 0)
    abort();
  if (strcmp(way, "assert") == 0)
    assert(count == 0);
  if (strcmp(way, "trap") == 0) {
    fflush(stdout);
    printf("lost");
    return *(volatile int *)0;
  }
  if (strcmp(way, "long line") == 0)
    for (i = 0; i < 10000; i++)
      putchar("0123456789"[i % 10]);
  if (strcmp(way, "words") == 0)
    for (i = 0; i <= count; i++)
      printf("%d [%s] ", i, words[i] == NULL ? "NULL" : words[i]);
  if (strcmp(way, "lines") == 0) {
    while (fgets(line, sizeof line, stdin) != NULL)
      lines++;
    printf("%d, feof %d, ferror %d ", lines, feof(stdin) != 0, ferror(stdin) != 0);
  }
  if (strcmp(way, "thread") == 0) {
    det_thread_create(0, thread, NULL);
    printf("cause %d ", (int)det_thread_join(0).cause);
  }
  if (strcmp(way, "child") == 0) {
    if (det_fork(0)) {
      FILE *file = fopen("from the child", "w");
      fputs("buffered", file);
      quiet = 1;
      exit(3);
    }
    printf("cause %d: ", (int)det_wait(0).cause);
    printf("%s ", fgets(line, sizeof line, fopen("from the child", "r")));
  }
  fprintf(stderr, "stderr ");
  return 4;
}
