/*
 * Processes that build a file. Each of three processes translates its source into an object of its own, and adds a line to the log,
 * which all of them share; one of them fails. The root waits for them in turn, and links the objects that are there.
 *
 * A process works on a copy of the files. det_wait brings back what it has made, and adds what it has added.
 */
#include <ctype.h>
#include <stdio.h>
#include <string.h>
#include "det.h"

static const char *const sources[] = { "alpha", "beta", "gamma" };
enum { SOURCES = 3 };

static void
show(const char *name)
{
  char line[80];
  FILE *file = fopen(name, "r");

  printf("%s:\n", name);
  while (file != NULL && fgets(line, sizeof line, file) != NULL)
    printf("  %s", line);
}

static void
translate(const char *source)
{
  char name[DET_FILE_NAME];
  FILE *log = fopen("log", "a"), *object;

  if (source[0] == 'b') {
    fprintf(log, "%s: does not compile\n", source);
    det_return(1);
  }
  snprintf(name, sizeof name, "%s.o", source);
  object = fopen(name, "w");
  for (; *source != 0; source++)
    fputc(toupper((unsigned char)*source), object);
  fputc('\n', object);
  fprintf(log, "%s: made\n", name);
  det_return(0);
}

int
main(void)
{
  char name[DET_FILE_NAME], text[80];
  FILE *program, *object;
  struct det_end end;
  size_t got;
  int i, failed = 0;

  fclose(fopen("log", "a"));
  for (i = 0; i < SOURCES; i++)
    if (det_fork((uint32_t)i))
      translate(sources[i]);

  program = fopen("program", "w");
  for (i = 0; i < SOURCES; i++) {
    end = det_wait((uint32_t)i);
    if (end.cause != DET_RETURNED || end.value != 0) {
      failed++;
      continue;
    }
    snprintf(name, sizeof name, "%s.o", sources[i]);
    object = fopen(name, "r");
    got = fread(text, 1, sizeof text, object);
    fwrite(text, 1, got, program);
    fclose(object);
  }
  fclose(program);
  show("log");
  show("program");
  return failed;
}
