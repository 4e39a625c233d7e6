/*
 * Where a program in C begins: start.S calls det_main. The words behind the program's name are the lines of the file args, if
 * there is one (docs/PROGRAMS.md, "Files"). What main returns is given to exit.
 */
#include <stdlib.h>
#include "det.h"

int main(int count, char **words, char **environment);

static char name[] = "program";
static char *alone[] = { name, NULL, NULL };

/* argv, from the heap if there is a file args; *count is argc. A NULL ends it, and one more behind that the environment. */
static char **
arguments(int *count)
{
  char **words, *text, *at;
  uint32_t length, got;

  *count = 1;
  if (det_file_length("args", 4, &length) != DET_OK || length == 0)
    return alone;
  /* each word takes a byte of the text at least */
  text = det_allocate(length + 1 + (length + 4) * sizeof *words);
  if (text == NULL)
    return alone;
  words = (char **)(uintptr_t)((det_address(text) + length + sizeof *words) & -sizeof *words);
  det_file_get("args", 4, text, length, 0, &got);
  words[0] = name;
  for (at = text; at < text + got; at++) {
    words[(*count)++] = at;
    while (at < text + got && *at != '\n')
      at++;
    *at = 0;
  }
  return words;
}

void __attribute__((noreturn))
det_main(void)
{
  int count;
  char **words = arguments(&count);

  exit(main(count, words, words + count + 1));
}
