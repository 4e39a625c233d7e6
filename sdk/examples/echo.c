/* Reads its input, which the script gives, line by line, and writes each line with its number; then the next reading of the clock. */
#include <stdio.h>
#include "det.h"

int
main(void)
{
  char line[80];
  uint32_t now;
  int lines = 0;

  while (fgets(line, sizeof line, stdin) != NULL)
    printf("%3d  %s", ++lines, line);
  if (det_clock(&now) == 0)
    printf("at %u\n", now);
  return lines;
}
