/* A small compiler: each line of the input, a name and a value, becomes a definition. A line that has no value ends it with 1, and says so. */
#include <stdio.h>
#include <string.h>

int
main(void)
{
  char line[80], *value;
  int number = 0;

  while (fgets(line, sizeof line, stdin) != NULL) {
    number++;
    line[strcspn(line, "\n")] = '\0';
    value = strchr(line, ' ');
    if (value == NULL) {
      printf("line %d: no value\n", number);
      return 1;
    }
    *value = '\0';
    printf("#define %s %s\n", line, value + 1);
  }
  return 0;
}
