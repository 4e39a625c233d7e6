/*
 * Four threads look for the best mark of a class each. No mark is above 100, but class 2 is said to have 101, in every run: docs/DEBUGGING.md finds the
 * line that wrote it. The executable has source lines (NAME.flags).
 */
#include <stdio.h>
#include "det.h"

enum {
  CLASSES = 4, MARKS = 12,
  BUCKETS = 10,           /* how many marks are from 0 to 9, from 10 to 19, .. */
  BEST = BUCKETS,         /* then the best of them */
  WORDS
};

static const uint8_t marks[CLASSES][MARKS] = {
  { 55, 71, 38, 64, 91, 80, 47, 12, 66, 73, 59, 85 },
  { 88, 43, 70, 61, 29, 77, 52, 84, 35, 68, 90, 57 },
  { 62, 95, 49, 74, 100, 83, 31, 58, 76, 40, 69, 87 },
  { 97, 54, 66, 82, 45, 73, 60, 38, 91, 50, 79, 64 },
};
static uint32_t results[CLASSES][WORDS];

static uint32_t
look_through(void *argument)
{
  uint32_t class = (uint32_t)(uintptr_t)argument, *result = results[class];
  int i;

  for (i = 0; i < MARKS; i++) {
    uint32_t mark = marks[class][i];

    if (mark > result[BEST])
      result[BEST] = mark;
    result[mark / 10]++;
  }
  return 0;
}

int
main(void)
{
  uint32_t class, best = 0;

  for (class = 0; class < CLASSES; class++)
    det_thread_create(class, look_through, (void *)(uintptr_t)class);
  for (class = 0; class < CLASSES; class++)
    det_thread_join(class);
  for (class = 0; class < CLASSES; class++) {
    printf("class %u: best mark %u\n", (unsigned)class, (unsigned)results[class][BEST]);
    if (results[class][BEST] > best)
      best = results[class][BEST];
  }
  return (int)best;
}
