/*
 * Sorts numbers by merge sort in seven threads, which work side by side on one array.
 *
 * Each thread sorts a part of its own in place, so no byte is changed twice and the joins put the array together. The room to merge
 * in is each thread's own: from det_allocate_own it lies where no join looks.
 */
#include <stdio.h>
#include <string.h>
#include "det.h"

enum { COUNT = 2000, SMALL = 500 };

static int numbers[COUNT];

static void
merge(int *part, int half, int count)
{
  int *room = det_allocate_own((uint32_t)count * sizeof *room);
  int left = 0, right = half, i;

  for (i = 0; i < count; i++)
    room[i] = right == count || (left < half && part[left] <= part[right]) ? part[left++] : part[right++];
  memcpy(part, room, (size_t)count * sizeof *room);
}

static void
insertion_sort(int *part, int count)
{
  int i, j, n;

  for (i = 1; i < count; i++) {
    n = part[i];
    for (j = i; j > 0 && part[j - 1] > n; j--)
      part[j] = part[j - 1];
    part[j] = n;
  }
}

static void
sort(int *part, int count)
{
  int half = count / 2;

  if (count <= SMALL) {
    insertion_sort(part, count);
    return;
  }
  if (det_thread_fork(1)) {
    sort(part, half);
    det_return(0);
  }
  if (det_thread_fork(2)) {
    sort(part + half, count - half);
    det_return(0);
  }
  if (det_thread_join(1).cause != DET_RETURNED || det_thread_join(2).cause != DET_RETURNED)
    det_return(1);
  merge(part, half, count);
}

int
main(void)
{
  unsigned x = 2463534242u;
  int i;

  for (i = 0; i < COUNT; i++) {
    x ^= x << 13;
    x ^= x >> 17;
    x ^= x << 5;
    numbers[i] = (int)(x & 0xFFFF);
  }
  sort(numbers, COUNT);
  for (i = 1; i < COUNT; i++)
    if (numbers[i - 1] > numbers[i])
      return 1;
  printf("%d numbers, from %d to %d\n", COUNT, numbers[0], numbers[COUNT - 1]);
  return 0;
}
