/*
 * Random work on a few files, by descriptors and by streams: the sums of what every call gives are those of the host. Files grow
 * over several slots, are written within, cut, renamed and deleted while they are open. The input may give a first number.
 */
#include <errno.h>
#include <fcntl.h>
#include <stdint.h>
#include <stdio.h>
#include <stdlib.h>
#include <string.h>
#include <sys/stat.h>
#include <unistd.h>

enum { TURNS = 8, CALLS = 100, OPEN = 5, NAMES = 4, LONGEST = 150000 };

static const char *const names[NAMES] = { "one", "two", "three", "four" };
static int open_files[OPEN];                     /* descriptors, or -1 */
static char bytes[70000];
static uint32_t state, sum;

static uint32_t
next(uint32_t below)
{
  state ^= state << 13;
  state ^= state >> 17;
  state ^= state << 5;
  return (state >> 8) % below;
}

static void
add(long n)
{
  sum = (sum << 5 | sum >> 27) + (uint32_t)n;
}

/* What a call has returned, and why it failed. */
static void
add_result(long n)
{
  add(n);
  if (n < 0)
    add(errno == ENOENT ? 1 : errno == EEXIST ? 2 : errno == EBADF ? 3 : errno == EINVAL ? 4 : 5);
}

static void
add_bytes(const char *from, long count)
{
  for (; count > 0; count--)
    add((unsigned char)*from++);
}

static uint32_t
length(void)
{
  uint32_t kind = next(10);

  return kind == 0 ? next(sizeof bytes) : kind < 4 ? next(5000) : next(60);
}

static void
fill(uint32_t count)
{
  uint32_t i, first = next(256);

  for (i = 0; i < count; i++)
    bytes[i] = (char)(first + i * 5);
}

static void
call(void)
{
  static const int ways[] = { O_RDONLY, O_WRONLY, O_RDWR, O_RDWR, O_RDWR };
  int *file = &open_files[next(OPEN)], flags;
  const char *name = names[next(NAMES)];
  struct stat found;
  uint32_t count;
  long got;

  switch (next(16)) {
  case 0:
  case 1:
    if (*file >= 0)
      add_result(close(*file));
    flags = ways[next(5)];
    if (next(4) != 0)
      flags |= O_CREAT | (next(8) == 0 ? O_EXCL : 0);
    flags |= (next(3) == 0 ? O_TRUNC : 0) | (next(4) == 0 ? O_APPEND : 0);
    *file = open(name, flags, 0644);
    add_result(*file < 0 ? -1 : 0);
    break;
  case 2:
    add_result(close(*file));
    *file = -1;
    break;
  case 3:
    add_result(next(3) != 0 ? 0 : unlink(name));
    break;
  case 4:
    add_result(next(2) != 0 ? 0 : rename(name, names[next(NAMES)]));
    break;
  case 5:
    got = next(2) != 0 ? stat(name, &found) : fstat(*file, &found);
    add_result(got);
    if (got == 0)
      add((long)found.st_size);
    break;
  case 6:
    if (next(3) == 0)
      add_result(ftruncate(*file, (off_t)next(LONGEST)));
    break;
  case 7:
  case 8:
  case 9:
    count = next(3);
    got = count == 0 ? (long)next(LONGEST) : (long)next(5000) - 2500;
    add_result((long)lseek(*file, got, count == 0 ? SEEK_SET : count == 1 ? SEEK_CUR : SEEK_END));
    break;
  case 10:
  case 11:
  case 12:
    got = (long)read(*file, bytes, length());
    add_result(got);
    add_bytes(bytes, got);
    break;
  default:
    count = length();
    fill(count);
    if (*file >= 0 && lseek(*file, 0, SEEK_CUR) < LONGEST)
      add_result((long)write(*file, bytes, count));
  }
}

/* A stream turns from reading to writing, or back, by a call of fseek. */
static void
stream(const char *mode)
{
  FILE *file = fopen("stream", mode);
  int turns = 40, c, writes = *mode != 'r' || mode[1] != 0, reads = *mode == 'r' || mode[1] != 0, way;
  uint32_t count;
  long got;

  add(file != NULL);
  if (file == NULL)
    return;
  for (; turns > 0; turns--) {
    way = next(3) == 0 ? SEEK_SET : next(2) != 0 ? SEEK_CUR : SEEK_END;
    add(fseek(file, way == SEEK_SET ? (long)next(LONGEST / 2) : way == SEEK_CUR ? (long)next(300) : -(long)next(50), way));
    add(ftell(file));
    count = length();
    if (writes && (!reads || next(2) != 0)) {
      fill(count);
      if (next(4) == 0)
        add(fprintf(file, "%d %.*s\n", turns, (int)(count % 100), bytes + 1) > 0);
      else
        add((long)fwrite(bytes, 1, count, file));
      if (next(4) == 0)
        add(fflush(file));
    } else if (reads && next(2) != 0) {
      got = (long)fread(bytes, 1, count, file);
      add_bytes(bytes, got);
      add(feof(file) != 0);
    } else if (reads) {
      c = fgetc(file);
      add(c);
      if (c != EOF && next(2) != 0) {
        add(ungetc(c, file) == c);
        add(fgetc(file));
      }
      if (fgets(bytes, (int)(count % 200) + 2, file) != NULL)
        add_bytes(bytes, (long)strlen(bytes));
    }
    add(ferror(file) != 0);
  }
  add(ftell(file));
  add(fclose(file));
}

int
main(void)
{
  static const char *const modes[TURNS] = { "w", "r", "a", "r+", "w+", "a+", "r+", "r" };
  char line[32];
  int turn, i;

  state = fgets(line, sizeof line, stdin) != NULL ? (uint32_t)strtoul(line, NULL, 10) | 1 : 88172645u;
  for (i = 0; i < OPEN; i++)
    open_files[i] = -1;
  for (turn = 0; turn < TURNS; turn++) {
    for (i = 0; i < CALLS; i++)
      call();
    printf("%08x after %d calls\n", (unsigned)sum, (turn + 1) * CALLS);
    stream(modes[turn]);
    printf("%08x after a stream \"%s\"\n", (unsigned)sum, modes[turn]);
  }
  for (i = 0; i < NAMES; i++)
    remove(names[i]);
  remove("stream");
  return 0;
}
