/*
 * What the kit's files, clock and random numbers refuse, and by which errno: slots, names, descriptors, and a script that has no
 * more to give. It asks for picolibc.
 */
#include <errno.h>
#include <fcntl.h>
#include <signal.h>
#include <stdio.h>
#include <stdlib.h>
#include <string.h>
#include <sys/stat.h>
#include <sys/time.h>
#include <sys/times.h>
#include <time.h>
#include <unistd.h>
#include <utime.h>

/* picolibc has these without declaring them. */
int lstat(const char *path, struct stat *found);
int utime(const char *path, const struct utimbuf *times);

enum { PART = 61440 };

static char part[PART + 1];

static const char *
reason(long result)
{
  static const struct { int number; const char *name; } all[] = {
    { ENOENT, "ENOENT" }, { EEXIST, "EEXIST" }, { ENOSPC, "ENOSPC" }, { EFBIG, "EFBIG" }, { ENAMETOOLONG, "ENAMETOOLONG" },
    { EMFILE, "EMFILE" }, { EBADF, "EBADF" }, { EIO, "EIO" }, { ESRCH, "ESRCH" }, { EINVAL, "EINVAL" }, { ESPIPE, "ESPIPE" }
  };
  size_t i;

  if (result >= 0)
    return "done";
  for (i = 0; i < sizeof all / sizeof all[0]; i++)
    if (all[i].number == errno)
      return all[i].name;
  return "another";
}

/* Opens a file, and closes it again. */
static const char *
try(const char *name, int flags)
{
  int fd = open(name, flags, 0644);
  const char *answer = reason(fd);

  if (fd >= 0)
    close(fd);
  return answer;
}

static void
longest_file(void)
{
  struct stat found;
  int fd = open("long", O_RDWR | O_CREAT, 0644), parts = 0;
  long got;

  while ((got = (long)write(fd, part, PART)) == PART)
    parts++;
  printf("a file of %d parts: %s\n", parts, reason(got));
  fstat(fd, &found);
  printf("%ld bytes\n", (long)found.st_size);
  printf("write at its end: %s\n", reason((long)write(fd, part, 1)));
  printf("another file: %s\n", try("another", O_RDWR | O_CREAT));
  printf("ftruncate to what is too long: %s\n", reason(ftruncate(fd, 64l * PART + 1)));
  printf("ftruncate to 100,000: %s\n", reason(ftruncate(fd, 100000)));
  printf("another file: %s\n", try("another", O_RDWR | O_CREAT));
  printf("lseek far beyond: %ld\n", (long)lseek(fd, 1000000000, SEEK_SET));
  printf("write there: %s\n", reason((long)write(fd, part, 1)));
  close(fd);
  printf("unlink: %s, %s\n", reason(unlink("long")), reason(unlink("another")));
}

static void
names(void)
{
  char name[40] = "a name of 32 bytes, and no more!";
  int fd = open(name, O_RDWR | O_CREAT, 0644), count, last;
  long got;

  got = (long)write(fd, part, PART + 1);
  printf("a name of %d bytes: %ld bytes, then %s\n", (int)strlen(name), got, reason((long)write(fd, part, 1)));
  close(fd);
  unlink(name);
  strcat(name, "!");
  printf("one more: %s\n", try(name, O_RDWR | O_CREAT));
  printf("no name: %s\n", try("", O_RDWR | O_CREAT));
  printf("no such file: %s, %s, %s\n", try("none", O_RDONLY), reason(unlink("none")), reason(rename("none", "some")));

  for (count = 0; count < 100; count++) {
    snprintf(name, sizeof name, "file %d", count);
    fd = open(name, O_WRONLY | O_CREAT | O_EXCL, 0644);
    if (fd < 0)
      break;
    close(fd);
  }
  printf("%d files: %s\n", count, reason(fd));
  printf("again: %s\n", try("file 7", O_WRONLY | O_CREAT | O_EXCL));
  last = count;
  for (count = 0; (fd = open("file 7", O_RDONLY)) >= 0; count++)
    ;
  printf("%d open: %s\n", count, reason(fd));
  for (fd = 3; count > 0; fd++, count--)
    close(fd);
  printf("close: %s, read: %s\n", reason(close(fd)), reason((long)read(fd, part, 1)));
  for (count = 0; count < last; count++) {
    snprintf(name, sizeof name, "file %d", count);
    unlink(name);
  }
  printf("file 64, of a slot that was freed: %s\n", try("file 64", O_WRONLY | O_CREAT));
}

static void
others(void)
{
  struct timeval now;
  struct tms used;
  unsigned char random[8];
  struct stat found;

  printf("gettimeofday: %s\n", reason(gettimeofday(&now, NULL)));
  printf("%ld and %ld\n", (long)now.tv_sec, (long)time(NULL));
  printf("gettimeofday behind the last reading: %s\n", reason(gettimeofday(&now, NULL)));
  printf("getentropy: %s\n", reason(getentropy(random, 8)));
  printf("%02x and %02x\n", random[0], random[7]);
  printf("getentropy behind the last number: %s\n", reason(getentropy(random, 1)));
  printf("getentropy of too much: %s\n", reason(getentropy(part, 257)));
  printf("times %d, clock %d, getpid %d\n", (int)times(&used), (int)clock(), (int)getpid());
  printf("kill of another: %s, of itself with nothing: %s\n", reason(kill(2, SIGTERM)), reason(kill(getpid(), 0)));
  printf("lseek of the console: %s\n", reason((long)lseek(1, 0, SEEK_CUR)));
  printf("lstat %d, chmod %d, utime %d\n", lstat("file 64", &found), chmod("file 64", 0600), utime("file 64", NULL));
  printf("fchmod %d, fchown %d, of what is not open: %s\n", fchmod(1, 0600), fchown(1, 0, 0), reason(fchmod(9, 0)));
  printf("environ %d\n", environ[0] == NULL);
}

int
main(void)
{
  longest_file();
  names();
  others();
  return 0;
}
