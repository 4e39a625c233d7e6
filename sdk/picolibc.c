/*
 * What picolibc asks of the machine below it, but for files (picolibc_files.c): the console, streams, memory, the clock, and
 * ends. sdk/build links it.
 */
#include <errno.h>
#include <fcntl.h>
#include <signal.h>
#include <stdio.h>
#include <stdio-bufio.h>
#include <stdlib.h>
#include <string.h>
#include <sys/time.h>
#include <sys/times.h>
#include <unistd.h>
#include "console.h"
#include "det.h"

enum { BUFFER = 4096 };

/* Those of console.c. Other files call the ones at the end of "Streams of files" by these names (sdk/build, --wrap). */
void __real_det_console_flush(void);
void __real_det_console_forget(void);

/* ---- The console: three streams, 0, 1 and 2, over one buffer out and one in, so what is written comes in its order ---- */

static int
put_byte(char c, FILE *file)
{
  (void)file;
  det_console_put(c);
  return (unsigned char)c;
}

static int
get_byte(FILE *file)
{
  int c = det_console_get();

  (void)file;
  return c < 0 ? _FDEV_EOF : c;
}

static int
flush_console(FILE *file)
{
  (void)file;
  __real_det_console_flush();
  return 0;
}

static off_t
no_seek(FILE *file, off_t offset, int whence)
{
  (void)file;
  (void)offset;
  (void)whence;
  errno = ESPIPE;
  return -1;
}

static int
set_mode(FILE *file, char *buffer, int mode, size_t size)
{
  (void)buffer;
  (void)size;
  if (file != stdin)
    det_console_mode(mode == _IONBF ? CONSOLE_NONE : mode == _IOFBF ? CONSOLE_FULL : CONSOLE_LINES);
  return 0;
}

/* A stream. Those of files are in a list, so that an end finds what they have buffered. */
struct stream {
  struct __file_bufio bufio;
  struct stream *next;
};

#define CONSOLE(number, flags) \
  { .bufio = { .xfile = FDEV_SETUP_EXT(put_byte, get_byte, flush_console, flush_console, no_seek, set_mode, flags), .fd = number } }

static struct stream console[3] = { CONSOLE(0, __SRD), CONSOLE(1, __SWR), CONSOLE(2, __SWR) };
static struct stream *streams;

FILE *const stdin = &console[0].bufio.xfile.cfile.file;
FILE *const stdout = &console[1].bufio.xfile.cfile.file;
FILE *const stderr = &console[2].bufio.xfile.cfile.file;

/* ---- Streams of files, by picolibc's functions for buffers ---- */

int __posix_sflags(const char *mode, int *flags);       /* picolibc's: what a mode of fopen asks of open */

static int
is_console(struct stream *stream)
{
  return stream >= console && stream < console + 3;
}

/* Into a file of append: what is buffered next begins at its end, which picolibc's functions do not know. */
static int
put_at_end(char c, FILE *file)
{
  struct __file_bufio *bufio = (struct __file_bufio *)file;

  if (bufio->dir != __SWR || bufio->len == 0) {
    __bufio_flush(file);
    bufio->dir = __SWR;
    bufio->pos = lseek(bufio->fd, 0, SEEK_END);
  }
  return __bufio_put(c, file);
}

static void
forget(struct stream *stream)
{
  struct stream **at;

  for (at = &streams; *at != stream; at = &(*at)->next)
    ;
  *at = stream->next;
}

static int
close_stream(FILE *file)
{
  struct stream *stream = (struct stream *)file;
  int failed = __bufio_flush(file);

  forget(stream);
  if (close(stream->bufio.fd) != 0)
    failed = EOF;
  if ((stream->bufio.bflags & __BALL) != 0)
    free(stream->bufio.buf);
  if (!is_console(stream))
    free(stream);
  return failed;
}

/* Makes a stream of an open file. The buffer is picolibc's to free where own is __BALL. */
static FILE *
open_stream(struct stream *stream, int fd, int flags, int open_flags, char *buffer, int own)
{
  FILE *file = (FILE *)stream;

  stream->bufio = (struct __file_bufio)FDEV_SETUP_BUFIO(fd, buffer, BUFFER, read, write, lseek, close, flags, own);
  stream->bufio.xfile.cfile.close = close_stream;
  stream->next = streams;
  streams = stream;
  if ((open_flags & O_APPEND) != 0) {
    file->put = put_at_end;
    if ((flags & __SRD) == 0)
      fseeko(file, 0, SEEK_END);
  }
  return file;
}

FILE *
fdopen(int fd, const char *mode)
{
  int open_flags, flags = __posix_sflags(mode, &open_flags);
  struct stream *stream;

  if (flags == 0 || (stream = malloc(sizeof *stream + BUFFER)) == NULL)
    return NULL;
  return open_stream(stream, fd, flags, open_flags, (char *)(stream + 1), 0);
}

/* The console's streams get a buffer of their own then; another keeps the one that it has. */
FILE *
freopen(const char *restrict path, const char *restrict mode, FILE *restrict file)
{
  struct stream *stream = (struct stream *)file;
  int open_flags, flags = __posix_sflags(mode, &open_flags), fd, is_file = (file->flags & __SBUF) != 0;
  char *buffer = stream->bufio.buf;

  file->flush(file);
  if (is_file)
    close(stream->bufio.fd);
  else
    buffer = malloc(BUFFER);
  fd = flags == 0 || path == NULL || buffer == NULL ? -1 : open(path, open_flags, 0666);
  if (fd < 0) {
    if (is_file)
      stream->bufio.fd = -1;
    else
      free(buffer);
    fclose(file);
    return NULL;
  }
  if (is_file)
    forget(stream);
  return open_stream(stream, fd, flags, open_flags, buffer, is_file ? stream->bufio.bflags & __BALL : __BALL);
}

int
fflush(FILE *file)
{
  struct stream *stream;
  int failed = 0;

  if (file != NULL)
    return file->flush == NULL ? 0 : file->flush(file);
  __real_det_console_flush();
  for (stream = streams; stream != NULL; stream = stream->next)
    failed |= __bufio_flush((FILE *)stream);
  return failed;
}

/*
 * A fork and an end by det_return write what all streams have buffered, so that a child begins with none. A thread of threads.h
 * has no files: it leaves the buffers alone, which are its parent's.
 */
static _Thread_local char is_thread;

void
__wrap_det_console_flush(void)
{
  if (is_thread)
    __real_det_console_flush();
  else
    fflush(NULL);
}

void
__wrap_det_console_forget(void)
{
  is_thread = 1;
  __real_det_console_forget();
}

/* picolibc 1.8 declares these two, and has none. */
int
fgetpos(FILE *file, fpos_t *place)
{
  *place = (fpos_t)ftello(file);
  return *place < 0 ? -1 : 0;
}

int
fsetpos(FILE *file, fpos_t *place)
{
  return fseeko(file, (off_t)*place, SEEK_SET);
}

/* In place of picolibc's (1.8), which loses a last line without a line feed. */
char *
fgets(char *restrict to, int room, FILE *restrict file)
{
  int count = 0, c = 0;

  while (count + 1 < room && c != '\n' && (c = getc(file)) != EOF)
    to[count++] = (char)c;
  if (room < 1 || (c == EOF && (count == 0 || ferror(file))))
    return NULL;
  to[count] = 0;
  return to;
}

int
fileno(FILE *file)
{
  if ((file->flags & __SBUF) != 0 || is_console((struct stream *)file))
    return ((struct stream *)file)->bufio.fd;
  errno = EBADF;
  return -1;
}

/* ---- Memory ---- */

/* For malloc, one piece behind the other, unless the program has called det_allocate in between. */
void *
sbrk(ptrdiff_t count)
{
  static char *end, *limit;
  char *at;

  if (count < 0)
    return (void *)-1;
  if (count > limit - end) {
    at = det_allocate((uint32_t)count);
    if (at == NULL) {
      errno = ENOMEM;
      return (void *)-1;
    }
    if (at != limit)
      end = at;
    limit = at + ((count + DET_PAGE - 1) & -DET_PAGE);
  }
  at = end;
  end += count;
  return at;
}

/* ---- Time and random numbers, which the script gives ---- */

/* A reading of the clock is a second. Where none is left, EIO. */
int
gettimeofday(struct timeval *restrict now, void *restrict zone)
{
  uint32_t reading;

  (void)zone;
  if (det_clock(&reading) != 0) {
    errno = EIO;
    return -1;
  }
  now->tv_sec = (time_t)reading;
  now->tv_usec = 0;
  return 0;
}

/* A program cannot see how many events it has taken. */
clock_t
times(struct tms *used)
{
  memset(used, 0, sizeof *used);
  return 0;
}

/* A number of the script for each four bytes. Where none is left, EIO. */
int
getentropy(void *bytes, size_t count)
{
  unsigned char *at = bytes, *end = at + count;
  uint32_t number = 0;
  int left = 0;

  if (count > 256) {
    errno = EIO;
    return -1;
  }
  for (; at < end; number >>= 8, left--) {
    if (left == 0) {
      if (det_random(&number) != 0) {
        errno = EIO;
        return -1;
      }
      left = 4;
    }
    *at++ = (unsigned char)number;
  }
  return 0;
}

/* ---- Ends ---- */

void __call_exitprocs(int value, void *object) __attribute__((weak));   /* picolibc's: runs the functions of atexit */

void
exit(int value)
{
  if (__call_exitprocs != NULL)
    __call_exitprocs(value, NULL);
  fflush(NULL);
  _exit(value);
}

void
_exit(int value)
{
  det_return((uint32_t)value);
}

pid_t
getpid(void)
{
  return 1;
}

/* A signal that nobody handles ends the space: SIGABRT, of abort and assert, as breakpoint, any other as a shell says it. */
int
kill(pid_t process, int signal)
{
  if (process != getpid()) {
    errno = ESRCH;
    return -1;
  }
  if (signal == 0)
    return 0;
  if (signal != SIGABRT)
    _exit(128 + signal);
  det_console_flush();
  for (;;)
    __asm__ volatile("ebreak");
}
