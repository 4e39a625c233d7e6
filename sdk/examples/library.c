/*
 * Calls of the whole C library, a line for each: files, streams, numbers, strings, time and jumps. The lines are the same as from
 * the host's compiler and library, for the same input. It asks for picolibc.
 */
#include <ctype.h>
#include <errno.h>
#include <fcntl.h>
#include <math.h>
#include <setjmp.h>
#include <stdarg.h>
#include <stdio.h>
#include <stdlib.h>
#include <string.h>
#include <strings.h>
#include <sys/stat.h>
#include <time.h>
#include <unistd.h>

/* Names are short, and nothing else is in the folder that it runs in. */
#define LONG 125001

static unsigned char bytes[LONG], back[LONG + 1000];
static int number;

/* A line of a number of its own. */
static void
line(const char *format, ...)
{
  va_list list;

  printf("%d ", ++number);
  va_start(list, format);
  vprintf(format, list);
  va_end(list);
  putchar('\n');
}

static unsigned
sum(const unsigned char *from, size_t count)
{
  unsigned s = 1;

  for (; count > 0; count--)
    s = (s << 5 | s >> 27) + *from++;
  return s;
}

/* What is in a file: its length, and a sum. */
static void
show(const char *what, const char *name)
{
  int fd = open(name, O_RDONLY);
  long count = fd < 0 ? -1 : (long)read(fd, back, sizeof back);

  close(fd);
  line("%s: %ld bytes, %08x", what, count, count < 0 ? 0 : sum(back, (size_t)count));
}

static void
input(void)
{
  char text[40];
  int a, b, n = 0;
  unsigned m = 0;

  a = scanf("%d %x", &n, &m);
  line("scanf %d: %d %u", a, n, m);
  line("getchar %d", getchar());
  line("fgets: %s", fgets(text, sizeof text, stdin));
  a = fgetc(stdin);
  b = ungetc(a, stdin);
  line("ungetc %d, fgetc %d", b == a, fgetc(stdin) == a);
  line("fgets of 4: %s", fgets(text, 4, stdin));
  line("fread %d", (int)fread(text, 1, 6, stdin));
  a = fgets(text, sizeof text, stdin) != NULL;
  line("fgets of the last line, which no line feed ends: %d %s, feof %d", a, text, feof(stdin) != 0);
  a = getchar();
  line("getchar %d, feof %d, ferror %d", a, feof(stdin) != 0, ferror(stdin) != 0);
  a = fgets(text, sizeof text, stdin) == NULL;
  clearerr(stdin);
  line("fgets of nothing %d, clearerr, feof %d", a, feof(stdin) != 0);
  line("fileno %d %d %d, isatty %d %d", fileno(stdin), fileno(stdout), fileno(stderr), isatty(0), isatty(1));
}

static void
streams(void)
{
  char text[80], word[20];
  FILE *file;
  fpos_t place;
  double d = 0;
  int a, b, n = 0;
  long at;

  a = fopen("none", "r") != NULL;
  line("fopen of nothing %d, errno %d", a, errno == ENOENT);
  file = fopen("a", "w");
  line("fprintf %d", fprintf(file, "%d %s %.3f\n", 42, "words", 2.5));
  line("fputs %d", fputs("second line\n", file) >= 0);
  a = fputc('x', file);
  line("fputc %d, putc %d", a, putc('y', file));
  line("ftell %ld", ftell(file));
  line("fflush %d", fflush(file));
  show("after fflush", "a");
  line("fwrite %d", (int)fwrite("0123456789", 2, 5, file));
  line("fclose %d", fclose(file));
  show("after fclose", "a");

  file = fopen("a", "r");
  a = fscanf(file, "%d %19s %lf", &n, word, &d);
  line("fscanf %d: %d %s %.3f", a, n, word, d);
  a = fgets(text, sizeof text, file) != NULL;
  line("fgets %d, to the line feed %d", a, strcmp(text, "\n") == 0);
  a = fgetpos(file, &place);
  fgets(text, sizeof text, file);
  line("fgetpos %d, strtok %s", a, strtok(text, "\n"));
  a = getc(file);
  line("getc %c, ftell %ld", a, ftell(file));
  a = fseek(file, -3, SEEK_END);
  line("fseek %d, fgetc %c", a, fgetc(file));
  a = fseek(file, 3, SEEK_SET);
  line("fseek %d, fgetc %c", a, fgetc(file));
  a = fseek(file, 2, SEEK_CUR);
  line("fseek %d, fgetc %c", a, fgetc(file));
  a = fsetpos(file, &place);
  line("fsetpos %d, fgetc %c", a, fgetc(file));
  rewind(file);
  line("rewind, fgets %s", fgets(text, 6, file));
  while (fgetc(file) != EOF)
    ;
  line("at the end: feof %d, ferror %d, ftell %ld", feof(file) != 0, ferror(file) != 0, ftell(file));
  a = fputc('x', file);
  line("fputc to what is read %d", a == EOF);
  fclose(file);

  file = fopen("a", "r+");
  a = fseek(file, 3, SEEK_SET);
  b = fputs("WORDS", file) >= 0;
  line("r+: fseek %d, fputs %d", a, b);
  a = fseek(file, 0, SEEK_SET);
  line("fseek %d, fgetc %c", a, fgetc(file));
  fclose(file);
  show("r+ writes within", "a");

  file = fopen("a", "a");
  fseek(file, 0, SEEK_SET);
  line("a: fputs %d", fputs("added", file) >= 0);
  fclose(file);
  show("a adds at the end", "a");

  file = fopen("a", "a+");
  fputs(" twice", file);
  rewind(file);
  line("a+: fgets %s", fgets(text, 6, file));
  fclose(file);
  show("a+ too", "a");

  file = fopen("b", "w+");
  for (a = 0; a < 1000; a++)
    fprintf(file, "%d,", a);
  rewind(file);
  for (a = 0; a < 1000 && fscanf(file, "%d,", &n) == 1 && n == a; a++)
    ;
  line("w+: %d read as they were written", a);
  fclose(file);
  line("rename %d", rename("b", "c"));
  show("the old name", "b");
  show("the new name", "c");
  a = rename("b", "c");
  line("rename of nothing %d, errno %d", a, errno == ENOENT);
  line("rename onto another %d", rename("c", "a"));
  show("the other", "a");
  a = remove("a");
  line("remove %d, again %d", a, remove("a"));

  file = tmpfile();
  line("tmpfile %d, fputs %d", file != NULL, fputs("for a while", file) >= 0);
  at = ftell(file);
  rewind(file);
  line("ftell %ld, fgets %s", at, fgets(text, sizeof text, file));
  fclose(file);

  file = fopen("d", "w");
  a = setvbuf(file, NULL, _IONBF, 0);
  line("setvbuf %d, fputc %c", a, fputc('u', file));
  show("no buffer", "d");
  fclose(file);
  file = fopen("d", "w");
  file = freopen("e", "w", file);
  fputs("opened again", file);
  fclose(file);
  show("freopen", "e");
  remove("d");
  remove("e");
}

/* Above 61,440 bytes, which is what one file of the kernel has. */
static void
long_files(void)
{
  struct stat found;
  FILE *file;
  long at;
  int i, fd, a, b;

  for (i = 0; i < LONG; i++)
    bytes[i] = (unsigned char)(i * 7 + i / 256);
  file = fopen("long", "w");
  line("fwrite %d", (int)fwrite(bytes, 1, LONG, file));
  fclose(file);
  show("a long file", "long");
  file = fopen("long", "r");
  a = (int)fread(back, 1, LONG, file);
  line("fread %d, the same bytes %d", a, memcmp(bytes, back, LONG) == 0);
  fclose(file);
  a = stat("long", &found);
  line("stat %d, %ld bytes, a file %d", a, (long)found.st_size, S_ISREG(found.st_mode) != 0);

  fd = open("long", O_RDWR);
  line("open %d, lseek %ld", fd >= 3, (long)lseek(fd, -1, SEEK_END));
  line("read %d", (int)read(fd, back, 10));
  at = lseek(fd, 61430, SEEK_SET);
  line("lseek %ld, write %d", at, (int)write(fd, "over the end of a part", 22));
  at = lseek(fd, 200, SEEK_END);
  line("lseek %ld, write %d", at, (int)write(fd, "behind a hole", 13));
  at = lseek(fd, 61000, SEEK_SET);
  a = (int)read(fd, back, 1000);
  line("lseek %ld, read %d, sum %08x", at, a, sum(back, 1000));
  at = lseek(fd, -1, SEEK_SET);
  line("lseek before the start %ld, errno %d", at, errno == EINVAL);
  a = fstat(fd, &found);
  line("fstat %d, %ld bytes", a, (long)found.st_size);
  a = close(fd);
  b = close(fd);
  line("close %d, again %d, errno %d", a, b, errno == EBADF);
  show("written within", "long");

  fd = open("long", O_WRONLY | O_APPEND);
  a = (int)write(fd, "added", 5);
  line("write %d, lseek %ld", a, (long)lseek(fd, 0, SEEK_CUR));
  a = (int)read(fd, back, 1);
  line("read of what is written %d, errno %d", a, errno == EBADF);
  close(fd);
  line("rename %d", rename("long", "longer"));
  show("the old name", "long");
  show("the new name", "longer");
  a = access("long", F_OK);
  line("access %d %d", a, access("longer", R_OK | W_OK));
  a = open("longer", O_WRONLY | O_CREAT | O_EXCL, 0644);
  line("open of what is there %d, errno %d", a, errno == EEXIST);
  fd = open("longer", O_RDWR | O_TRUNC);
  line("truncated: lseek %ld", (long)lseek(fd, 0, SEEK_END));
  a = (int)write(fd, "still open", 10);
  line("write %d, unlink %d", a, unlink("longer"));
  lseek(fd, 0, SEEK_SET);
  a = (int)read(fd, back, 20);
  line("read %d: %.10s", a, (char *)back);
  close(fd);
  a = stat("longer", &found);
  line("stat %d, errno %d", a, errno == ENOENT);
}

static int
by_text(const void *a, const void *b)
{
  return strcmp(*(char *const *)a, *(char *const *)b);
}

static void
numbers(void)
{
  char *words[] = { "pear", "fig", "apple", "quince", "date" }, *key = "fig", *end, **found;
  int *zeros = calloc(10, sizeof *zeros), a, b, c, n;
  div_t q = div(-17, 5);
  lldiv_t l = lldiv(1000000000001, 10);
  unsigned long long most;
  double d;

  line("printf [%8.3f] [%-8.2e] [%g] [%g] [%+.0f] [%a]", 3.14159, 12345.678, 0.0001, 1e20, 2.5, 1.0);
  line("printf [%g] [%f] [%g] [%.10g]", -0.0, (double)INFINITY, (double)-INFINITY, 1 / 3.0);
  line("printf [%5.1lf] [%lld] [%zu] [%hhx] [%*d] [%-*s]", 0.05, 1ll << 40, sizeof(int), 511, 5, 42, 4, "ab");
  d = strtod("  -1.5e3xyz", &end);
  line("strtod %g %s", d, end);
  line("strtod %g %g %d", strtod("0x1.8p1", NULL), strtod("inf", NULL), isnan(strtod("nan", NULL)) != 0);
  n = (int)strtol("-0x7fz", &end, 16);
  line("strtol %d %s", n, end);
  line("strtoul %lu, strtoll %lld", strtoul("4294967295", NULL, 10), strtoll("-9223372036854775808", NULL, 10));
  errno = 0;
  most = strtoull("99999999999999999999", NULL, 10);
  line("strtoull %llu, errno %d", most, errno == ERANGE);
  line("atoi %d, atol %ld, atoll %lld, atof %g", atoi("12x"), atol("-7"), atoll("1234567890123"), atof("2.5e-3"));
  n = sscanf("10:20:30 word 1.25", "%d:%d:%d %*s %lf", &a, &b, &c, &d);
  line("sscanf %d: %d %d %d %g", n, a, b, c, d);
  qsort(words, 5, sizeof words[0], by_text);
  line("qsort %s %s %s %s %s", words[0], words[1], words[2], words[3], words[4]);
  found = bsearch(&key, words, 5, sizeof words[0], by_text);
  line("bsearch %d", found == NULL ? -1 : (int)(found - words));
  line("div %d %d, lldiv %lld %lld, abs %d, labs %ld", q.quot, q.rem, l.quot, l.rem, abs(-3), labs(-4));
  zeros = realloc(zeros, 1000 * sizeof *zeros);
  line("calloc and realloc %d", zeros[9]);
  free(zeros);
  line("sqrt %.10g, floor %g, ceil %g, fmod %g, pow %g", sqrt(2), floor(-1.5), ceil(-1.5), fmod(7.5, 2), pow(2, 10));
  d = frexp(48, &n);
  line("frexp %g %d, ldexp %g", d, n, ldexp(0.75, 4));
  srand(7);
  a = rand();
  srand(7);
  line("rand %d, getenv %d", rand() == a, getenv("NOTHING_OF_THE_KIND") == NULL);
}

static void
strings(void)
{
  char text[60] = "a, b;c", *at, *rest;
  unsigned count = 0;

  for (at = strtok_r(text, ", ;", &rest); at != NULL; at = strtok_r(NULL, ", ;", &rest))
    count = count * 256 + (unsigned char)*at;
  line("strtok_r %x", count);
  line("strpbrk %s, strcasecmp %d, strncasecmp %d", strpbrk("key=value", "=:"), strcasecmp("AbC", "aBc"), strncasecmp("abX", "ABy", 2));
  line("strcoll %d, strerror %d", strcoll("a", "b") < 0, strerror(ENOENT) != NULL);
  strcpy(text, "0123456789");
  memmove(text + 2, text, 8);
  line("memmove %s, memcmp %d", text, memcmp("ab", "ac", 2) < 0);
  line("strcat %s, strrchr %s, strstr %s", strcat(strcpy(text, "one"), "two"), strrchr("a/b/c", '/'), strstr("haystack", "st"));
  line("toupper %c, isxdigit %d, ispunct %d", toupper('q'), isxdigit('G') != 0, ispunct('!') != 0);
}

static void
times(void)
{
  struct tm tm, *now;
  time_t at = 1000000000;
  char text[60];

  now = gmtime(&at);
  line("gmtime %d-%d-%d %d:%d:%d, day %d", now->tm_year, now->tm_mon, now->tm_mday, now->tm_hour, now->tm_min, now->tm_sec, now->tm_wday);
  strftime(text, sizeof text, "%Y-%m-%d %H:%M:%S %a %b %j", now);
  line("strftime %s", text);
  memset(&tm, 0, sizeof tm);
  tm.tm_year = 124;
  tm.tm_mon = 1;
  tm.tm_mday = 30;
  at = mktime(&tm);
  line("mktime %ld, in March the %d", (long)at, tm.tm_mday);
  line("difftime %g, asctime %.24s", difftime(at, 1000000000), asctime(gmtime(&at)));
}

static jmp_buf back_to;

static void
leave(void)
{
  longjmp(back_to, 5);
}

static void
jumps(void)
{
  volatile int turns = 0;

  switch (setjmp(back_to)) {
  case 0:
    leave();
    break;
  case 5:
    turns++;
    longjmp(back_to, 0);
  default:
    line("setjmp and longjmp %d", turns);
  }
}

static FILE *left_open;

static void
last(void)
{
  fputs("what atexit ran", left_open);
  printf("the end, ");
}

static void
second_last(void)
{
  line("atexit");
}

int
main(int count, char **words)
{
  line("main %d, %d", count, words[count] == NULL);
  input();
  streams();
  long_files();
  numbers();
  strings();
  times();
  jumps();
  atexit(last);
  atexit(second_last);
  left_open = fopen("left", "w");
  fputs("what is buffered, and ", left_open);
  return 7;
}
