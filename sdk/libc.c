/*
 * A small C library: strings, memory, printf, files. It has no floating point; picolibc has all (sdk/build).
 */
#include <assert.h>
#include <ctype.h>
#include <limits.h>
#include <stdint.h>
#include <stdio.h>
#include <stdlib.h>
#include <string.h>
#include "console.h"
#include "det.h"

/* ---- Strings ---- */

void *
memchr(const void *from, int value, size_t count)
{
  const unsigned char *at = from;

  for (; count > 0; at++, count--)
    if (*at == (unsigned char)value)
      return (void *)(uintptr_t)at;
  return NULL;
}

size_t
strlen(const char *s)
{
  const char *end = s;

  while (*end != 0)
    end++;
  return (size_t)(end - s);
}

size_t
strnlen(const char *s, size_t most)
{
  size_t count = 0;

  while (count < most && s[count] != 0)
    count++;
  return count;
}

int
strcmp(const char *a, const char *b)
{
  for (; *a == *b && *a != 0; a++, b++)
    ;
  return (unsigned char)*a - (unsigned char)*b;
}

int
strncmp(const char *a, const char *b, size_t most)
{
  for (; most > 0; a++, b++, most--)
    if (*a != *b || *a == 0)
      return (unsigned char)*a - (unsigned char)*b;
  return 0;
}

char *
strcpy(char *restrict to, const char *restrict from)
{
  memcpy(to, from, strlen(from) + 1);
  return to;
}

char *
strncpy(char *restrict to, const char *restrict from, size_t count)
{
  size_t length = strnlen(from, count);

  memcpy(to, from, length);
  memset(to + length, 0, count - length);
  return to;
}

char *
strcat(char *restrict to, const char *restrict from)
{
  memcpy(to + strlen(to), from, strlen(from) + 1);
  return to;
}

char *
strncat(char *restrict to, const char *restrict from, size_t most)
{
  size_t length = strnlen(from, most);
  char *end = to + strlen(to);

  memcpy(end, from, length);
  end[length] = 0;
  return to;
}

char *
strchr(const char *s, int c)
{
  for (; *s != (char)c; s++)
    if (*s == 0)
      return NULL;
  return (char *)(uintptr_t)s;
}

char *
strrchr(const char *s, int c)
{
  const char *last = NULL;

  for (;; s++) {
    if (*s == (char)c)
      last = s;
    if (*s == 0)
      return (char *)(uintptr_t)last;
  }
}

char *
strstr(const char *s, const char *part)
{
  size_t length = strlen(part);

  for (; strncmp(s, part, length) != 0; s++)
    if (*s == 0)
      return NULL;
  return (char *)(uintptr_t)s;
}

size_t
strspn(const char *s, const char *set)
{
  size_t count = 0;

  while (s[count] != 0 && strchr(set, s[count]) != NULL)
    count++;
  return count;
}

size_t
strcspn(const char *s, const char *set)
{
  size_t count = 0;

  while (s[count] != 0 && strchr(set, s[count]) == NULL)
    count++;
  return count;
}

char *
strdup(const char *s)
{
  size_t count = strlen(s) + 1;
  char *to = malloc(count);

  return to == NULL ? NULL : memcpy(to, s, count);
}

/* ---- Memory: the allocator of Kernighan and Ritchie, "The C Programming Language", section 8.7 ---- */

/* In front of each piece, of as many units as it has with this one. Free pieces stand in a ring, by rising address. */
union header {
  struct { union header *next; size_t units; } piece;
  long long align[2];
};

static union header base;
static union header *free_list;

void det_heap_turn(void);       /* runtime.c */

static void
give_back(union header *piece)
{
  union header *at;

  for (at = free_list; !(piece > at && piece < at->piece.next); at = at->piece.next)
    if (at >= at->piece.next && (piece > at || piece < at->piece.next))
      break;
  if (piece + piece->piece.units == at->piece.next) {
    piece->piece.units += at->piece.next->piece.units;
    piece->piece.next = at->piece.next->piece.next;
  } else
    piece->piece.next = at->piece.next;
  if (at + at->piece.units == piece) {
    at->piece.units += piece->piece.units;
    at->piece.next = piece->piece.next;
  } else
    at->piece.next = piece;
  free_list = at;
}

void
free(void *old)
{
  if (old == NULL)
    return;
  det_heap_turn();
  give_back((union header *)old - 1);
}

void *
malloc(size_t count)
{
  size_t units, bytes;
  union header *last, *at;

  if (count > PTRDIFF_MAX - DET_PAGE)
    return NULL;
  units = (count + sizeof(union header) - 1) / sizeof(union header) + 1;
  det_heap_turn();
  if (free_list == NULL) {
    base.piece.next = free_list = &base;
    base.piece.units = 0;
  }
  for (last = free_list, at = last->piece.next; ; last = at, at = at->piece.next) {
    if (at->piece.units >= units) {
      if (at->piece.units == units)
        last->piece.next = at->piece.next;
      else {
        at->piece.units -= units;
        at += at->piece.units;
        at->piece.units = units;
      }
      free_list = last;
      return at + 1;
    }
    if (at == free_list) {
      bytes = (units * sizeof(union header) + DET_PAGE - 1) & -(size_t)DET_PAGE;
      at = det_allocate(bytes);
      if (at == NULL)
        return NULL;
      at->piece.units = bytes / sizeof(union header);
      give_back(at);
      at = free_list;
    }
  }
}

void *
calloc(size_t items, size_t size)
{
  unsigned long long count = (unsigned long long)items * size;
  void *to;

  if (count > PTRDIFF_MAX)
    return NULL;
  to = malloc((size_t)count);
  return to == NULL ? NULL : memset(to, 0, (size_t)count);
}

void *
realloc(void *old, size_t count)
{
  size_t had;
  void *to;

  if (old == NULL)
    return malloc(count);
  had = (((union header *)old)[-1].piece.units - 1) * sizeof(union header);
  if (count <= had)
    return old;
  to = malloc(count);
  if (to != NULL) {
    memcpy(to, old, had);
    free(old);
  }
  return to;
}

/* ---- Ends ---- */

static void (*at_exit[32])(void);
static int at_exits;

int
atexit(void (*function)(void))
{
  if (at_exits == sizeof at_exit / sizeof at_exit[0])
    return -1;
  at_exit[at_exits++] = function;
  return 0;
}

void
exit(int value)
{
  while (at_exits > 0)
    at_exit[--at_exits]();
  det_return((uint32_t)value);
}

void
abort(void)
{
  det_console_flush();
  for (;;)
    __asm__ volatile("ebreak");
}

void
__assert_failed(const char *condition, const char *file, int line)
{
  printf("%s:%d: does not hold: %s\n", file, line, condition);
  abort();
}

/* ---- Numbers, sorting ---- */

unsigned long
strtoul(const char *restrict s, char **restrict end, int base)
{
  const char *at = s, *digits;
  unsigned long value = 0, digit;
  int minus, over = 0;

  while (isspace((unsigned char)*at))
    at++;
  minus = *at == '-';
  if (*at == '-' || *at == '+')
    at++;
  if ((base == 0 || base == 16) && at[0] == '0' && (at[1] == 'x' || at[1] == 'X') && isxdigit((unsigned char)at[2])) {
    at += 2;
    base = 16;
  }
  if (base == 0)
    base = *at == '0' ? 8 : 10;
  for (digits = at; isalnum((unsigned char)*at); at++) {
    digit = (unsigned long)(isdigit((unsigned char)*at) ? *at - '0' : tolower((unsigned char)*at) - 'a' + 10);
    if (digit >= (unsigned long)base)
      break;
    if (value > (ULONG_MAX - digit) / (unsigned long)base)
      over = 1;
    value = value * (unsigned long)base + digit;
  }
  if (end != NULL)
    *end = (char *)(uintptr_t)(at == digits ? s : at);
  return over ? ULONG_MAX : minus ? -value : value;
}

long
strtol(const char *restrict s, char **restrict end, int base)
{
  const char *at = s;
  unsigned long value;
  int minus;

  while (isspace((unsigned char)*at))
    at++;
  minus = *at == '-';
  value = strtoul(s, end, base);
  if (minus)
    return value == ULONG_MAX || (value != 0 && -value > (unsigned long)LONG_MAX) ? LONG_MIN : -(long)-value;
  return value > (unsigned long)LONG_MAX ? LONG_MAX : (long)value;
}

int
atoi(const char *s)
{
  return (int)strtol(s, NULL, 10);
}

static void
exchange(char *a, char *b, size_t size)
{
  char kept;

  for (; size > 0; a++, b++, size--) {
    kept = *a;
    *a = *b;
    *b = kept;
  }
}

/* Heapsort: no more memory, and never more than items * log(items) turns. */
void
qsort(void *base, size_t items, size_t size, int (*compare)(const void *, const void *))
{
  char *at = base;
  size_t unsorted = items, first = items / 2, parent, child;

  while (unsorted > 1) {
    if (first > 0)
      first--;
    else
      exchange(at, at + --unsorted * size, size);
    for (parent = first; (child = 2 * parent + 1) < unsorted; parent = child) {
      if (child + 1 < unsorted && compare(at + child * size, at + (child + 1) * size) < 0)
        child++;
      if (compare(at + parent * size, at + child * size) >= 0)
        break;
      exchange(at + parent * size, at + child * size, size);
    }
  }
}

void *
bsearch(const void *key, const void *base, size_t items, size_t size, int (*compare)(const void *, const void *))
{
  const char *low = base, *middle;
  int order;

  while (items > 0) {
    middle = low + items / 2 * size;
    order = compare(key, middle);
    if (order == 0)
      return (void *)(uintptr_t)middle;
    if (order > 0) {
      low = middle + size;
      items -= items / 2 + 1;
    } else
      items /= 2;
  }
  return NULL;
}

static unsigned long seed = 1;

int
rand(void)
{
  seed = seed * 1103515245 + 12345;
  return (int)(seed >> 16 & RAND_MAX);
}

void
srand(unsigned new_seed)
{
  seed = new_seed;
}

/* ---- Files ---- */

/* An open file is a space's own, as its files are. The console's streams have no name. */
struct file {
  char name[DET_FILE_NAME];
  uint32_t length;              /* of the name; 0 where this file is not open */
  uint32_t offset;              /* of what is read next */
  char end, error, write;
};

static struct file console[3];
static _Thread_local struct file opened[16];

FILE *const stdin = console, *const stdout = console + 1, *const stderr = console + 2;

static int is_console(FILE *file) { return file >= console && file < console + 3; }

static size_t
write_bytes(FILE *file, const char *from, size_t count)
{
  size_t i;

  if (is_console(file))
    for (i = 0; i < count; i++)
      det_console_put(from[i]);
  else if (!file->write || count > DET_CALL_BYTES || det_file_put(file->name, file->length, from, count, 1) != DET_OK) {
    file->error = 1;
    return 0;
  }
  return count;
}

static size_t
read_bytes(FILE *file, char *to, size_t count)
{
  uint32_t got = 0;
  int c;

  if (is_console(file))
    while (got < count && (c = det_console_get()) != EOF)
      to[got++] = (char)c;
  else if (det_file_get(file->name, file->length, to, count < DET_CALL_BYTES ? count : DET_CALL_BYTES, file->offset, &got) != DET_OK)
    file->error = 1;
  file->offset += got;
  if (got == 0 && count > 0 && !file->error)
    file->end = 1;
  return got;
}

FILE *
fopen(const char *restrict name, const char *restrict mode)
{
  uint32_t length = strlen(name), count;
  FILE *file = opened;
  int error;

  while (file < opened + 16 && file->length != 0)
    file++;
  if (file == opened + 16 || length > DET_FILE_NAME)
    return NULL;
  error = *mode == 'r' ? det_file_length(name, length, &count) : det_file_new(name, length, *mode == 'a');
  if (error == DET_EXISTS && *mode == 'a')
    error = det_file_length(name, length, &count);
  else if (error == DET_EXISTS && (error = det_file_put(name, length, name, 0, 0)) != DET_OK) {
    /* it may only be added to, or is conflicted: it is made anew */
    det_file_delete(name, length);
    error = det_file_new(name, length, 0);
  }
  if (error != DET_OK)
    return NULL;
  *file = (struct file){ .length = length, .write = *mode != 'r' };
  memcpy(file->name, name, length);
  return file;
}

int
fflush(FILE *file)
{
  if (file == NULL || is_console(file))
    det_console_flush();
  return 0;
}

int fclose(FILE *file) { fflush(file); file->length = 0; return file->error ? EOF : 0; }
int remove(const char *name) { return det_file_delete(name, strlen(name)) == DET_OK ? 0 : -1; }
int feof(FILE *file) { return file->end; }
int ferror(FILE *file) { return file->error; }

size_t
fwrite(const void *restrict from, size_t size, size_t items, FILE *restrict file)
{
  return size == 0 || write_bytes(file, from, size * items) == 0 ? 0 : items;
}

size_t
fread(void *restrict to, size_t size, size_t items, FILE *restrict file)
{
  char *at = to;
  size_t left = size * items, got;

  for (; left > 0 && (got = read_bytes(file, at, left)) > 0; left -= got)
    at += got;
  return size == 0 ? 0 : (size * items - left) / size;
}

int
fputc(int c, FILE *file)
{
  char byte = (char)c;
  return write_bytes(file, &byte, 1) == 1 ? (unsigned char)c : EOF;
}

int
fgetc(FILE *file)
{
  unsigned char byte;
  return read_bytes(file, (char *)&byte, 1) == 1 ? byte : EOF;
}

int
fputs(const char *restrict s, FILE *restrict file)
{
  size_t count = strlen(s);
  return write_bytes(file, s, count) == count ? 0 : EOF;
}

char *
fgets(char *restrict to, int room, FILE *restrict file)
{
  int count = 0, c;

  while (count + 1 < room && (c = fgetc(file)) != EOF) {
    to[count++] = (char)c;
    if (c == '\n')
      break;
  }
  if (count == 0 || room < 1)
    return NULL;
  to[count] = 0;
  return to;
}

int putchar(int c) { return fputc(c, stdout); }
int getchar(void) { return fgetc(stdin); }
int puts(const char *s) { return fprintf(stdout, "%s\n", s) < 0 ? EOF : 0; }

/* ---- printf ---- */

/* Where the characters go: to a file, by a buffer, or to memory, of which there may be too little. */
struct sink {
  FILE *file;
  char *to;
  size_t room, held, total;
};

static void
put(struct sink *sink, char c)
{
  if (sink->file != NULL && sink->held == sink->room) {
    write_bytes(sink->file, sink->to, sink->held);
    sink->held = 0;
  }
  if (sink->held < sink->room)
    sink->to[sink->held++] = c;
  sink->total++;
}

struct field {
  int left, zero, width, precision;   /* precision -1: none is said */
  const char *sign;
};

/* The sign or mark, and the text, blanks or zeros before it or behind it up to the width. */
static void
put_field(struct sink *sink, struct field *field, const char *text, size_t length, size_t zeros)
{
  size_t sign = strlen(field->sign), shown = sign + zeros + length, pad, i;

  pad = (size_t)field->width > shown ? (size_t)field->width - shown : 0;
  if (field->zero && !field->left) {
    zeros += pad;
    pad = 0;
  }
  for (i = 0; !field->left && i < pad; i++)
    put(sink, ' ');
  for (i = 0; i < sign; i++)
    put(sink, field->sign[i]);
  for (i = 0; i < zeros; i++)
    put(sink, '0');
  for (i = 0; i < length; i++)
    put(sink, text[i]);
  for (i = 0; field->left && i < pad; i++)
    put(sink, ' ');
}

static void
put_number(struct sink *sink, struct field *field, unsigned long long n, unsigned base, int upper)
{
  const char *digits = upper ? "0123456789ABCDEF" : "0123456789abcdef";
  char text[22];
  size_t at = sizeof text, length;

  /* one short division a digit, where the number is short */
  for (; n >> 32 != 0; n /= base)
    text[--at] = digits[n % base];
  for (uint32_t rest = (uint32_t)n; rest != 0; rest /= base)
    text[--at] = digits[rest % base];
  if (at == sizeof text && field->precision != 0)
    text[--at] = '0';
  length = sizeof text - at;
  if (field->precision >= 0)
    field->zero = 0;
  put_field(sink, field, text + at, length, field->precision > (int)length ? (size_t)field->precision - length : 0);
}

static long long
next_integer(va_list *arguments, int size, int is_signed)
{
  if (size >= 2)
    return va_arg(*arguments, long long);
  if (is_signed) {
    int n = va_arg(*arguments, int);
    return size == -2 ? (signed char)n : size == -1 ? (short)n : n;
  } else {
    unsigned n = va_arg(*arguments, unsigned);
    return size == -2 ? (unsigned char)n : size == -1 ? (unsigned short)n : n;
  }
}

static const char *
number_after(const char *at, int *n, va_list *arguments)
{
  if (*at == '*') {
    *n = va_arg(*arguments, int);
    return at + 1;
  }
  for (*n = 0; isdigit((unsigned char)*at); at++)
    *n = *n * 10 + *at - '0';
  return at;
}

/* One conversion, whose text stands behind the %. Returns what stands behind it. */
static const char *
put_conversion(struct sink *sink, const char *at, va_list *arguments)
{
  struct field field = { 0, 0, 0, -1, "" };
  const char *start = at, *text;
  long long n;
  int mark = 0, size = 0;
  char c;

  for (;; at++)
    if (*at == '-')
      field.left = 1;
    else if (*at == '0')
      field.zero = 1;
    else if (*at == '+')
      field.sign = "+";
    else if (*at == '#')
      mark = 1;
    else if (*at != ' ')
      break;
    else if (*field.sign == 0)
      field.sign = " ";
  at = number_after(at, &field.width, arguments);
  if (field.width < 0) {
    field.left = 1;
    field.width = -field.width;
  }
  if (*at == '.')
    at = number_after(at + 1, &field.precision, arguments);
  for (;; at++)
    if (*at == 'l')
      size++;
    else if (*at == 'h')
      size--;
    else if (*at == 'j')
      size = 2;
    else if (*at != 'z' && *at != 't')
      break;

  switch (c = *at) {
  case 'd':
  case 'i':
    n = next_integer(arguments, size, 1);
    if (n < 0)
      field.sign = "-";
    put_number(sink, &field, n < 0 ? -(unsigned long long)n : (unsigned long long)n, 10, 0);
    break;
  case 'u':
  case 'x':
  case 'X':
  case 'o':
    n = next_integer(arguments, size, 0);
    field.sign = mark && n != 0 ? c == 'x' ? "0x" : c == 'X' ? "0X" : c == 'o' ? "0" : "" : "";
    put_number(sink, &field, (unsigned long long)n, c == 'u' ? 10 : c == 'o' ? 8 : 16, c == 'X');
    break;
  case 'p':
    field.sign = "0x";
    put_number(sink, &field, (uintptr_t)va_arg(*arguments, void *), 16, 0);
    break;
  case 'c':
    c = (char)va_arg(*arguments, int);
    field.sign = "";
    put_field(sink, &field, &c, 1, 0);
    break;
  case 's':
    text = va_arg(*arguments, const char *);
    if (text == NULL)
      text = "(null)";
    field.sign = "";
    put_field(sink, &field, text, field.precision < 0 ? strlen(text) : strnlen(text, (size_t)field.precision), 0);
    break;
  case 'e':
  case 'E':
  case 'f':
  case 'F':
  case 'g':
  case 'G':
  case 'a':
  case 'A':
    /* no floats here, but what follows is in its place */
    (void)va_arg(*arguments, double);
    field.sign = "";
    put_field(sink, &field, "?", 1, 0);
    break;
  case '%':
    put(sink, '%');
    break;
  default:
    /* no conversion that we have: it stands there as it was written */
    put(sink, '%');
    return start;
  }
  return at + 1;
}

static void
put_format(struct sink *sink, const char *at, va_list *arguments)
{
  while (*at != 0)
    if (*at == '%')
      at = put_conversion(sink, at + 1, arguments);
    else
      put(sink, *at++);
}

int
vfprintf(FILE *restrict file, const char *restrict format, va_list arguments)
{
  char buffer[128];
  struct sink sink = { file, buffer, sizeof buffer, 0, 0 };
  va_list list;

  va_copy(list, arguments);
  put_format(&sink, format, &list);
  va_end(list);
  if (sink.held > 0)
    write_bytes(file, buffer, sink.held);
  return file->error ? -1 : (int)sink.total;
}

int
vsnprintf(char *restrict to, size_t room, const char *restrict format, va_list arguments)
{
  struct sink sink = { NULL, to, room > 0 ? room - 1 : 0, 0, 0 };
  va_list list;

  va_copy(list, arguments);
  put_format(&sink, format, &list);
  va_end(list);
  if (room > 0)
    to[sink.held] = 0;
  return (int)sink.total;
}

int vprintf(const char *restrict format, va_list arguments) { return vfprintf(stdout, format, arguments); }

/* The four that take their arguments one by one. */
#define WITH_ARGUMENTS(call) \
  int written; \
  va_list arguments; \
  va_start(arguments, format); \
  written = call; \
  va_end(arguments); \
  return written

int printf(const char *restrict format, ...) { WITH_ARGUMENTS(vfprintf(stdout, format, arguments)); }
int fprintf(FILE *restrict file, const char *restrict format, ...) { WITH_ARGUMENTS(vfprintf(file, format, arguments)); }
int snprintf(char *restrict to, size_t room, const char *restrict format, ...) { WITH_ARGUMENTS(vsnprintf(to, room, format, arguments)); }
int sprintf(char *restrict to, const char *restrict format, ...) { WITH_ARGUMENTS(vsnprintf(to, INT_MAX, format, arguments)); }
