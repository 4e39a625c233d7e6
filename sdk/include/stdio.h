/*
 * The console, and the files of a space. What is written to a file is there when the function returns; what is written to the
 * console goes out when the line ends, when 4,096 bytes wait, before a read of the console, a fork and an end, and by fflush.
 *
 * Only the root has a console: stdin, stdout and stderr of any other space stop it with the cause badcall and the value 6.
 */
#ifndef STDIO_H
#define STDIO_H

#include <stdarg.h>
#include <stddef.h>

#define EOF (-1)

typedef struct file FILE;
extern FILE *const stdin, *const stdout, *const stderr;

/* %d %i %u %x %X %o %c %s %p %% with flags, width, precision and length. A double is written as a question mark. */
int printf(const char *restrict format, ...) __attribute__((format(printf, 1, 2)));
int fprintf(FILE *restrict file, const char *restrict format, ...) __attribute__((format(printf, 2, 3)));
int sprintf(char *restrict to, const char *restrict format, ...) __attribute__((format(printf, 2, 3)));
int snprintf(char *restrict to, size_t room, const char *restrict format, ...) __attribute__((format(printf, 3, 4)));
int vprintf(const char *restrict format, va_list arguments);
int vfprintf(FILE *restrict file, const char *restrict format, va_list arguments);
int vsnprintf(char *restrict to, size_t room, const char *restrict format, va_list arguments);

int putchar(int c);
int puts(const char *s);
int fputc(int c, FILE *file);
int fputs(const char *restrict s, FILE *restrict file);
size_t fwrite(const void *restrict from, size_t size, size_t items, FILE *restrict file);
#define putc fputc

int getchar(void);
int fgetc(FILE *file);
char *fgets(char *restrict to, int room, FILE *restrict file);
size_t fread(void *restrict to, size_t size, size_t items, FILE *restrict file);
#define getc fgetc

/*
 * "r" reads a file; "w" makes it, or empties it; "a" makes a file that may only be added to, or adds to one that is there. NULL where
 * the kernel refuses it. (det_file_new and the rest tell why.)
 */
FILE *fopen(const char *restrict name, const char *restrict mode);
int fclose(FILE *file);
int remove(const char *name);
int feof(FILE *file);
int ferror(FILE *file);
int fflush(FILE *file);

#endif
