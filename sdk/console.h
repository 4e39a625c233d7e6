/* The console for a C library: out by lines, in by blocks. Only the root has one; other spaces stop with badcall 6. */
#ifndef CONSOLE_H
#define CONSOLE_H

#include <stdint.h>

/* How long what is written waits: until the line ends, until the buffer is full, or not at all. As _IOLBF, _IOFBF, _IONBF. */
enum console_mode { CONSOLE_LINES, CONSOLE_FULL, CONSOLE_NONE };

void det_console_mode(enum console_mode mode);
void det_console_put(char c);

/* What waits goes out, and then these bytes, at once. */
void det_console_write(const char *bytes, uint32_t count);

/* The next byte of the input; -1 at its end. What waits to be written is written first. */
int det_console_get(void);

#endif
