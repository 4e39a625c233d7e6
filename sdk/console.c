/*
 * The console's buffers. They are each space's own, since what two threads write into one buffer would be in conflict when they
 * are joined. A space that is not the root has no console: it stops with badcall 6 when its buffer goes out.
 */
#include "console.h"
#include "det.h"

/* The last two pages of those for _Thread_local variables (det.ld) are the buffers. */
#define OUT 0xC07FE000u
#define IN 0xC07FF000u

enum { ROOM = DET_PAGE };

static _Thread_local enum console_mode mode;
static _Thread_local char *out, *in;            /* ROOM bytes each; NULL until they are used first */
static _Thread_local uint32_t held;             /* of out: how many wait */
static _Thread_local uint32_t next, got;        /* of in: where the next byte is, and how many there are */

static char *
room(uint32_t at)
{
  if (det_in_thread != NULL && det_in_thread())
    return det_thread_allocate(ROOM);
  det_get(DET_PERM | DET_READABLE | DET_WRITABLE, DET_NOBODY, NULL, 0, at, ROOM);
  return (char *)(uintptr_t)at;
}

static void
send(const char *bytes, uint32_t count)
{
  if (det_in_thread != NULL && det_in_thread())
    det_thread_write(bytes, count);
  else
    det_write(bytes, count);
}

void
det_console_flush(void)
{
  uint32_t count = held;

  held = 0;
  if (count > 0)
    send(out, count);
}

void
det_console_forget(void)
{
  out = in = NULL;
  held = next = got = 0;
}

void
det_console_mode(enum console_mode new_mode)
{
  det_console_flush();
  mode = new_mode;
}

void
det_console_put(char c)
{
  if (out == NULL && (out = room(OUT)) == NULL) {
    send(&c, 1);
    return;
  }
  out[held++] = c;
  if (held == ROOM || (c == '\n' && mode == CONSOLE_LINES) || mode == CONSOLE_NONE)
    det_console_flush();
}

void
det_console_write(const char *bytes, uint32_t count)
{
  det_console_flush();
  send(bytes, count);
}

int
det_console_get(void)
{
  if (next == got) {
    det_console_flush();
    next = got = 0;
    if (in == NULL && (in = room(IN)) == NULL)
      return -1;
    got = det_read(in, ROOM);
    if (got == 0)
      return -1;
  }
  return (unsigned char)in[next++];
}
