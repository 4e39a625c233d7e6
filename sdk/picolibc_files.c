/*
 * Files for picolibc, by descriptors from 3 on, over the kernel's files (docs/KERNEL.md, "Files"). 0, 1 and 2 are the console.
 *
 * The kernel's files have at most 61,440 bytes, so a longer file has parts: part 0 has its name, and part k, 1 to 63, its name
 * and the byte 0x80 + k behind it. Each part but the last is full. A file goes on in part k + 1 exactly if part k is full and
 * part k + 1 is there. Together all files have 64 parts.
 */
#include <errno.h>
#include <fcntl.h>
#include <stdarg.h>
#include <stdbool.h>
#include <stdio.h>
#include <stdlib.h>
#include <string.h>
#include <sys/stat.h>
#include <unistd.h>
#include <utime.h>
#include "console.h"
#include "det.h"

enum { PARTS = 64, FULL = DET_FILE_BYTES, FIRST = 3, MOST = 20 };

struct name {
  char text[DET_FILE_NAME];
  uint32_t length;
};

/* A file that is open is a space's own, as the kernel's files are. */
static _Thread_local struct open_file {
  struct name name;             /* of length 0 where nothing is open */
  uint32_t at;                  /* where it is read or written next */
  int flags;                    /* those of open */
  bool unlinked;                /* it has a name that no one uses, and is deleted when it is closed */
} opened[MOST];

static _Thread_local char *content;     /* room for a part, made when it is used first */

/* ---- Parts ---- */

static int
fail(int number)
{
  errno = number;
  return -1;
}

static int
fail_as(int error)
{
  static const unsigned char numbers[] = { 0, ENOENT, EEXIST, ENOSPC, EFBIG, EBUSY, ENAMETOOLONG, EPERM };

  return fail(numbers[error]);
}

static int
set_name(struct name *name, const char *text)
{
  name->length = strlen(text);
  if (name->length == 0)
    return fail(ENOENT);
  if (name->length > DET_FILE_NAME)
    return fail(ENAMETOOLONG);
  memcpy(name->text, text, name->length);
  return 0;
}

/* Whether a file of this name can have the part. */
static bool
set_part(struct name *part, const struct name *name, uint32_t number)
{
  *part = *name;
  if (number == 0)
    return true;
  if (number >= PARTS || name->length == DET_FILE_NAME)
    return false;
  part->text[part->length++] = (char)(0x80 + number);
  return true;
}

/* How long a file is. Returns an enum det_error. */
static int
get_size(const struct name *name, uint32_t *size)
{
  struct name part;
  uint32_t number, count;
  int error;

  *size = 0;
  for (number = 0; set_part(&part, name, number); number++) {
    error = det_file_length(part.text, part.length, &count);
    if (error != DET_OK)
      return number > 0 && error == DET_NO_FILE ? DET_OK : error;
    *size += count;
    if (count < FULL)
      break;
  }
  return DET_OK;
}

/*
 * Deleted files hold slots, so that a parent learns of them. One that has no base is of no use to a parent, so its slot is freed
 * where none is left.
 */
static bool
free_slots(void)
{
  struct { uint32_t mark, version, base, length, length_at_base, flags; } volatile *slot;
  uint32_t at;
  bool freed = false;

  for (at = DET_SHARED_END; at < DET_SHARED_END + PARTS * DET_CALL_BYTES; at += DET_CALL_BYTES) {
    slot = (void *)(uintptr_t)at;
    det_get(DET_PERM | DET_READABLE | DET_WRITABLE, DET_NOBODY, NULL, 0, at, DET_PAGE);
    if ((slot->flags & 4) != 0 && slot->base == 0 && slot->mark != 0) {
      slot->mark = 0;
      freed = true;
    }
    det_get(DET_PERM, DET_NOBODY, NULL, 0, at, DET_PAGE);
  }
  return freed;
}

static int
make(const struct name *part, bool append)
{
  int error = det_file_new(part->text, part->length, append);

  if (error == DET_NO_SLOT && free_slots())
    error = det_file_new(part->text, part->length, append);
  return error;
}

/* Deletes the parts from a number on. */
static void
delete_from(const struct name *name, uint32_t number)
{
  struct name part;

  while (set_part(&part, name, number++) && det_file_delete(part.text, part.length) == DET_OK)
    ;
}

static bool
have_content(void)
{
  if (content == NULL)
    content = det_allocate_own(FULL);
  return content != NULL;
}

/* The first bytes of content become a part, which is made an ordinary file if it may only be added to or is in conflict. */
static int
put_content(const struct name *part, uint32_t count)
{
  int error = det_file_put(part->text, part->length, content, count, 0);

  if (error == DET_NOT_APPEND || error == DET_CONFLICTED) {
    det_file_delete(part->text, part->length);
    error = make(part, false);
    if (error == DET_OK)
      error = det_file_put(part->text, part->length, content, count, 0);
  }
  return error;
}

/* Writes into a part of the length size, from a place that is at most size. */
static int
put_part(const struct name *part, uint32_t at, uint32_t size, const char *bytes, uint32_t count)
{
  uint32_t got;
  int error;

  if (at == size)
    return det_file_put(part->text, part->length, bytes, count, 1);
  if (!have_content())
    return DET_NO_SLOT;
  error = det_file_get(part->text, part->length, content, FULL, 0, &got);
  if (error != DET_OK)
    return error;
  memcpy(content + at, bytes, count);
  return put_content(part, at + count > got ? at + count : got);
}

/* Writes at a place that is at most the file's length, as many bytes as there is room for; *done is how many. */
static int
put_bytes(const struct open_file *file, uint32_t at, const char *bytes, uint32_t count, uint32_t *done)
{
  struct name part;
  uint32_t number, from, size, some;
  int error;

  for (*done = 0; *done < count; *done += some) {
    number = (at + *done) / FULL;
    from = (at + *done) % FULL;
    if (!set_part(&part, &file->name, number))
      return DET_TOO_LONG;
    error = det_file_length(part.text, part.length, &size);
    if (error == DET_NO_FILE && number > 0) {
      error = make(&part, (file->flags & O_APPEND) != 0);
      if (error == DET_NO_SLOT)
        return DET_TOO_LONG;
    }
    some = count - *done < FULL - from ? count - *done : FULL - from;
    if (error == DET_OK)
      error = put_part(&part, from, size, bytes + *done, some);
    if (error != DET_OK)
      return error;
  }
  return DET_OK;
}

/* Zeros from the file's end up to a place. */
static int
fill(const struct open_file *file, uint32_t size, uint32_t to)
{
  uint32_t done;
  int error = DET_OK;

  if (size < to && !have_content())
    return DET_NO_SLOT;
  if (size < to)
    memset(content, 0, FULL);
  for (; size < to && error == DET_OK; size += done)
    error = put_bytes(file, size, content, to - size < FULL ? to - size : FULL, &done);
  return error;
}

/* ---- Descriptors ---- */

static struct open_file *
find(int fd)
{
  if (fd >= FIRST && fd < FIRST + MOST && opened[fd - FIRST].name.length != 0)
    return &opened[fd - FIRST];
  errno = EBADF;
  return NULL;
}

/* The first open file of the name, from one on; or NULL. */
static struct open_file *
next_of(const struct name *name, struct open_file *file)
{
  for (; file < opened + MOST; file++)
    if (file->name.length == name->length && memcmp(file->name.text, name->text, name->length) == 0)
      return file;
  return NULL;
}

int
open(const char *path, int flags, ...)
{
  struct open_file *file = opened;
  struct name name;
  uint32_t size;
  int error;

  while (file < opened + MOST && file->name.length != 0)
    file++;
  if (file == opened + MOST)
    return fail(EMFILE);
  if (set_name(&name, path) != 0)
    return -1;
  error = get_size(&name, &size);
  if (error == DET_NO_FILE && (flags & O_CREAT) != 0)
    error = make(&name, (flags & O_APPEND) != 0);
  else if (error != DET_NO_FILE && (flags & O_CREAT) != 0 && (flags & O_EXCL) != 0)
    error = DET_EXISTS;
  else if ((error == DET_OK || error == DET_CONFLICTED) && (flags & O_TRUNC) != 0) {
    error = put_content(&name, 0);
    delete_from(&name, 1);
  }
  if (error != DET_OK)
    return fail_as(error);
  *file = (struct open_file){ .name = name, .flags = flags };
  return FIRST + (int)(file - opened);
}

int
close(int fd)
{
  struct open_file *file;
  struct name name;
  bool unlinked;

  if (fd >= 0 && fd < FIRST)
    return 0;
  file = find(fd);
  if (file == NULL)
    return -1;
  name = file->name;
  unlinked = file->unlinked;
  file->name.length = 0;
  if (unlinked && next_of(&name, opened) == NULL)
    delete_from(&name, 0);
  return 0;
}

ssize_t
read(int fd, void *to, size_t count)
{
  struct open_file *file;
  struct name part;
  uint32_t done = 0, from, some, got;
  int error;

  if (fd == 0) {
    det_console_flush();
    return (ssize_t)det_read(to, count);
  }
  file = find(fd);
  if (file == NULL || (file->flags & O_ACCMODE) == O_WRONLY)
    return fail(EBADF);
  while (done < count && set_part(&part, &file->name, file->at / FULL)) {
    from = file->at % FULL;
    some = count - done < FULL - from ? count - done : FULL - from;
    error = det_file_get(part.text, part.length, (char *)to + done, some, from, &got);
    if (error == DET_NO_FILE && file->at >= FULL)
      break;
    if (error != DET_OK)
      return fail_as(error);
    done += got;
    file->at += got;
    if (got < some)
      break;
  }
  return (ssize_t)done;
}

ssize_t
write(int fd, const void *bytes, size_t count)
{
  struct open_file *file;
  uint32_t size, done;
  int error;

  if (fd == 1 || fd == 2) {
    det_console_write(bytes, count);
    return (ssize_t)count;
  }
  file = find(fd);
  if (file == NULL || (file->flags & O_ACCMODE) == O_RDONLY)
    return fail(EBADF);
  if (count == 0)
    return 0;
  error = get_size(&file->name, &size);
  if (error == DET_OK && (file->flags & O_APPEND) != 0)
    file->at = size;
  if (error == DET_OK && file->at >= PARTS * FULL)
    error = DET_TOO_LONG;
  if (error == DET_OK)
    error = fill(file, size, file->at);
  if (error != DET_OK)
    return fail_as(error);
  error = put_bytes(file, file->at, bytes, count, &done);
  if (done == 0)
    return fail_as(error);
  file->at += done;
  return (ssize_t)done;
}

off_t
lseek(int fd, off_t offset, int whence)
{
  struct open_file *file;
  uint32_t size = 0;
  int error = DET_OK;

  if (fd >= 0 && fd < FIRST)
    return fail(ESPIPE);
  file = find(fd);
  if (file == NULL)
    return -1;
  if (whence == SEEK_END)
    error = get_size(&file->name, &size);
  if (error != DET_OK)
    return fail_as(error);
  if (whence == SEEK_CUR)
    offset += file->at;
  else if (whence == SEEK_END)
    offset += size;
  else if (whence != SEEK_SET)
    return fail(EINVAL);
  if (offset < 0 || offset > INT32_MAX)
    return fail(EINVAL);
  file->at = (uint32_t)offset;
  return offset;
}

int
ftruncate(int fd, off_t length)
{
  struct open_file *file = find(fd);
  struct name part;
  uint32_t size, got, end = (uint32_t)length;
  int error;

  if (file == NULL)
    return -1;
  if ((file->flags & O_ACCMODE) == O_RDONLY || length < 0)
    return fail(EINVAL);
  if (length > PARTS * FULL)
    return fail(EFBIG);
  error = get_size(&file->name, &size);
  if (error == DET_OK && end >= size)
    error = fill(file, size, end);
  else if (error == DET_OK && end > 0 && end % FULL == 0)
    delete_from(&file->name, end / FULL);
  else if (error == DET_OK) {
    delete_from(&file->name, end / FULL + 1);
    set_part(&part, &file->name, end / FULL);
    if (!have_content())
      error = DET_NO_SLOT;
    else
      error = det_file_get(part.text, part.length, content, end % FULL, 0, &got);
    if (error == DET_OK)
      error = put_content(&part, end % FULL);
  }
  return error == DET_OK ? 0 : fail_as(error);
}

int
isatty(int fd)
{
  (void)fd;
  errno = ENOTTY;
  return 0;
}

int
fsync(int fd)
{
  return fd < FIRST || find(fd) != NULL ? 0 : -1;
}

/* ---- Names ---- */

/* A file gets another name, which no file has; those who have it open follow. */
static int
move(const struct name *from, const struct name *to)
{
  struct open_file *file;
  struct name old, new;
  uint32_t number, got;
  int error;

  if (!have_content())
    return DET_NO_SLOT;
  for (number = 0; set_part(&old, from, number); number++) {
    error = det_file_get(old.text, old.length, content, FULL, 0, &got);
    if (error == DET_NO_FILE && number > 0)
      break;
    if (error == DET_OK && !set_part(&new, to, number))
      error = DET_BAD_NAME;
    if (error == DET_OK)
      error = make(&new, false);
    if (error == DET_OK)
      error = put_content(&new, got);
    if (error != DET_OK) {
      delete_from(to, 0);
      return error;
    }
  }
  delete_from(from, 0);
  for (file = opened; (file = next_of(from, file)) != NULL; file++)
    file->name = *to;
  return DET_OK;
}

static void
delete_unlinked(void)
{
  int fd;

  for (fd = FIRST; fd < FIRST + MOST; fd++)
    if (opened[fd - FIRST].unlinked)
      close(fd);
}

/* Deletes a file. Those who have it open read and write on, under a name that is theirs, until they close it. */
static int
delete(const struct name *name)
{
  static bool at_exit;
  struct open_file *file = next_of(name, opened);
  struct name own;
  char text[DET_FILE_NAME];
  int error, number = 0;

  if (file == NULL) {
    error = det_file_delete(name->text, name->length);
    if (error == DET_OK)
      delete_from(name, 1);
    return error;
  }
  do {
    snprintf(text, sizeof text, "\177unlinked %d", number++);
    set_name(&own, text);
  } while (next_of(&own, opened) != NULL);
  error = move(name, &own);
  for (file = opened; error == DET_OK && (file = next_of(&own, file)) != NULL; file++)
    file->unlinked = true;
  if (!at_exit)
    at_exit = atexit(delete_unlinked) == 0;
  return error;
}

int
unlink(const char *path)
{
  struct name name;
  int error;

  if (set_name(&name, path) != 0)
    return -1;
  error = delete(&name);
  return error == DET_OK ? 0 : fail_as(error);
}

int
rename(const char *from, const char *to)
{
  struct name old, new;
  uint32_t size;
  int error;

  if (set_name(&old, from) != 0 || set_name(&new, to) != 0)
    return -1;
  error = get_size(&old, &size);
  if (error == DET_OK && strcmp(from, to) != 0) {
    error = size > FULL && new.length == DET_FILE_NAME ? DET_BAD_NAME : delete(&new);
    if (error == DET_OK || error == DET_NO_FILE)
      error = move(&old, &new);
  }
  return error == DET_OK ? 0 : fail_as(error);
}

/* A file has no times, and belongs to nobody. Its number is made of its name. */
static int
describe(const struct name *name, struct stat *to)
{
  uint32_t size, number = 2166136261u, i;
  int error = get_size(name, &size);

  if (error != DET_OK)
    return fail_as(error);
  for (i = 0; i < name->length; i++)
    number = (number ^ (unsigned char)name->text[i]) * 16777619u;
  memset(to, 0, sizeof *to);
  to->st_ino = (ino_t)number;
  to->st_mode = S_IFREG | 0644;
  to->st_nlink = 1;
  to->st_size = (off_t)size;
  to->st_blksize = 4096;
  to->st_blocks = (blkcnt_t)((size + 511) / 512);
  return 0;
}

int
stat(const char *restrict path, struct stat *restrict to)
{
  struct name name;

  return set_name(&name, path) != 0 ? -1 : describe(&name, to);
}

int
lstat(const char *restrict path, struct stat *restrict to)
{
  return stat(path, to);
}

int
fstat(int fd, struct stat *to)
{
  struct open_file *file;

  if (fd >= 0 && fd < FIRST) {
    memset(to, 0, sizeof *to);
    to->st_mode = S_IFCHR | 0666;
    to->st_nlink = 1;
    return 0;
  }
  file = find(fd);
  return file == NULL ? -1 : describe(&file->name, to);
}

/* Every file may be read and written, and none executed. */
int
access(const char *path, int how)
{
  struct stat found;

  if (stat(path, &found) != 0)
    return -1;
  return (how & X_OK) != 0 ? fail(EACCES) : 0;
}

int
chmod(const char *path, mode_t mode)
{
  struct stat found;

  (void)mode;
  return stat(path, &found);
}

int
fchmod(int fd, mode_t mode)
{
  (void)mode;
  return fsync(fd);
}

int
fchown(int fd, uid_t user, gid_t group)
{
  (void)user;
  (void)group;
  return fsync(fd);
}

int
utime(const char *path, const struct utimbuf *times)
{
  struct stat found;

  (void)times;
  return stat(path, &found);
}
