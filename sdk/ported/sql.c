/*
 * A shell for SQLite as small as it can be: statements from the standard input, rows to the standard output, in a database that stands in memory.
 * The library is built with SQLITE_OS_OTHER, so the file system is here, in which no file can be opened.
 */
#include <stdio.h>
#include <stdlib.h>
#include <string.h>
#include "sqlite3.h"

static int
open_file(sqlite3_vfs *vfs, const char *name, sqlite3_file *file, int flags, int *out)
{
  (void)vfs, (void)name, (void)flags, (void)out;
  file->pMethods = NULL;
  return SQLITE_CANTOPEN;
}

static int
delete_file(sqlite3_vfs *vfs, const char *name, int sync)
{
  (void)vfs, (void)name, (void)sync;
  return SQLITE_OK;
}

static int
access_file(sqlite3_vfs *vfs, const char *name, int flags, int *there)
{
  (void)vfs, (void)name, (void)flags;
  *there = 0;
  return SQLITE_OK;
}

static int
full_name(sqlite3_vfs *vfs, const char *name, int room, char *to)
{
  (void)vfs;
  snprintf(to, (size_t)room, "%s", name);
  return SQLITE_OK;
}

static int
some_bytes(sqlite3_vfs *vfs, int count, char *to)
{
  (void)vfs;
  memset(to, 7, (size_t)count);
  return count;
}

static int
sleep_for(sqlite3_vfs *vfs, int microseconds)
{
  (void)vfs;
  return microseconds;
}

static int
day(sqlite3_vfs *vfs, double *now)
{
  (void)vfs;
  *now = 2460000.5;
  return SQLITE_OK;
}

int
sqlite3_os_init(void)
{
  static sqlite3_vfs vfs = {
    .iVersion = 1, .szOsFile = sizeof(sqlite3_file), .mxPathname = 64, .zName = "none", .xOpen = open_file, .xDelete = delete_file,
    .xAccess = access_file, .xFullPathname = full_name, .xRandomness = some_bytes, .xSleep = sleep_for, .xCurrentTime = day
  };

  return sqlite3_vfs_register(&vfs, 1);
}

int
sqlite3_os_end(void)
{
  return SQLITE_OK;
}

static int
row(void *argument, int columns, char **values, char **names)
{
  int i;

  (void)argument, (void)names;
  for (i = 0; i < columns; i++)
    printf("%s%s", i > 0 ? "|" : "", values[i] != NULL ? values[i] : "NULL");
  printf("\n");
  return 0;
}

int
main(void)
{
  static char text[200000];
  char line[2000], *said;
  sqlite3 *db;
  int failed = 0;

  if (sqlite3_open(":memory:", &db) != SQLITE_OK)
    return 1;
  while (fgets(line, sizeof line, stdin) != NULL) {
    strcat(text, line);
    if (!sqlite3_complete(text))
      continue;
    if (sqlite3_exec(db, text, row, NULL, &said) != SQLITE_OK) {
      printf("error: %s\n", said);
      sqlite3_free(said);
      failed++;
    }
    text[0] = 0;
  }
  sqlite3_close(db);
  return failed;
}
