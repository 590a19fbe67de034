/* Refused calls, reads and counts on read-only memory: a byte that is written
 * there, even with its old value, ends the program. */
#define _DEFAULT_SOURCE

#include "rowstore.h"

#include <signal.h>
#include <stdio.h>
#include <stdlib.h>
#include <string.h>
#include <sys/mman.h>
#include <sys/wait.h>
#include <unistd.h>

enum { WIDTH = 4, UNKNOWN = 99 };

/* The store, with a byte more for each buffer, and its measures. */
static uint8_t *records, *places;
static size_t rows, place_count, records_len, places_len;
static unsigned tried;

static void expect(const char *what, unsigned got, unsigned due) {
  if (got != due) {
    fprintf(stderr, "readonly: %s: %u, expected %u\n", what, got, due);
    exit(EXIT_FAILURE);
  }
  tried++;
}

static uint8_t *map(size_t len) {
  uint8_t *at = mmap(NULL, len, PROT_READ | PROT_WRITE,
                     MAP_PRIVATE | MAP_ANONYMOUS, -1, 0);
  if (at == MAP_FAILED) {
    perror("readonly: mmap");
    exit(EXIT_FAILURE);
  }
  return at;
}

static void protect(int how) {
  if (mprotect(records, records_len + 1, how) != 0 ||
      mprotect(places, places_len + 1, how) != 0) {
    perror("readonly: mprotect");
    exit(EXIT_FAILURE);
  }
}

static uint8_t open_store(size_t len, size_t lent, size_t row_count) {
  return rowstore_open(records, len, places, lent, row_count, WIDTH,
                       place_count);
}

static uint8_t snapshot(size_t len, uint16_t source, uint16_t tag) {
  return rowstore_snapshot(records, len, source, tag);
}

static uint8_t read_row(size_t len, size_t lent, uint16_t tag, size_t row,
                        size_t out_len) {
  uint8_t out[WIDTH];
  size_t sharers;
  return rowstore_read(records, len, places, lent, tag, row, out, out_len,
                       &sharers);
}

static uint8_t write_row(size_t len, size_t lent, uint16_t tag, size_t row,
                         size_t bytes_len) {
  static const uint8_t bytes[WIDTH] = {1, 2, 3, 4};
  return rowstore_write(records, len, places, lent, tag, row, bytes, bytes_len);
}

static uint8_t border(size_t len, size_t lent, uint16_t tag, size_t row,
                      size_t rows_len) {
  static const uint8_t bytes[(ROWSTORE_MAX_BORDER + 1) * WIDTH] = {5, 6, 7, 8};
  const uint16_t named[ROWSTORE_MAX_BORDER + 1] = {(uint16_t)row};
  size_t done;
  return rowstore_border(records, len, places, lent, tag, named, rows_len,
                         bytes, rows_len * WIDTH, &done);
}

static uint8_t count(size_t len) {
  size_t used, snapshots;
  return rowstore_count(records, len, &used, &snapshots);
}

/* A full store in which 65 versions share the last row. */
static void fill(void) {
  expect("open", open_store(records_len, places_len, rows), ROWSTORE_OK);
  for (uint16_t tag = 1; tag <= ROWSTORE_MAX_SNAPSHOTS; tag++) {
    expect("snapshot", snapshot(records_len, tag / 2, tag), ROWSTORE_OK);
  }
  size_t written = 0;
  for (size_t i = 0; written < place_count - rows; i++) {
    uint16_t tag = (uint16_t)(i % ROWSTORE_MAX_SNAPSHOTS + 1);
    size_t row = i / ROWSTORE_MAX_SNAPSHOTS % (rows - 1);
    expect("write", write_row(records_len, places_len, tag, row, WIDTH),
           ROWSTORE_OK);
    written++;
  }
}

/* An accepted write to read-only memory must end a process. */
static void try_memory(void) {
  int status;
  pid_t child = fork();
  if (child == 0) {
    _exit(write_row(records_len, places_len, 1, 0, WIDTH));
  }
  if (child < 0 || waitpid(child, &status, 0) != child) {
    perror("readonly: fork");
    exit(EXIT_FAILURE);
  }
  expect("the signal of a write", WIFSIGNALED(status) ? WTERMSIG(status) : 0,
         SIGSEGV);
}

static void refuse_all(size_t n) {
  expect("open", open_store(n, places_len, 0), 1);
  expect("open", open_store(n - 1, places_len, rows), 2);
  expect("open", open_store(n, places_len + 1, rows), 2);
  expect("snapshot", snapshot(n - 1, 0, 70), 20);
  expect("snapshot", snapshot(n, 0, 0), 4);
  expect("snapshot", snapshot(n, UNKNOWN, 70), 21);
  expect("snapshot", snapshot(n, 0, 64), 22);
  expect("snapshot", snapshot(n, 0, 70), 23);
  expect("read", read_row(n + 1, places_len, 0, 0, WIDTH), 20);
  expect("read", read_row(n, places_len - 1, 0, 0, WIDTH), 2);
  expect("read", read_row(n, places_len, 0, 0, WIDTH - 1), 2);
  expect("read", read_row(n, places_len, 0, rows, WIDTH), 3);
  expect("read", read_row(n, places_len, UNKNOWN, 0, WIDTH), 21);
  expect("write", write_row(n - 1, places_len, 0, 0, WIDTH), 20);
  expect("write", write_row(n, places_len + 1, 0, 0, WIDTH), 2);
  expect("write", write_row(n, places_len, 0, 0, WIDTH - 1), 2);
  expect("write", write_row(n, places_len, 0, rows, WIDTH), 3);
  expect("write", write_row(n, places_len, UNKNOWN, 0, WIDTH), 21);
  expect("write", write_row(n, places_len, 0, rows - 1, WIDTH), 24);
  expect("border", border(n - 1, places_len, 0, 0, 1), 20);
  expect("border", border(n, places_len, 0, 0, ROWSTORE_MAX_BORDER + 1), 25);
  expect("border", border(n, places_len + 1, 0, 0, 1), 2);
  expect("border", border(n, places_len, UNKNOWN, 0, 1), 21);
  expect("border", border(n, places_len, 0, rows, 1), 3);
  expect("border", border(n, places_len, 0, rows - 1, 1), 24);
  expect("delete", rowstore_delete(records, n - 1, 1), 20);
  expect("delete", rowstore_delete(records, n, 0), 5);
  expect("delete", rowstore_delete(records, n, UNKNOWN), 21);
  expect("count", count(n - 1), 20);
}

static void accept_all(size_t n) {
  for (uint16_t tag = 0; tag <= ROWSTORE_MAX_SNAPSHOTS; tag++) {
    for (size_t row = 0; row < rows; row++) {
      expect("read", read_row(n, places_len, tag, row, WIDTH), 0);
    }
  }
  expect("border of no rows", border(n, places_len, 0, 0, 0), 0);
  expect("count", count(n), 0);
}

/* Records that are damaged in any one byte, and are not sound for it. */
static void refuse_damaged(void) {
  for (size_t at = 0; at < records_len; at++) {
    protect(PROT_READ | PROT_WRITE);
    records[at] ^= 0x80;
    protect(PROT_READ);
    if (count(records_len) == ROWSTORE_UNSOUND) {
      expect("snapshot", snapshot(records_len, 0, 70), 20);
      expect("read", read_row(records_len, places_len, 0, 0, WIDTH), 20);
      expect("write", write_row(records_len, places_len, 0, 0, WIDTH), 20);
      expect("border", border(records_len, places_len, 0, 0, 1), 20);
      expect("delete", rowstore_delete(records, records_len, 1), 20);
    }
    protect(PROT_READ | PROT_WRITE);
    records[at] ^= 0x80;
    protect(PROT_READ);
  }
}

static void try_store(size_t row_count, size_t count_of_places) {
  rows = row_count;
  place_count = count_of_places;
  records_len = ROWSTORE_RECORDS_SIZE(rows, place_count);
  places_len = ROWSTORE_PLACES_SIZE(WIDTH, place_count);
  records = map(records_len + 1);
  places = map(places_len + 1);
  fill();
  protect(PROT_READ);
  try_memory();
  tried = 0;
  refuse_all(records_len);
  accept_all(records_len);
  refuse_damaged();
  printf(
      "readonly: %zu rows in %zu places: %u calls, and no byte was written\n",
      rows, place_count, tried);
}

int main(void) {
  try_store(2, 3);
  try_store(128, 512);
  try_store(ROWSTORE_MAX_ROWS, ROWSTORE_MAX_PLACES);
  return EXIT_SUCCESS;
}
