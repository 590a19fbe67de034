/* What the header has without the library: words for answers, sizes, limits and
 * offsets; those of an opened store are where the header says. */
#include "rowstore.h"

#include <stdio.h>
#include <stdlib.h>
#include <string.h>

enum { ROWS = 258, WIDTH = 259, PLACES = 516 };

_Static_assert(ROWSTORE_VALID(ROWS, WIDTH, PLACES), "the store below");
_Static_assert(ROWSTORE_VALID(1, 1, 1), "the smallest store");
_Static_assert(ROWSTORE_VALID(ROWSTORE_MAX_ROWS, ROWSTORE_MAX_WIDTH,
                              ROWSTORE_MAX_PLACES),
               "the largest store");
_Static_assert(!ROWSTORE_VALID(0, 1, 1), "no row");
_Static_assert(!ROWSTORE_VALID(1, 0, 1), "no byte");
_Static_assert(!ROWSTORE_VALID(1, 1, 0), "no place");
_Static_assert(!ROWSTORE_VALID(6, 8, 4), "fewer places than rows");
_Static_assert(!ROWSTORE_VALID(ROWSTORE_MAX_ROWS + 1, 1, ROWSTORE_MAX_PLACES),
               "too many rows");
_Static_assert(!ROWSTORE_VALID(1, ROWSTORE_MAX_WIDTH + 1, 1), "too wide");
_Static_assert(!ROWSTORE_VALID(1, 1, ROWSTORE_MAX_PLACES + 1),
               "too many places");

static uint8_t records[ROWSTORE_RECORDS_SIZE(ROWS, PLACES)];
static uint8_t places[ROWSTORE_PLACES_SIZE(WIDTH, PLACES)];

static void expect(const char *what, size_t got, size_t due) {
  if (got != due) {
    fprintf(stderr, "header: %s: %zu, expected %zu\n", what, got, due);
    exit(EXIT_FAILURE);
  }
}

static size_t number(size_t at) {
  return (size_t)records[at] * 256 + records[at + 1];
}

/* What open answers agrees with ROWSTORE_VALID, also around the limits. */
static void try_limits(void) {
  static uint8_t store[2];
  static const size_t measures[] = {0,    1,    2,    1023, 1024,
                                    1025, 4095, 4096, 4097, SIZE_MAX};
  enum { COUNT = sizeof measures / sizeof measures[0] };
  for (size_t i = 0; i < COUNT * COUNT * COUNT; i++) {
    size_t rows = measures[i % COUNT];
    size_t width = measures[i / COUNT % COUNT];
    size_t place_count = measures[i / COUNT / COUNT];
    uint8_t answer =
        rowstore_open(store, 1, store + 1, 1, rows, width, place_count);
    expect("open", answer,
           ROWSTORE_VALID(rows, width, place_count) ? ROWSTORE_BAD_LENGTH
                                                    : ROWSTORE_BAD_SIZE);
  }
}

/* Every answer has words of its own; what is no answer has none. */
static void try_words(void) {
  static const uint8_t answers[] = {
      ROWSTORE_OK,          ROWSTORE_BAD_SIZE,       ROWSTORE_BAD_LENGTH,
      ROWSTORE_BAD_ROW,     ROWSTORE_ZERO_TAG,       ROWSTORE_ORIGIN_TAG,
      ROWSTORE_UNSOUND,     ROWSTORE_UNKNOWN_TAG,    ROWSTORE_TAG_ALIVE,
      ROWSTORE_PLACES_FULL, ROWSTORE_SNAPSHOTS_FULL, ROWSTORE_TOO_MANY_ROWS};
  size_t known = 0;
  for (unsigned answer = 0; answer <= UINT8_MAX; answer++) {
    const char *words = rowstore_text((uint8_t)answer);
    known += strcmp(words, rowstore_text(UINT8_MAX)) != 0;
    for (unsigned other = 0; other < answer; other++) {
      const char *others = rowstore_text((uint8_t)other);
      int same = strcmp(words, others) == 0;
      int unknown = strcmp(words, rowstore_text(UINT8_MAX)) == 0;
      expect("answers with the same words", same && !unknown, 0);
    }
  }
  expect("answers with words", known, sizeof answers);
  for (size_t i = 0; i < sizeof answers; i++) {
    expect("an answer without words",
           strcmp(rowstore_text(answers[i]), rowstore_text(UINT8_MAX)) == 0, 0);
  }
}

/* A snapshot of the origin is node 1; written, it takes the first place. */
static void try_offsets(void) {
  enum { TAG = 0x0102, ROW = 0x0101 };
  static const uint8_t bytes[WIDTH] = {1};
  expect("open",
         rowstore_open(records, sizeof records, places, sizeof places, ROWS,
                       WIDTH, PLACES),
         ROWSTORE_OK);
  expect("snapshot",
         rowstore_snapshot(records, sizeof records, ROWSTORE_ORIGIN, TAG),
         ROWSTORE_OK);
  expect("write",
         rowstore_write(records, sizeof records, places, sizeof places, TAG,
                        ROW, bytes, sizeof bytes),
         ROWSTORE_OK);
  expect("rows", number(ROWSTORE_ROWS_AT), ROWS);
  expect("width", number(ROWSTORE_WIDTH_AT), WIDTH);
  expect("place_count", number(ROWSTORE_PLACE_COUNT_AT), PLACES);
  expect("state of node 1", records[ROWSTORE_STATES_AT + 1], ROWSTORE_ALIVE);
  expect("state of node 127", records[ROWSTORE_STATES_AT + ROWSTORE_NODES - 1],
         ROWSTORE_EMPTY);
  expect("parent of node 1", records[ROWSTORE_PARENTS_AT + 1], 0);
  expect("tag of node 1", number(ROWSTORE_TAGS_AT + 2), TAG);
  expect("node of the first entry", records[ROWSTORE_TABLE_AT], 1);
  expect("row of the first entry", number(ROWSTORE_TABLE_ROWS_AT(ROWS, PLACES)),
         ROW);
  expect("first byte of the first place", places[ROWS * WIDTH], 1);
}

int main(void) {
  try_limits();
  try_words();
  try_offsets();
  printf("header: version %d, layout %d\n", ROWSTORE_VERSION, ROWSTORE_LAYOUT);
  return EXIT_SUCCESS;
}
