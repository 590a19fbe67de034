/* A store of four rows in six places, all of its memory lent by this program;
 * then a row for the head of 1,024 hooks, turned to cable order and back. */
#include "rowstore.h"

#include <stdio.h>
#include <stdlib.h>
#include <string.h>

enum { ROWS = 4, WIDTH = 8, PLACES = 6 };
enum { ROW = 2, TAG = 7, BORDER = 3 };
enum { FILES = 16, HOOKS = 64 };

static uint8_t records[ROWSTORE_RECORDS_SIZE(ROWS, PLACES)];
static uint8_t places[ROWSTORE_PLACES_SIZE(WIDTH, PLACES)];

/* Ends the program unless the answer is the one that is due. */
static void expect(const char *call, unsigned answer, unsigned due) {
  if (answer != due) {
    fprintf(stderr, "%s: %s (%u), expected %u\n", call,
            rowstore_text((uint8_t)answer), answer, due);
    exit(EXIT_FAILURE);
  }
}

static void write_row(uint16_t tag, uint8_t byte) {
  uint8_t bytes[WIDTH];
  memset(bytes, byte, sizeof bytes);
  expect("write",
         rowstore_write(records, sizeof records, places, sizeof places, tag,
                        ROW, bytes, sizeof bytes),
         ROWSTORE_OK);
  printf("write: version %u, row %d, bytes %02x\n", (unsigned)tag, ROW,
         (unsigned)byte);
}

static void read_row(uint16_t tag, size_t row, uint8_t byte,
                     size_t sharers_due) {
  uint8_t due[WIDTH];
  uint8_t out[WIDTH];
  size_t sharers;
  memset(due, byte, sizeof due);
  expect("read",
         rowstore_read(records, sizeof records, places, sizeof places, tag, row,
                       out, sizeof out, &sharers),
         ROWSTORE_OK);
  printf("read: version %u, row %zu:", (unsigned)tag, row);
  for (size_t i = 0; i < sizeof out; i++) {
    printf(" %02x", (unsigned)out[i]);
  }
  printf(", sharers: %zu\n", sharers);
  if (memcmp(out, due, sizeof out) != 0) {
    fprintf(stderr, "read: expected %02x in every byte\n", (unsigned)byte);
    exit(EXIT_FAILURE);
  }
  if (sharers != sharers_due) {
    fprintf(stderr, "read: expected %zu sharers\n", sharers_due);
    exit(EXIT_FAILURE);
  }
}

/* No version has the tag: nothing is filled, and the number is set to 0. */
static void refused_read(uint16_t tag) {
  uint8_t before[WIDTH];
  uint8_t out[WIDTH];
  size_t sharers = SIZE_MAX;
  memset(before, 0xc3, sizeof before);
  memcpy(out, before, sizeof out);
  uint8_t answer = rowstore_read(records, sizeof records, places, sizeof places,
                                 tag, ROW, out, sizeof out, &sharers);
  expect("read of an unknown tag", answer, ROWSTORE_UNKNOWN_TAG);
  printf("read: version %u, row %d, refused with %u, sharers: %zu\n",
         (unsigned)tag, ROW, (unsigned)answer, sharers);
  if (memcmp(out, before, sizeof out) != 0 || sharers != 0) {
    fprintf(stderr, "read: refused, but the row or its sharers are set\n");
    exit(EXIT_FAILURE);
  }
}

/* Rows 0, 1 and 3 with one call, each full of a byte of its own. */
static void write_border(uint16_t tag, uint8_t due, size_t done_due) {
  static const uint16_t rows[BORDER] = {0, 1, 3};
  uint8_t bytes[BORDER * WIDTH];
  size_t done;
  for (size_t i = 0; i < BORDER; i++) {
    memset(bytes + i * WIDTH, 0xd0 + rows[i], WIDTH);
  }
  expect("border",
         rowstore_border(records, sizeof records, places, sizeof places, tag,
                         rows, BORDER, bytes, sizeof bytes, &done),
         due);
  printf("border: version %u, rows 0, 1 and 3, answer %u, rows done: %zu\n",
         (unsigned)tag, (unsigned)due, done);
  if (done != done_due) {
    fprintf(stderr, "border: expected %zu rows done\n", done_due);
    exit(EXIT_FAILURE);
  }
}

static void count(size_t used_due, size_t snapshots_due) {
  size_t used;
  size_t snapshots;
  expect("count", rowstore_count(records, sizeof records, &used, &snapshots),
         ROWSTORE_OK);
  printf("count: %zu of %d places in use, snapshots: %zu\n", used, PLACES,
         snapshots);
  if (used != used_due || snapshots != snapshots_due) {
    fprintf(stderr, "count: expected %zu and %zu\n", used_due, snapshots_due);
    exit(EXIT_FAILURE);
  }
}

/* The store has no row 4: the answer says so, and nothing changes. */
static void refused_write(void) {
  static uint8_t records_before[sizeof records];
  static uint8_t places_before[sizeof places];
  uint8_t bytes[WIDTH];
  memset(bytes, 0xc3, sizeof bytes);
  memcpy(records_before, records, sizeof records);
  memcpy(places_before, places, sizeof places);
  uint8_t answer =
      rowstore_write(records, sizeof records, places, sizeof places,
                     ROWSTORE_ORIGIN, ROWS, bytes, sizeof bytes);
  expect("write to a row beyond the last", answer, ROWSTORE_BAD_ROW);
  printf("write: version %d, row %d, refused with %u\n", ROWSTORE_ORIGIN, ROWS,
         (unsigned)answer);
  if (memcmp(records, records_before, sizeof records) != 0 ||
      memcmp(places, places_before, sizeof places) != 0) {
    fprintf(stderr, "write: refused, but the store has changed\n");
    exit(EXIT_FAILURE);
  }
}

/* The bits of a row, from the highest of byte 0 on. */
static void print_bits(const char *name, const uint8_t *row) {
  printf("%s:\n", name);
  for (size_t n = 0; n < FILES * HOOKS; n++) {
    putchar(row[n / 8] >> (7 - n % 8) & 1 ? '#' : '.');
    if (n % HOOKS == HOOKS - 1) {
      putchar('\n');
    }
  }
}

/* Four hooks of each file, further on from file to file. */
static void turn_row(void) {
  uint8_t row[ROWSTORE_CABLE_SIZE] = {0};
  uint8_t cable[ROWSTORE_CABLE_SIZE];
  uint8_t back[ROWSTORE_CABLE_SIZE];
  for (size_t file = 0; file < FILES; file++) {
    row[file * HOOKS / 8 + file / 2] = file % 2 == 0 ? 0xf0 : 0x0f;
  }
  expect("to cable", rowstore_to_cable(row, sizeof row, cable, sizeof cable),
         ROWSTORE_OK);
  print_bits("row, a file of 64 hooks to a line", row);
  print_bits("the same in cable order, 64 positions to a line", cable);
  expect("from cable",
         rowstore_from_cable(cable, sizeof cable, back, sizeof back),
         ROWSTORE_OK);
  if (memcmp(back, row, sizeof back) != 0) {
    fprintf(stderr, "from cable: another row came back\n");
    exit(EXIT_FAILURE);
  }
  memset(cable, 0xc3, sizeof cable);
  memcpy(back, cable, sizeof back);
  uint8_t answer = rowstore_to_cable(row, sizeof row - 1, cable, sizeof cable);
  expect("to cable, of a row that is cut", answer, ROWSTORE_BAD_LENGTH);
  printf("to cable: a row of %zu bytes, refused with %u\n", sizeof row - 1,
         (unsigned)answer);
  if (memcmp(cable, back, sizeof cable) != 0) {
    fprintf(stderr, "to cable: refused, but the output has changed\n");
    exit(EXIT_FAILURE);
  }
}

int main(void) {
  expect("open",
         rowstore_open(records, sizeof records, places, sizeof places, ROWS,
                       WIDTH, PLACES),
         ROWSTORE_OK);
  printf("open: %d rows of %d bytes in %d places\n", ROWS, WIDTH, PLACES);
  printf("lent: %zu bytes of records, %zu of places\n", sizeof records,
         sizeof places);
  count(4, 0);

  write_row(ROWSTORE_ORIGIN, 0xa1);
  expect("snapshot",
         rowstore_snapshot(records, sizeof records, ROWSTORE_ORIGIN, TAG),
         ROWSTORE_OK);
  printf("snapshot: version %d as %d\n", ROWSTORE_ORIGIN, TAG);
  read_row(TAG, ROW, 0xa1, 2);
  count(4, 1);

  /* The origin and the snapshot share the row, so it takes a place more. */
  write_row(ROWSTORE_ORIGIN, 0xb2);
  read_row(ROWSTORE_ORIGIN, ROW, 0xb2, 1);
  read_row(TAG, ROW, 0xa1, 1);
  count(5, 1);

  refused_write();

  /* One place is free: row 0 is written, row 1 has none, row 3 has no turn. */
  write_border(TAG, ROWSTORE_PLACES_FULL, 1);
  read_row(TAG, 0, 0xd0, 1);
  read_row(TAG, 1, 0, 2);
  count(6, 1);

  expect("delete", rowstore_delete(records, sizeof records, TAG), ROWSTORE_OK);
  printf("delete: version %d\n", TAG);
  refused_read(TAG);
  read_row(ROWSTORE_ORIGIN, 1, 0, 1);
  read_row(ROWSTORE_ORIGIN, ROW, 0xb2, 1);
  count(4, 0);

  /* Rows that nobody shares are written where they are. */
  write_border(ROWSTORE_ORIGIN, ROWSTORE_OK, BORDER);
  read_row(ROWSTORE_ORIGIN, 0, 0xd0, 1);
  read_row(ROWSTORE_ORIGIN, 1, 0xd1, 1);
  read_row(ROWSTORE_ORIGIN, ROW, 0xb2, 1);
  read_row(ROWSTORE_ORIGIN, 3, 0xd3, 1);
  count(4, 0);

  turn_row();
  return EXIT_SUCCESS;
}
