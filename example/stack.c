/* The stack that each call needs: every call runs on a painted stack, and the
 * deepest byte without paint is looked up. Every answer is checked. */
#define _XOPEN_SOURCE 700

#include "rowstore.h"

#include <stdio.h>
#include <stdlib.h>
#include <string.h>
#include <ucontext.h>

/* LIMIT is what rowstore.h promises; there is room to see it broken. */
enum { LIMIT = 64 * 1024, STACK = 8 * LIMIT, KNOWN = 100000, PAINT = 0xa5 };
enum { MOST_RECORDS = ROWSTORE_RECORDS_SIZE(1, ROWSTORE_MAX_PLACES) };
enum { MOST_PLACES = ROWSTORE_MAX_PLACES * ROWSTORE_MAX_WIDTH };
enum { UNKNOWN = 99 };

enum call {
  OPEN,
  SNAPSHOT,
  READ,
  WRITE,
  BORDER,
  DELETE,
  COUNT,
  TO_CABLE,
  FROM_CABLE,
  FILL_KNOWN
};

static const char *const names[FILL_KNOWN] = {
    "open",   "snapshot", "read",     "write",     "border",
    "delete", "count",    "to cable", "from cable"};

struct figure {
  size_t bytes;
  unsigned accepted;
  unsigned refused;
};

static uint64_t stack[STACK / 8];
static ucontext_t host, inside;
static struct figure figures[FILL_KNOWN];

/* The store, and the arguments of the next call. */
static uint8_t records[MOST_RECORDS], places[MOST_PLACES];
static uint8_t written[(ROWSTORE_MAX_BORDER + 1) * ROWSTORE_MAX_WIDTH];
static uint8_t out[ROWSTORE_MAX_WIDTH];
static uint16_t border[ROWSTORE_MAX_BORDER + 1];
static size_t rows, width, place_count, row, used, snapshots, done, sharers;
static size_t records_len, places_len, row_len, out_len, border_len,
    border_bytes;
static uint16_t tag, source;
static enum call next;
static uint8_t answer;

static void expect(const char *what, size_t got, size_t due) {
  if (got != due) {
    fprintf(stderr, "stack: %zu rows: %s: %zu, expected %zu\n", rows, what, got,
            due);
    exit(EXIT_FAILURE);
  }
}

/* A known number of bytes, to see that they are found. */
static uint8_t fill_known(void) {
  volatile uint8_t bytes[KNOWN];
  for (size_t i = 0; i < KNOWN; i++) {
    bytes[i] = 0;
  }
  return bytes[0];
}

static void make_call(void) {
  switch (next) {
  case OPEN:
    answer = rowstore_open(records, records_len, places, places_len, rows,
                           width, place_count);
    break;
  case SNAPSHOT:
    answer = rowstore_snapshot(records, records_len, source, tag);
    break;
  case READ:
    answer = rowstore_read(records, records_len, places, places_len, tag, row,
                           out, row_len, &sharers);
    break;
  case WRITE:
    answer = rowstore_write(records, records_len, places, places_len, tag, row,
                            written, row_len);
    break;
  case BORDER:
    answer = rowstore_border(records, records_len, places, places_len, tag,
                             border, border_len, written, border_bytes, &done);
    break;
  case DELETE:
    answer = rowstore_delete(records, records_len, tag);
    break;
  case COUNT:
    answer = rowstore_count(records, records_len, &used, &snapshots);
    break;
  case TO_CABLE:
    answer = rowstore_to_cable(written, row_len, out, out_len);
    break;
  case FROM_CABLE:
    answer = rowstore_from_cable(written, row_len, out, out_len);
    break;
  case FILL_KNOWN:
    answer = fill_known();
    break;
  }
}

/* Makes the call on fresh paint. The frame that calls it is counted too. */
static size_t depth(enum call call) {
  static uint64_t paint;
  if (paint == 0) {
    memset(&paint, PAINT, sizeof paint);
    memset(stack, PAINT, sizeof stack);
  }
  next = call;
  expect("getcontext", (size_t)getcontext(&inside), 0);
  inside.uc_stack.ss_sp = stack;
  inside.uc_stack.ss_size = sizeof stack;
  inside.uc_link = &host;
  makecontext(&inside, make_call, 0);
  expect("swapcontext", (size_t)swapcontext(&host, &inside), 0);
  size_t unused = 0;
  while (unused < STACK / 8 && stack[unused] == paint) {
    unused++;
  }
  size_t bytes = sizeof stack - 8 * unused;
  memset(&stack[unused], PAINT, bytes);
  return bytes;
}

static void made(enum call call, uint8_t due) {
  struct figure *figure = &figures[call];
  size_t bytes = depth(call);
  expect(names[call], answer, due);
  if (bytes > figure->bytes) {
    figure->bytes = bytes;
  }
  if (due == ROWSTORE_OK) {
    figure->accepted++;
  } else {
    figure->refused++;
  }
}

static void right_lengths(void) {
  records_len = ROWSTORE_RECORDS_SIZE(rows, place_count);
  places_len = ROWSTORE_PLACES_SIZE(width, place_count);
  row_len = width;
}

static void counted(size_t used_due, size_t snapshots_due, size_t ghosts_due) {
  size_t ghosts = 0;
  for (size_t n = 0; n < ROWSTORE_NODES; n++) {
    ghosts += records[ROWSTORE_STATES_AT + n] == ROWSTORE_GHOST;
  }
  made(COUNT, ROWSTORE_OK);
  expect("places in use", used, used_due);
  expect("snapshots", snapshots, snapshots_due);
  expect("ghosts", ghosts, ghosts_due);
}

static void take(uint16_t of, uint16_t as, uint8_t due) {
  source = of;
  tag = as;
  made(SNAPSHOT, due);
}

static void put(uint16_t of, size_t at, uint8_t byte, uint8_t due) {
  tag = of;
  row = at;
  memset(written, byte, sizeof written);
  made(WRITE, due);
}

/* The next border: the first so many rows again and again, all of one byte. */
static void line_up(size_t different, size_t len, uint8_t byte) {
  for (size_t i = 0; i < len; i++) {
    border[i] = (uint16_t)(i % different);
  }
  border_len = len;
  border_bytes = len * width;
  memset(written, byte, sizeof written);
}

static void put_border(uint16_t of, uint8_t due, size_t done_due) {
  tag = of;
  done = PAINT;
  made(BORDER, due);
  expect("rows done", done, done_due);
}

static void get(uint16_t of, size_t at, uint8_t byte, uint8_t due,
                size_t sharers_due) {
  tag = of;
  row = at;
  sharers = PAINT;
  memset(out, PAINT, sizeof out);
  made(READ, due);
  expect("sharers", sharers, sharers_due);
  for (size_t i = 0; i < width; i++) {
    expect("byte read", out[i], due == ROWSTORE_OK ? byte : PAINT);
  }
}

static void drop(uint16_t of, uint8_t due) {
  tag = of;
  made(DELETE, due);
}

static void openings(size_t l, size_t b, size_t p) {
  rows = l;
  width = b;
  place_count = p;
  right_lengths();
  rows = 0;
  made(OPEN, ROWSTORE_BAD_SIZE);
  rows = l;
  places_len--;
  made(OPEN, ROWSTORE_BAD_LENGTH);
  right_lengths();
  records_len--;
  made(OPEN, ROWSTORE_BAD_LENGTH);
  right_lengths();
  made(OPEN, ROWSTORE_OK);
  counted(rows, 0, 0);
}

/* Each way that a write goes, and deletes of nodes with and without others
 * below them. */
static void ways(void) {
  size_t last = rows - 1;
  put(ROWSTORE_ORIGIN, last, 0x10, ROWSTORE_OK);
  take(ROWSTORE_ORIGIN, 1, ROWSTORE_OK);
  take(1, 2, ROWSTORE_OK);
  counted(rows, 2, 0);
  /* Tag 2 hangs on tag 1's node, which becomes a ghost. */
  put(1, last, 0x11, ROWSTORE_OK);
  counted(rows + 1, 2, 1);
  /* The origin's old row is saved for tag 2, which then has it alone. */
  put(ROWSTORE_ORIGIN, last, 0x20, ROWSTORE_OK);
  counted(rows + 2, 2, 1);
  put(2, last, 0x12, ROWSTORE_OK);
  put(1, last, 0x21, ROWSTORE_OK);
  counted(rows + 2, 2, 1);
  get(ROWSTORE_ORIGIN, last, 0x20, ROWSTORE_OK, 1);
  get(1, last, 0x21, ROWSTORE_OK, 1);
  get(2, last, 0x12, ROWSTORE_OK, 1);
  /* Tag 3 goes between the origin and the ghost. */
  take(ROWSTORE_ORIGIN, 3, ROWSTORE_OK);
  take(2, 4, ROWSTORE_OK);
  take(2, 5, ROWSTORE_OK);
  get(4, last, 0x12, ROWSTORE_OK, 3);
  put(4, last, 0x14, ROWSTORE_OK);
  get(5, last, 0x12, ROWSTORE_OK, 2);
  counted(rows + 3, 5, 1);
  /* Tag 2 leaves a ghost with two nodes, which goes with one of them. */
  drop(2, ROWSTORE_OK);
  counted(rows + 3, 4, 2);
  get(5, last, 0x12, ROWSTORE_OK, 1);
  drop(4, ROWSTORE_OK);
  counted(rows + 2, 3, 1);
  /* The other ghost hangs on tag 3, and goes with tag 1. */
  drop(3, ROWSTORE_OK);
  counted(rows + 2, 2, 1);
  drop(1, ROWSTORE_OK);
  counted(rows + 1, 1, 0);
  get(5, last, 0x12, ROWSTORE_OK, 1);
  drop(5, ROWSTORE_OK);
  counted(rows, 0, 0);
}

/* Borders of shared rows: of a snapshot, which leaves a ghost, and of the
 * origin, whose old rows are saved; then of rows that are not shared. The last
 * row is left as it is. */
static void borders(void) {
  size_t most = ROWSTORE_MAX_BORDER;
  size_t moved = rows <= most ? rows - 1 : most;
  take(ROWSTORE_ORIGIN, 1, ROWSTORE_OK);
  take(1, 2, ROWSTORE_OK);
  line_up(moved, most, 0x81);
  put_border(1, ROWSTORE_OK, most);
  counted(rows + moved, 2, 1);
  line_up(moved, most, 0x80);
  put_border(ROWSTORE_ORIGIN, ROWSTORE_OK, most);
  counted(rows + 2 * moved, 2, 1);
  line_up(moved, most, 0x82);
  put_border(2, ROWSTORE_OK, most);
  line_up(moved, 0, 0);
  put_border(2, ROWSTORE_OK, 0);
  counted(rows + 2 * moved, 2, 1);
  get(ROWSTORE_ORIGIN, moved - 1, 0x80, ROWSTORE_OK, 1);
  get(1, moved - 1, 0x81, ROWSTORE_OK, 1);
  get(2, moved - 1, 0x82, ROWSTORE_OK, 1);
  get(2, rows - 1, 0x20, ROWSTORE_OK, 3);
  drop(2, ROWSTORE_OK);
  drop(1, ROWSTORE_OK);
  counted(rows, 0, 0);
}

/* A chain of 64 snapshots, then rows from the deepest up until every place is
 * in use: 63 ghosts, and so every node. */
static void fill(size_t owned[ROWSTORE_MAX_SNAPSHOTS + 1]) {
  size_t left = place_count - rows;
  for (uint16_t i = 1; i <= ROWSTORE_MAX_SNAPSHOTS; i++) {
    take(i - 1, i, ROWSTORE_OK);
    owned[i] = 0;
  }
  for (size_t at = 0; at + 1 < rows && left > 0; at++) {
    for (uint16_t i = ROWSTORE_MAX_SNAPSHOTS; i > 0 && left > 0; i--) {
      put(i, at, (uint8_t)i, ROWSTORE_OK);
      owned[i]++;
      left--;
    }
  }
  counted(place_count, ROWSTORE_MAX_SNAPSHOTS, ROWSTORE_MAX_SNAPSHOTS - 1);
}

static void refusals(void) {
  size_t last = rows - 1;
  uint16_t alive = ROWSTORE_MAX_SNAPSHOTS;
  put(alive, last, 1, ROWSTORE_PLACES_FULL);
  put(ROWSTORE_ORIGIN, last, 1, ROWSTORE_PLACES_FULL);
  put(UNKNOWN, 0, 1, ROWSTORE_UNKNOWN_TAG);
  put(alive, rows, 1, ROWSTORE_BAD_ROW);
  get(UNKNOWN, 0, 1, ROWSTORE_UNKNOWN_TAG, 0);
  get(alive, rows, 1, ROWSTORE_BAD_ROW, 0);
  places_len--;
  put(alive, 0, 1, ROWSTORE_BAD_LENGTH);
  get(alive, 0, 1, ROWSTORE_BAD_LENGTH, 0);
  right_lengths();
  row_len--;
  put(alive, 0, 1, ROWSTORE_BAD_LENGTH);
  get(alive, 0, 1, ROWSTORE_BAD_LENGTH, 0);
  right_lengths();
  line_up(1, ROWSTORE_MAX_BORDER + 1, 1);
  put_border(alive, ROWSTORE_TOO_MANY_ROWS, 0);
  /* Behind row 0, which has the bytes already, a shared row, then no row. */
  line_up(1, 3, ROWSTORE_MAX_SNAPSHOTS);
  border[1] = (uint16_t)last;
  put_border(alive, ROWSTORE_PLACES_FULL, 1);
  border[1] = (uint16_t)rows;
  put_border(alive, ROWSTORE_BAD_ROW, 1);
  put_border(UNKNOWN, ROWSTORE_UNKNOWN_TAG, 0);
  places_len--;
  put_border(alive, ROWSTORE_BAD_LENGTH, 0);
  right_lengths();
  border_bytes--;
  put_border(alive, ROWSTORE_BAD_LENGTH, 0);
  take(ROWSTORE_ORIGIN, 0, ROWSTORE_ZERO_TAG);
  take(UNKNOWN, 1, ROWSTORE_UNKNOWN_TAG);
  take(ROWSTORE_ORIGIN, alive, ROWSTORE_TAG_ALIVE);
  take(ROWSTORE_ORIGIN, UNKNOWN, ROWSTORE_SNAPSHOTS_FULL);
  drop(ROWSTORE_ORIGIN, ROWSTORE_ORIGIN_TAG);
  drop(UNKNOWN, ROWSTORE_UNKNOWN_TAG);
}

static void all_unsound(void) {
  take(ROWSTORE_ORIGIN, UNKNOWN, ROWSTORE_UNSOUND);
  get(ROWSTORE_ORIGIN, 0, 1, ROWSTORE_UNSOUND, 0);
  put(ROWSTORE_ORIGIN, 0, 1, ROWSTORE_UNSOUND);
  put_border(ROWSTORE_ORIGIN, ROWSTORE_UNSOUND, 0);
  drop(1, ROWSTORE_UNSOUND);
  made(COUNT, ROWSTORE_UNSOUND);
  expect("places in use", used, 0);
  expect("snapshots", snapshots, 0);
}

/* Records that are too short, and a last entry with a row beyond the last. */
static void unsound(void) {
  records_len--;
  all_unsound();
  right_lengths();
  uint8_t *high = &records[records_len - 2];
  uint8_t before = *high;
  *high = 0xff;
  all_unsound();
  *high = before;
}

/* Rows are read and written in the full store, then every snapshot goes. */
static void empty(const size_t owned[ROWSTORE_MAX_SNAPSHOTS + 1]) {
  size_t last = rows - 1, left = place_count, alive = ROWSTORE_MAX_SNAPSHOTS;
  counted(left, alive, alive - 1);
  get(ROWSTORE_MAX_SNAPSHOTS, 0, ROWSTORE_MAX_SNAPSHOTS, ROWSTORE_OK, 1);
  get(ROWSTORE_MAX_SNAPSHOTS, last, 0x20, ROWSTORE_OK, alive + 1);
  put(ROWSTORE_MAX_SNAPSHOTS, 0, 0x30, ROWSTORE_OK);
  put(ROWSTORE_ORIGIN, 0, 0x31, ROWSTORE_OK);
  get(ROWSTORE_MAX_SNAPSHOTS, 0, 0x30, ROWSTORE_OK, 1);
  get(ROWSTORE_ORIGIN, 0, 0x31, ROWSTORE_OK, 1);
  line_up(1, ROWSTORE_MAX_BORDER, 0x32);
  put_border(ROWSTORE_MAX_SNAPSHOTS, ROWSTORE_OK, ROWSTORE_MAX_BORDER);
  get(ROWSTORE_MAX_SNAPSHOTS, 0, 0x32, ROWSTORE_OK, 1);
  counted(left, alive, alive - 1);
  for (uint16_t i = 1; i <= ROWSTORE_MAX_SNAPSHOTS; i++) {
    /* The odd ones first, then the even ones. */
    uint16_t of = i <= 32 ? 2 * i - 1 : 2 * i - 64;
    drop(of, ROWSTORE_OK);
    left -= owned[of];
    alive--;
    /* The ghosts above those that are left read the last row too. */
    get(ROWSTORE_ORIGIN, last, 0x20, ROWSTORE_OK, alive + 1);
    counted(left, alive, alive == 0 ? 0 : alive - 1);
  }
  expect("places left in use", left, rows);
}

static void store(size_t l, size_t b, size_t p) {
  size_t owned[ROWSTORE_MAX_SNAPSHOTS + 1];
  openings(l, b, p);
  ways();
  borders();
  fill(owned);
  refusals();
  unsound();
  empty(owned);
}

/* A row is turned, and refused for each of its two lengths. */
static void turns(enum call call) {
  memset(written, 0xff, sizeof written);
  row_len = out_len = ROWSTORE_CABLE_SIZE;
  made(call, ROWSTORE_OK);
  for (size_t i = 0; i < out_len; i++) {
    expect("byte turned", out[i], 0xff);
  }
  row_len--;
  made(call, ROWSTORE_BAD_LENGTH);
  row_len++;
  out_len--;
  made(call, ROWSTORE_BAD_LENGTH);
}

int main(void) {
  int status = EXIT_SUCCESS;
  size_t known = depth(FILL_KNOWN);
  expect("a known depth is missed", known < KNOWN || known > KNOWN + 1024, 0);
  store(4, 8, 76);
  store(ROWSTORE_MAX_ROWS, ROWSTORE_MAX_WIDTH, ROWSTORE_MAX_PLACES);
  turns(TO_CABLE);
  turns(FROM_CABLE);
  for (size_t i = OPEN; i < FILL_KNOWN; i++) {
    const struct figure *f = &figures[i];
    printf("stack: %-10s %6zu bytes; %4u calls accepted, %2u refused\n",
           names[i], f->bytes, f->accepted, f->refused);
    if (f->bytes >= LIMIT) {
      fprintf(stderr, "stack: %s: less than %d are promised\n", names[i],
              LIMIT);
      status = EXIT_FAILURE;
    }
  }
  return status;
}
