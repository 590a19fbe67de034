/* Calls from several threads at once: all calls, each thread on a store of its
 * own and all turning one row to cable order, then reads and counts of one
 * store. Every answer is checked. */
#define _POSIX_C_SOURCE 200809L

#include "rowstore.h"

#include <pthread.h>
#include <stdio.h>
#include <stdlib.h>
#include <string.h>

enum { THREADS = 4, ROUNDS = 100 };
enum { ROWS = 4, WIDTH = 16, PLACES = 8, VERSIONS = 3, BORDER = 2 };

/* The stores lie side by side: the byte behind one is another thread's. */
struct store {
  uint8_t records[ROWSTORE_RECORDS_SIZE(ROWS, PLACES)];
  uint8_t places[ROWSTORE_PLACES_SIZE(WIDTH, PLACES)];
};

/* What every row of every living version must read: its first byte. Each write
 * brings another one, so versions share a row if they read the same there. */
struct copies {
  uint8_t first[VERSIONS][ROWS];
  uint8_t alive[VERSIONS];
};

struct task {
  pthread_t thread;
  unsigned number;
};

static struct store stores[THREADS];
static uint8_t turned[THREADS][ROWSTORE_CABLE_SIZE];
static uint8_t hooks[ROWSTORE_CABLE_SIZE];
static struct store common;
static struct copies common_due;
static pthread_barrier_t start;

static void expect(const char *what, size_t got, size_t due) {
  if (got != due) {
    fprintf(stderr, "threads: %s: %zu, expected %zu\n", what, got, due);
    exit(EXIT_FAILURE);
  }
}

static void fill(uint8_t *row, uint8_t first) {
  for (unsigned i = 0; i < WIDTH; i++) {
    row[i] = (uint8_t)(first + i);
  }
}

static void open_store(struct store *s, struct copies *due) {
  expect("open",
         rowstore_open(s->records, sizeof s->records, s->places,
                       sizeof s->places, ROWS, WIDTH, PLACES),
         ROWSTORE_OK);
  memset(due, 0, sizeof *due);
  due->alive[ROWSTORE_ORIGIN] = 1;
}

static void take(struct store *s, struct copies *due, uint16_t source,
                 uint16_t tag) {
  expect("snapshot",
         rowstore_snapshot(s->records, sizeof s->records, source, tag),
         ROWSTORE_OK);
  memcpy(due->first[tag], due->first[source], sizeof due->first[tag]);
  due->alive[tag] = 1;
}

static uint8_t put(struct store *s, uint16_t tag, size_t row, uint8_t first) {
  uint8_t bytes[WIDTH];
  fill(bytes, first);
  return rowstore_write(s->records, sizeof s->records, s->places,
                        sizeof s->places, tag, row, bytes, sizeof bytes);
}

static void write_row(struct store *s, struct copies *due, uint16_t tag,
                      size_t row, uint8_t first) {
  expect("write", put(s, tag, row, first), ROWSTORE_OK);
  due->first[tag][row] = first;
}

/* Rows 0 and 1 with one call. */
static uint8_t put_border(struct store *s, uint16_t tag, uint8_t first,
                          size_t done_due) {
  static const uint16_t rows[BORDER] = {0, 1};
  uint8_t bytes[BORDER * WIDTH];
  size_t done;
  for (unsigned i = 0; i < BORDER; i++) {
    fill(bytes + i * WIDTH, (uint8_t)(first + i));
  }
  uint8_t answer = rowstore_border(s->records, sizeof s->records, s->places,
                                   sizeof s->places, tag, rows, BORDER, bytes,
                                   sizeof bytes, &done);
  expect("rows done", done, done_due);
  return answer;
}

static void write_border(struct store *s, struct copies *due, uint16_t tag,
                         uint8_t first) {
  expect("border", put_border(s, tag, first, BORDER), ROWSTORE_OK);
  for (unsigned i = 0; i < BORDER; i++) {
    due->first[tag][i] = (uint8_t)(first + i);
  }
}

static uint8_t get(const struct store *s, uint16_t tag, size_t row,
                   uint8_t out[WIDTH], size_t sharers_due) {
  size_t sharers = SIZE_MAX;
  uint8_t answer =
      rowstore_read(s->records, sizeof s->records, s->places, sizeof s->places,
                    tag, row, out, WIDTH, &sharers);
  expect("sharers", sharers, sharers_due);
  return answer;
}

/* A row that was never written is zero throughout. */
static void read_rows(const struct store *s, const struct copies *due,
                      uint16_t tag) {
  for (size_t row = 0; row < ROWS; row++) {
    uint8_t wanted[WIDTH] = {0};
    uint8_t out[WIDTH];
    uint8_t first = due->first[tag][row];
    size_t sharers = 0;
    if (first != 0) {
      fill(wanted, first);
    }
    for (unsigned i = 0; i < VERSIONS; i++) {
      sharers += due->alive[i] && due->first[i][row] == first;
    }
    expect("read", get(s, tag, row, out, sharers), ROWSTORE_OK);
    expect("bytes that differ", memcmp(out, wanted, WIDTH) != 0, 0);
  }
}

static void count(const struct store *s, size_t used_due,
                  size_t snapshots_due) {
  size_t used;
  size_t snapshots;
  expect("count",
         rowstore_count(s->records, sizeof s->records, &used, &snapshots),
         ROWSTORE_OK);
  expect("places in use", used, used_due);
  expect("snapshots", snapshots, snapshots_due);
}

/* Seven places in use: four of the origin, one of tag 1 below a new ghost, the
 * origin's old row 1 and one of tag 2. */
static void build(struct store *s, struct copies *due, unsigned seed) {
  uint8_t first = (uint8_t)(1 + seed % 200);
  open_store(s, due);
  count(s, ROWS, 0);
  write_row(s, due, ROWSTORE_ORIGIN, 1, first);
  take(s, due, ROWSTORE_ORIGIN, 1);
  take(s, due, 1, 2);
  write_row(s, due, 1, 1, first + 1);
  write_row(s, due, ROWSTORE_ORIGIN, 1, first + 2);
  write_row(s, due, 2, 0, first + 3);
  write_row(s, due, 1, 1, first + 4);
  write_border(s, due, 2, first + 5);
}

static void read_and_count(const struct store *s, const struct copies *due) {
  for (uint16_t tag = 0; tag < VERSIONS; tag++) {
    read_rows(s, due, tag);
  }
  count(s, 7, 2);
}

/* Tag 1 goes, and the refusals say so. */
static void take_down(struct store *s, struct copies *due) {
  uint8_t out[WIDTH];
  size_t len = sizeof s->records;
  expect("delete", rowstore_delete(s->records, len, 1), ROWSTORE_OK);
  due->alive[1] = 0;
  read_rows(s, due, ROWSTORE_ORIGIN);
  read_rows(s, due, 2);
  count(s, 6, 1);
  expect("snapshot of tag 1", rowstore_snapshot(s->records, len, 1, 3),
         ROWSTORE_UNKNOWN_TAG);
  expect("write of tag 1", put(s, 1, 0, 1), ROWSTORE_UNKNOWN_TAG);
  expect("border of tag 1", put_border(s, 1, 1, 0), ROWSTORE_UNKNOWN_TAG);
  expect("read of tag 1", get(s, 1, 0, out, 0), ROWSTORE_UNKNOWN_TAG);
  expect("delete of tag 1", rowstore_delete(s->records, len, 1),
         ROWSTORE_UNKNOWN_TAG);
  count(s, 6, 1);
}

/* The row is every thread's, what it is turned to its own. */
static void turn_row(uint8_t *out) {
  uint8_t back[ROWSTORE_CABLE_SIZE];
  expect("to cable", rowstore_to_cable(hooks, sizeof hooks, out, sizeof back),
         ROWSTORE_OK);
  expect("from cable", rowstore_from_cable(out, sizeof back, back, sizeof back),
         ROWSTORE_OK);
  expect("bytes turned that differ", memcmp(hooks, back, sizeof back) != 0, 0);
}

static void *own_store(void *argument) {
  const struct task *task = argument;
  struct store *s = &stores[task->number];
  pthread_barrier_wait(&start);
  for (unsigned round = 0; round < ROUNDS; round++) {
    struct copies due;
    build(s, &due, round * THREADS + task->number);
    read_and_count(s, &due);
    take_down(s, &due);
    turn_row(turned[task->number]);
  }
  return NULL;
}

static void *common_store(void *argument) {
  (void)argument;
  pthread_barrier_wait(&start);
  for (unsigned round = 0; round < ROUNDS; round++) {
    read_and_count(&common, &common_due);
  }
  return NULL;
}

/* The threads go on from the barrier together. */
static void run(const char *what, void *(*body)(void *)) {
  struct task tasks[THREADS];
  expect("barrier", (size_t)pthread_barrier_init(&start, NULL, THREADS), 0);
  for (unsigned i = 0; i < THREADS; i++) {
    tasks[i].number = i;
    expect("thread",
           (size_t)pthread_create(&tasks[i].thread, NULL, body, &tasks[i]), 0);
  }
  for (unsigned i = 0; i < THREADS; i++) {
    expect("join", (size_t)pthread_join(tasks[i].thread, NULL), 0);
  }
  pthread_barrier_destroy(&start);
  printf("threads: %s: %d threads, %d rounds each\n", what, THREADS, ROUNDS);
}

int main(void) {
  static struct store before;
  for (size_t i = 0; i < sizeof hooks; i++) {
    hooks[i] = (uint8_t)(37 * i);
  }
  run("all calls, each thread on its own store", own_store);
  build(&common, &common_due, 7);
  before = common;
  run("reads and counts of one store", common_store);
  expect("bytes of the store read that differ",
         memcmp(&before, &common, sizeof common) != 0, 0);
  return EXIT_SUCCESS;
}
