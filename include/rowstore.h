/* A store of rows with snapshots, in memory that the caller lends.
 *
 * A store has `rows` rows of `width` bytes each, and `place_count` places that
 * hold one row each. Tag 0 names the origin, which is always there; tags 1 to
 * 65535 name snapshots. A snapshot shares its rows with its source; a shared
 * row moves to a place of its own when one of them is written.
 *
 * Memory. The caller owns every buffer. All state of a store is in two of them,
 * its records and its places; the library allocates nothing, has no global
 * state and keeps no pointer once a call has returned. Stores are independent,
 * and calls on different stores may run at the same time. Calls on one store
 * may overlap in time only if all of them are reads and counts, each into
 * memory of its own. A call needs less than 64 KiB of stack, whatever the size
 * of the store.
 *
 * Pointers. No pointer may be NULL, even with length 0. The buffers of one call
 * must not overlap: to write a row with bytes of another one, read it out, then
 * write; a pointer into the places is no source for a write. Buffers of bytes
 * need no alignment; numbers that a call sets and the row numbers of a border
 * are aligned as C asks of their types.
 *
 * Tags and row numbers of a border have 16 bits: C cuts a larger number without
 * a word, so that tag 65543 is tag 7. Test what comes from elsewhere first.
 *
 * Answers. Each call returns ROWSTORE_OK or the number of the first test that
 * refused it, in the order given with the call; rowstore_text has the words for
 * it. A refusal changes no byte of any buffer; the numbers that rowstore_read,
 * rowstore_count and rowstore_border set are 0 then. Only a border that is
 * refused at one of its rows has changed something: the rows before it are
 * written, and their number is set.
 *
 * Refused calls, reads and counts write nothing to records and places, not even
 * what is there already, so these may be read-only memory then. (Of a border,
 * this is one that has done no row.)
 *
 * Every call on an open store judges the records first: bytes that are not
 * those of a store are refused with ROWSTORE_UNSOUND, and so are records of the
 * wrong length. docs/LAYOUT.md has their layout.
 *
 * That is no checksum. A flipped bit that leaves other sound records, as in a
 * tag, is accepted, and so is any in the places, which are not judged. Where
 * memory can rot, keep a CRC of both buffers and compare it before a call.
 *
 * Nor is a call atomic against a reset or a loss of power. If one comes in the
 * middle of a call that changes the store, any of the bytes that it changes may
 * be old and others new: the next call may refuse the records with
 * ROWSTORE_UNSOUND, or take them for a store that never was, with versions that
 * read other rows. Where that can happen, keep a second copy of both buffers,
 * call on one, and switch to it when the call has returned.
 *
 * Beside the store, rowstore_to_cable and rowstore_from_cable turn one row,
 * wherever it comes from, to cable order and back.
 */
#ifndef ROWSTORE_H
#define ROWSTORE_H

#include <stddef.h>
#include <stdint.h>

/* Grows by 1 when a call, an answer or a constant comes, goes or changes. */
#define ROWSTORE_VERSION 1

/* Grows by 1 when the same store has other records: those of one layout are not
 * for a library of another. */
#define ROWSTORE_LAYOUT 1

/* The compiler warns where an answer is not looked at, if it can. */
#if defined(__cplusplus) && __cplusplus >= 201703L
#define ROWSTORE_NODISCARD [[nodiscard]]
#elif defined(__STDC_VERSION__) && __STDC_VERSION__ >= 202311L
#define ROWSTORE_NODISCARD [[nodiscard]]
#elif defined(__GNUC__)
#define ROWSTORE_NODISCARD __attribute__((warn_unused_result))
#else
#define ROWSTORE_NODISCARD
#endif

#ifdef __cplusplus
extern "C" {
#endif

/* Answers. 1 to 5 and 25 come from the arguments, 20 to 24 from the store. */
enum {
  ROWSTORE_OK = 0,              /* accepted */
  ROWSTORE_BAD_SIZE = 1,        /* rows, width or place_count out of limits */
  ROWSTORE_BAD_LENGTH = 2,      /* a buffer is too short or too long */
  ROWSTORE_BAD_ROW = 3,         /* the store has no such row */
  ROWSTORE_ZERO_TAG = 4,        /* a new snapshot under tag 0 */
  ROWSTORE_ORIGIN_TAG = 5,      /* the origin cannot be deleted */
  ROWSTORE_UNSOUND = 20,        /* the records are not those of a store */
  ROWSTORE_UNKNOWN_TAG = 21,    /* no living version has the tag */
  ROWSTORE_TAG_ALIVE = 22,      /* a living snapshot has the new tag */
  ROWSTORE_SNAPSHOTS_FULL = 23, /* the most snapshots are alive */
  ROWSTORE_PLACES_FULL = 24,    /* a shared row to change, and no place free */
  ROWSTORE_TOO_MANY_ROWS = 25   /* more rows than a border may have */
};

/* The words for an answer. This function is in the header alone. */
static inline const char *rowstore_text(uint8_t answer) {
  switch (answer) {
  case ROWSTORE_OK:
    return "accepted";
  case ROWSTORE_BAD_SIZE:
    return "rows, width or place count out of its limits";
  case ROWSTORE_BAD_LENGTH:
    return "a buffer is too short or too long";
  case ROWSTORE_BAD_ROW:
    return "the store has no such row";
  case ROWSTORE_ZERO_TAG:
    return "a new snapshot under tag 0";
  case ROWSTORE_ORIGIN_TAG:
    return "the origin cannot be deleted";
  case ROWSTORE_UNSOUND:
    return "the records are not those of a store";
  case ROWSTORE_UNKNOWN_TAG:
    return "no living version has the tag";
  case ROWSTORE_TAG_ALIVE:
    return "a living snapshot has the new tag";
  case ROWSTORE_SNAPSHOTS_FULL:
    return "the most snapshots are alive";
  case ROWSTORE_PLACES_FULL:
    return "a shared row to change, and no place free";
  case ROWSTORE_TOO_MANY_ROWS:
    return "more rows than a border may have";
  default:
    return "no answer of this library";
  }
}

/* Limits. Each measure is at least 1, and place_count at least rows. */
#define ROWSTORE_MAX_ROWS 1024
#define ROWSTORE_MAX_WIDTH 1024
#define ROWSTORE_MAX_PLACES 4096
#define ROWSTORE_MAX_SNAPSHOTS 64
#define ROWSTORE_MAX_BORDER 64

/* Whether the measures are within their limits, for a static assertion: it is a
 * constant if they are. */
#define ROWSTORE_VALID(rows, width, place_count)                               \
  ((rows) >= 1 && (rows) <= ROWSTORE_MAX_ROWS && (width) >= 1 &&               \
   (width) <= ROWSTORE_MAX_WIDTH && (place_count) >= (rows) &&                 \
   (place_count) <= ROWSTORE_MAX_PLACES)

/* Bytes of a row that is turned to cable order or back. */
#define ROWSTORE_CABLE_SIZE 128

/* The tag of the origin. */
#define ROWSTORE_ORIGIN 0

/* Where the parts of the records start (docs/LAYOUT.md): the three measures,
 * two bytes each; a state, a parent and a tag for each node, of 1, 1 and 2
 * bytes; the table, a node of 1 byte for each place beyond rows, then a row of
 * 2 bytes for each. The high byte of a number comes first. */
#define ROWSTORE_ROWS_AT 0
#define ROWSTORE_WIDTH_AT 2
#define ROWSTORE_PLACE_COUNT_AT 4
#define ROWSTORE_STATES_AT 6
#define ROWSTORE_PARENTS_AT 134
#define ROWSTORE_TAGS_AT 262
#define ROWSTORE_TABLE_AT 518
#define ROWSTORE_TABLE_ROWS_AT(rows, place_count)                              \
  ((size_t)ROWSTORE_TABLE_AT + ((size_t)(place_count) - (size_t)(rows)))

/* How many nodes there are, and the states of a node. */
#define ROWSTORE_NODES 128
#define ROWSTORE_EMPTY 0
#define ROWSTORE_ALIVE 1
#define ROWSTORE_GHOST 2

/* Bytes of the records. Both sizes are for measures within their limits, and
 * mean nothing for others: see ROWSTORE_VALID. */
#define ROWSTORE_RECORDS_SIZE(rows, place_count)                               \
  ((size_t)ROWSTORE_TABLE_AT + 3 * ((size_t)(place_count) - (size_t)(rows)))

/* Bytes of the places. */
#define ROWSTORE_PLACES_SIZE(width, place_count)                               \
  ((size_t)(place_count) * (size_t)(width))

/* Opens a store: every row of the origin is zero, there are no snapshots.
 * What the buffers held before does not matter and is lost.
 *
 * records      filled; ROWSTORE_RECORDS_SIZE(rows, place_count) bytes
 * places       filled with zeros; ROWSTORE_PLACES_SIZE(width, place_count)
 *              bytes
 * rows         1 to ROWSTORE_MAX_ROWS
 * width        bytes of a row, 1 to ROWSTORE_MAX_WIDTH
 * place_count  rows to ROWSTORE_MAX_PLACES
 *
 * Both buffers stay the caller's, and are the store from now on: lend them,
 * with the same lengths, to the calls below and change no byte in between.
 *
 * Refusals, in order:
 *   ROWSTORE_BAD_SIZE    rows, width or place_count is out of its limits
 *   ROWSTORE_BAD_LENGTH  places_len or records_len is wrong
 */
ROWSTORE_NODISCARD uint8_t rowstore_open(uint8_t *records, size_t records_len,
                                         uint8_t *places, size_t places_len,
                                         size_t rows, size_t width,
                                         size_t place_count);

/* Takes a snapshot of a version. It takes no place yet and reads no places.
 *
 * records  changed
 * source   the tag of a living version, ROWSTORE_ORIGIN or a snapshot
 * tag      the new snapshot's tag, not 0; that of a deleted one will do
 *
 * Refusals, in order:
 *   ROWSTORE_UNSOUND         the records are not sound
 *   ROWSTORE_ZERO_TAG        tag is 0
 *   ROWSTORE_UNKNOWN_TAG     no living version has the tag source
 *   ROWSTORE_TAG_ALIVE       a living snapshot has the tag already
 *   ROWSTORE_SNAPSHOTS_FULL  ROWSTORE_MAX_SNAPSHOTS snapshots are alive
 */
ROWSTORE_NODISCARD uint8_t rowstore_snapshot(uint8_t *records,
                                             size_t records_len,
                                             uint16_t source, uint16_t tag);

/* Copies a row of a version to the caller's buffer.
 *
 * records  only read
 * places   only read
 * tag      the version
 * row      the row, from 0
 * out      filled with the row; as many bytes as a row has
 * sharers  set to how many living versions share the row, this one included:
 *          1 if it is its own; 0 if refused
 *
 * Versions share a row if they read it from one place; equal bytes in two
 * places are not shared. The number is the caller's, as every buffer, and is
 * apart.
 *
 * Refusals, in order:
 *   ROWSTORE_UNSOUND      the records are not sound
 *   ROWSTORE_BAD_LENGTH   places_len or out_len is wrong
 *   ROWSTORE_BAD_ROW      the store has no such row
 *   ROWSTORE_UNKNOWN_TAG  no living version has the tag
 */
ROWSTORE_NODISCARD uint8_t rowstore_read(const uint8_t *records,
                                         size_t records_len,
                                         const uint8_t *places,
                                         size_t places_len, uint16_t tag,
                                         size_t row, uint8_t *out,
                                         size_t out_len, size_t *sharers);

/* Writes a row of a version. No other version's rows change. A row that
 * another version shares takes one more place; any other is written where it
 * is, even if no place is free. Bytes that the version reads there already are
 * accepted and change nothing: no place is taken, even of a shared row.
 *
 * records  changed
 * places   changed
 * tag      the version, ROWSTORE_ORIGIN or a snapshot
 * row      the row, from 0
 * bytes    the new row, only read; as many bytes as a row has, and none of
 *          them in the places
 *
 * Refusals, in order:
 *   ROWSTORE_UNSOUND      the records are not sound
 *   ROWSTORE_BAD_LENGTH   places_len or bytes_len is wrong
 *   ROWSTORE_BAD_ROW      the store has no such row
 *   ROWSTORE_UNKNOWN_TAG  no living version has the tag
 *   ROWSTORE_PLACES_FULL  the row is shared, every place is in use and the
 *                         bytes are others
 */
ROWSTORE_NODISCARD uint8_t rowstore_write(uint8_t *records, size_t records_len,
                                          uint8_t *places, size_t places_len,
                                          uint16_t tag, size_t row,
                                          const uint8_t *bytes,
                                          size_t bytes_len);

/* Writes rows of a version in their order, as rowstore_write would one by one,
 * up to the first that is refused. The rows before it stay written; it and
 * those after it change nothing. A row may be named more than once.
 *
 * records  changed
 * places   changed
 * tag      the version, ROWSTORE_ORIGIN or a snapshot
 * rows     the rows, only read; 0 to ROWSTORE_MAX_BORDER of them
 * bytes    the new rows one after the other, only read; rows_len times as
 *          many bytes as a row has
 * done     set to how many rows were written: rows_len if accepted, 0 with
 *          one of the first four refusals
 *
 * The number is the caller's, as every buffer, and is apart.
 *
 * Refusals, in order:
 *   ROWSTORE_UNSOUND        the records are not sound
 *   ROWSTORE_TOO_MANY_ROWS  rows_len is above ROWSTORE_MAX_BORDER
 *   ROWSTORE_BAD_LENGTH     places_len or bytes_len is wrong
 *   ROWSTORE_UNKNOWN_TAG    no living version has the tag
 * and then, of row after row:
 *   ROWSTORE_BAD_ROW        the store has no such row
 *   ROWSTORE_PLACES_FULL    the row is shared, every place is in use and the
 *                           bytes are others
 */
ROWSTORE_NODISCARD uint8_t rowstore_border(uint8_t *records, size_t records_len,
                                           uint8_t *places, size_t places_len,
                                           uint16_t tag, const uint16_t *rows,
                                           size_t rows_len,
                                           const uint8_t *bytes,
                                           size_t bytes_len, size_t *done);

/* Deletes a snapshot. Places that only it read are free again; their bytes
 * stay as they are. Snapshots taken of it live on.
 *
 * records  changed
 * tag      the snapshot
 *
 * Refusals, in order:
 *   ROWSTORE_UNSOUND      the records are not sound
 *   ROWSTORE_ORIGIN_TAG   tag is ROWSTORE_ORIGIN
 *   ROWSTORE_UNKNOWN_TAG  no living snapshot has the tag
 */
ROWSTORE_NODISCARD uint8_t rowstore_delete(uint8_t *records, size_t records_len,
                                           uint16_t tag);

/* Counts places in use and living snapshots.
 *
 * records    only read
 * used       set to the places in use, the origin's included; 0 if refused
 * snapshots  set to the snapshots alive; 0 if refused
 *
 * The two numbers are the caller's, as every buffer, and are apart.
 *
 * Refusals:
 *   ROWSTORE_UNSOUND  the records are not sound
 */
ROWSTORE_NODISCARD uint8_t rowstore_count(const uint8_t *records,
                                          size_t records_len, size_t *used,
                                          size_t *snapshots);

/* Turns a row for the head of 1,024 hooks to cable order. A row has a bit for
 * each hook, and hook 0 is the highest bit of byte 0; in cable order position 0
 * stands there. The head has 16 files of 64 hooks, and the cable takes one hook
 * of each file in turn: position n carries hook n % 16 * 64 + n / 16, so that
 * position 1 carries hook 64 and position 16 hook 1.
 *
 * row  only read; ROWSTORE_CABLE_SIZE bytes
 * out  filled; ROWSTORE_CABLE_SIZE bytes
 *
 * Refusals:
 *   ROWSTORE_BAD_LENGTH  row_len or out_len is wrong
 */
ROWSTORE_NODISCARD uint8_t rowstore_to_cable(const uint8_t *row, size_t row_len,
                                             uint8_t *out, size_t out_len);

/* Turns a row in cable order back: what rowstore_to_cable made of a row is that
 * row again, and the other way round.
 *
 * row  only read; ROWSTORE_CABLE_SIZE bytes
 * out  filled; ROWSTORE_CABLE_SIZE bytes
 *
 * Refusals:
 *   ROWSTORE_BAD_LENGTH  row_len or out_len is wrong
 */
ROWSTORE_NODISCARD uint8_t rowstore_from_cable(const uint8_t *row,
                                               size_t row_len, uint8_t *out,
                                               size_t out_len);

#ifdef __cplusplus
}
#endif

#endif
