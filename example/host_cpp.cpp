// The header in a C++ program: opens the smallest store.
#include "rowstore.h"

static uint8_t records[ROWSTORE_RECORDS_SIZE(1, 1)];
static uint8_t places[ROWSTORE_PLACES_SIZE(1, 1)];

int main() {
  const uint8_t answer =
      rowstore_open(records, sizeof records, places, sizeof places, 1, 1, 1);
  return answer == ROWSTORE_OK ? 0 : 1;
}
