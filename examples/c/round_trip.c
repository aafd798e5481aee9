/* Plans a column of keys, writes it in the planned encoding, reads it back, and shows what a refusal looks like.
 * `make` builds and runs it; see the head of include/warpboulder.h for the conventions. */
#include <inttypes.h>
#include <stdio.h>
#include <stdlib.h>
#include <string.h>

#include "warpboulder.h"

#define KEYS 1000

static const char *const encoding_names[] = {
    "", "Plain", "Varint", "BitPacked", "FrameOfReference", "RunLength", "Dictionary", "DeltaBinaryPacked"};

/* Ends the program where a call refused that must not. It takes a pointer, because C may look at a number that is an argument
 * before it makes the call that is another. */
static void must(uint32_t refusal, const size_t *offset, const char *what) {
  if (refusal == WB_ACCEPTED) return;
  fprintf(stderr, "%s: refused with %" PRIu32 " at %zu\n", what, refusal, *offset);
  exit(1);
}

/* Parcels in the order in which they were scanned: a street's key, many times over, then the next street's. */
static void fill(int64_t column[KEYS]) {
  for (size_t i = 0; i < KEYS; i++) column[i] = 7305500000 + (int64_t)(i / 40) * 17;
}

/* Plans the column at level 6 and shows the seven lengths. */
static wb_plan plan(const int64_t *column, int64_t *scratch) {
  wb_plan planned;
  size_t at;
  must(wb_analyze(column, KEYS, 6, scratch, KEYS, &planned, &at), &at, "planning");
  for (int id = WB_PLAIN; id <= WB_ENCODINGS; id++)
    printf("  %-18s %6" PRIu64 " bytes\n", encoding_names[id], planned.estimates.lengths[id - 1]);
  printf("planned: %s, %" PRIu64 " bytes, %.1f times less than Plain\n", encoding_names[planned.encoding], planned.estimated_bytes,
         planned.estimated_ratio);
  return planned;
}

int main(void) {
  static int64_t column[KEYS], scratch[KEYS], back[KEYS];
  fill(column);
  wb_plan planned = plan(column, scratch);

  uint8_t *chunk = malloc(planned.estimated_bytes);
  if (chunk == NULL) return 1;
  size_t size, at;
  must(wb_encode_integers(column, KEYS, (uint32_t)planned.encoding, scratch, KEYS, chunk, planned.estimated_bytes, &size), &size, "writing");
  printf("written: %zu bytes\n", size);

  /* With no room at all, reading says how many keys there are. */
  if (wb_decode_integers(chunk, size, true, NULL, 0, &at) != WB_BUFFER_TOO_SHORT || at != KEYS) return 1;
  must(wb_decode_integers(chunk, size, true, back, KEYS, &at), &at, "reading");
  printf("read: %zu keys, %s\n", at, memcmp(column, back, sizeof column) == 0 ? "all as they were" : "NOT THE SAME");

  /* The last byte is lost on the way. */
  uint32_t refusal = wb_decode_integers(chunk, size - 1, true, back, KEYS, &at);
  printf("cut: refused with %" PRIu32 " at %zu\n", refusal, at);
  free(chunk);
  return memcmp(column, back, sizeof column) == 0 && refusal != WB_ACCEPTED ? 0 : 1;
}
