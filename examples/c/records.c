/* Reads every field of the records by its name, of a column whose statistics, estimates and plan can be worked out by hand. The
 * library's own structs are in crates/rows/src, and this is what shows that the header's have the same fields in the same places. */
#include <inttypes.h>
#include <stdio.h>

#include "warpboulder.h"

static int faults = 0;

/* Compares two numbers as 64 bits. */
static void is(const char *name, uint64_t found, uint64_t wanted) {
  if (found == wanted) return;
  printf("%s is %" PRIu64 ", not %" PRIu64 "\n", name, found, wanted);
  faults++;
}

/* Five runs; the ZigZags are 200, 5, 14 and 2000, in varints of two bytes, one, one and two; the deltas are 0, -103, 10, 993 and -900. So no
 * two fields of the statistics are equal, and one that stood in another's place would be seen. */
static const int64_t column[] = {100, 100, 100, 100, -3, -3, 7, 1000, 100};
#define KEYS 9
#define DISTINCT 4

static void check_stats(const wb_stats *stats) {
  is("count", stats->count, KEYS);
  is("first", (uint64_t)stats->first, 100);
  is("min", (uint64_t)stats->min, (uint64_t)-3);
  is("max", (uint64_t)stats->max, 1000);
  is("run_count", stats->run_count, 5);
  is("sortedness", stats->sortedness, WB_UNSORTED);
  is("cardinality", stats->cardinality, DISTINCT);
  is("cardinality_is_exact", stats->cardinality_is_exact, 1);
  is("value_span", stats->value_span, 1003);
  is("max_zigzag", stats->max_zigzag, 2000);
  is("varint_body_bytes", stats->varint_body_bytes, 15);
  is("run_length_body_bytes", stats->run_length_body_bytes, 13);
  is("delta_min", (uint64_t)stats->delta_min, (uint64_t)-900);
  is("delta_max", (uint64_t)stats->delta_max, 993);
  is("delta_span", stats->delta_span, 1893);
}

/* Behind a header of three bytes: 9 keys of 8 bytes; 15 bytes of varints; a width and 9 times 11 bits; the least key, a width and 9 times 10
 * bits; a total and the runs; a total, an entry and gaps of one, one, one and two bytes, a width and 9 times 2 bits; the first key in two
 * bytes, a block size in two, a least delta charged two, a width and 8 times 11 bits. */
static void check_estimates(const wb_estimates *estimates) {
  static const uint64_t lengths[WB_ENCODINGS] = {75, 18, 17, 24, 17, 13, 21};
  for (int place = 0; place < WB_ENCODINGS; place++) {
    is("length", estimates->lengths[place], lengths[place]);
    is("available", estimates->available[place], 1);
  }
}

static void check_plan(const wb_plan *plan) {
  is("encoding", plan->encoding, WB_DICTIONARY);
  is("estimated_bytes", plan->estimated_bytes, 13);
  is("plain_bytes", plan->plain_bytes, 75);
  is("reason", plan->reason, WB_SMALLEST_ESTIMATE);
  is("run_density is 5 by 9", plan->run_density == 5.0 / 9.0, 1);
  is("estimated_ratio is 75 by 13", plan->estimated_ratio == 75.0 / 13.0, 1);
  check_estimates(&plan->estimates);
}

int main(void) {
  int64_t scratch[KEYS];
  wb_stats stats;
  wb_estimates estimates;
  wb_plan plan;
  size_t distinct;
  is("answer", wb_analyze_integers(column, KEYS, scratch, KEYS, &stats, &distinct), WB_ACCEPTED);
  is("distinct keys", distinct, DISTINCT);
  check_stats(&stats);
  is("answer", wb_estimate_sizes(column, KEYS, scratch, KEYS, &stats, &estimates, &distinct), WB_ACCEPTED);
  check_stats(&stats);
  check_estimates(&estimates);
  is("answer", wb_analyze(column, KEYS, 6, scratch, KEYS, &plan, &distinct), WB_ACCEPTED);
  check_plan(&plan);
  is("answer", wb_distinct_values(column, KEYS, scratch, KEYS, &distinct), WB_ACCEPTED);
  is("distinct keys", distinct, DISTINCT);
  is("least distinct key", (uint64_t)scratch[0], (uint64_t)-3);
  puts(faults == 0 ? "every field of the records is as worked out by hand" : "the header's records are WRONG");
  return faults == 0 ? 0 : 1;
}
