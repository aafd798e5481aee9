/* Warpboulder: a proved codec for columns of signed 64-bit keys.
 *
 * Link with target/staticlib/libc_api.a, which `tools/library c_api` proves and writes (x86-64-v2 Linux). The library allocates
 * nothing, keeps no state and calls nothing but memset, so any number of threads may use it at once. A call takes up to 400 KiB of
 * stack where a column of more than 384 keys is analysed or written as Dictionary, up to 200 KiB where a Dictionary chunk of more than
 * 256 entries is read, and else up to 16 KiB.
 *
 * ANSWERS. A call that can refuse returns a number, a wb_refusal: WB_ACCEPTED, which is 0, or why it refused. Through its last
 * pointer it stores how many values or bytes it stored at the front of the buffer, or, where it refused, the refusal's offset.
 * A call that refused has left `out` and `column` as they were; a call that accepted has left what lies behind the front.
 *
 * BUFFERS. Every buffer is the caller's: a pointer to its first element and the count of its elements, not bytes. The pointer may
 * be NULL where the count is 0. Buffers that a call writes must not overlap with each other or with what it reads. Pointers to a
 * single number or a struct must not be NULL.
 *
 * Every answer, and every element of every buffer afterwards, is proved to be what the format's definitions say, for every
 * argument: the contracts are in crates/c_api/src.
 */
#ifndef WARPBOULDER_H
#define WARPBOULDER_H

#include <stdbool.h>
#include <stddef.h>
#include <stdint.h>

#ifdef __cplusplus
extern "C" {
#endif

/* ---- limits ---- */

#define WB_MAX_CHUNK_ELEMENTS 16777216 /* keys in a column or a chunk, at most: 2^24 */
#define WB_MAX_DICTIONARY_CARDINALITY 16384 /* distinct keys that a dictionary holds, at most */
#define WB_MAX_LEVEL 9
#define WB_ENCODINGS 7

/* ---- why a call refused ---- */

typedef enum wb_refusal {
  WB_ACCEPTED = 0,

  /* Reading: the header. */
  WB_UNKNOWN_ID = 1,              /* the first byte is missing, or no id from 1 to 9 */
  WB_NOT_AN_INTEGER_ENCODING = 2, /* the id, or the encoding asked for, is not 1 to 7 */
  WB_NO_HEADER = 3,               /* there are fewer than two bytes */
  WB_OTHER_ENCODING = 4,          /* the chunk's encoding is not the one named */
  WB_UNKNOWN_VERSION = 5,         /* the version byte is not 1 */
  WB_VARINT_CUT = 6,              /* the bytes end within a varint */
  WB_VARINT_TOO_LONG = 7,         /* a varint has an eleventh byte */
  WB_COUNT_ABOVE_LIMIT = 8,       /* the header's count is above 2^24 */

  /* Reading: the body. */
  WB_PLAIN_CUT = 9,                /* there are fewer than 8 bytes a key */
  WB_NO_WIDTH = 10,                /* the width byte is missing */
  WB_FRAME_CUT = 11,               /* the least key or the width byte of a frame is missing */
  WB_WIDTH_ABOVE_64 = 12,          /* a width is above 64 */
  WB_PACKED_CUT = 13,              /* there are too few packed bytes; the offset is how many there are */
  WB_RUNS_ABOVE_COUNT = 14,        /* there are more runs than keys */
  WB_RUN_ABOVE_REST = 15,          /* a run is longer than what is left of the count */
  WB_RUNS_BELOW_COUNT = 16,        /* the runs have fewer keys than the count */
  WB_ENTRIES_ABOVE_BYTES = 17,     /* there are more dictionary entries than bytes left */
  WB_CODE_ABOVE_ENTRIES = 18,      /* a code names no entry of the dictionary */
  WB_BLOCK_SIZE_OUT_OF_RANGE = 19, /* a delta block size is not 1 to 2^20 */

  /* Buffers and arguments. */
  WB_BUFFER_TOO_SHORT = 20,   /* `out` or `column` is too short; the offset is the length needed */
  WB_COLUMN_ABOVE_LIMIT = 21, /* there are more than 2^24 keys or values */
  WB_SCRATCH_TOO_SHORT = 22,  /* the scratch has fewer than min(count, 16384) places */
  WB_TOO_MANY_DISTINCT = 23,  /* Dictionary: there are more than 16,384 distinct keys */
  WB_LEVEL_ABOVE_9 = 24,      /* the level is not 0 to 9 */

  /* Strict reading. */
  WB_VARINT_PADDED = 25,   /* a varint is padded: it has more than one byte and ends on 0 */
  WB_BYTES_AFTER_BODY = 26 /* bytes follow the body */
} wb_refusal;

/* ---- encodings: the ids that a chunk begins with ---- */

typedef enum wb_encoding {
  WB_PLAIN = 1,
  WB_VARINT = 2,
  WB_BIT_PACKED = 3,
  WB_FRAME_OF_REFERENCE = 4,
  WB_RUN_LENGTH = 5,
  WB_DICTIONARY = 6,
  WB_DELTA_BINARY_PACKED = 7
} wb_encoding;

/* ---- numbers ---- */

/* Signed to unsigned so that small numbers of either sign stay small, and back: 0, -1, 1, -2 are 0, 1, 2, 3. */
uint64_t wb_zigzag_encode(int64_t value);
int64_t wb_zigzag_decode(uint64_t value);

/* How many bits a number has: 0 for 0, 64 at most. */
uint32_t wb_required_width(uint64_t max);

/* How many bytes a number has as a varint, 1 to 10; a signed one by its ZigZag. */
size_t wb_uvarint_len(uint64_t value);
size_t wb_varint_len(int64_t value);

/* ---- varints ---- */

/* Reads the varint at `at`, which may lie behind the end. *next_or_offset becomes the place after it; *unpadded, whether it has one
 * byte or its last byte is not 0, which strict reading asks. Refusals: 6, 7, and then *value is 0 and *unpadded false. */
uint32_t wb_read_uvarint(const uint8_t *bytes, size_t size, size_t at, uint64_t *value, bool *unpadded, size_t *next_or_offset);
uint32_t wb_read_varint(const uint8_t *bytes, size_t size, size_t at, int64_t *value, bool *unpadded, size_t *next_or_offset);

/* Writes a varint to the front of `out`: ten bytes are always enough. Refusals: 20. */
uint32_t wb_write_uvarint(uint64_t value, uint8_t *out, size_t size, size_t *count_or_offset);
uint32_t wb_write_varint(int64_t value, uint8_t *out, size_t size, size_t *count_or_offset);

/* ---- packing ---- */

/* How many bytes `count` values of `width` bits are packed in. Refusals: 21, 12. */
uint32_t wb_packed_len(size_t count, uint32_t width, size_t *count_or_offset);

/* Packs the lowest `width` bits of each value to the front of `out`. Refusals: 21, 12, 20. */
uint32_t wb_pack(const uint64_t *values, size_t count, uint32_t width, uint8_t *out, size_t size, size_t *count_or_offset);

/* Unpacks `count` values of `width` bits to the front of `out`. Refusals: 21, 12, 13, 20. */
uint32_t wb_unpack(const uint8_t *bytes, size_t size, uint32_t width, size_t count, uint64_t *out, size_t room, size_t *count_or_offset);

/* ---- chunks ---- */

/* Writes a column in an encoding, a wb_encoding, to the front of `out`. As many bytes as wb_estimate_sizes or wb_analyze tells for an
 * available encoding are always enough. (DeltaBinaryPacked of fewer than two keys is not available, and yet written: 16 bytes are
 * enough.) Only Dictionary uses the scratch: it needs min(count, 16384) places, the others none. It leaves the distinct keys there, as
 * the calls for statistics do, also where 23 or 20 refuses; 2, 21 and 22 leave the scratch as it was.
 * Refusals: 2, 21, (Dictionary: 22, 23), 20. */
uint32_t wb_encode_integers(
    const int64_t *column, size_t count, uint32_t encoding, int64_t *scratch, size_t places, uint8_t *out, size_t size, size_t *count_or_offset);

/* Reads a chunk, of the encoding that its first byte says, to the front of `column`. Strict reading also refuses padded varints, which
 * have more than one byte and end on 0, and bytes after the body. Refusals: 1 to 3, 5 to 19, (strict: 25, 26), and last of all 20, with
 * the count of keys: with no room at all a call says how many keys a chunk has, or why it is refused. */
uint32_t wb_decode_integers(const uint8_t *chunk, size_t size, bool strict, int64_t *column, size_t room, size_t *count_or_offset);

/* The same, where the chunk must be of the encoding that is named, a wb_encoding: else it is refused with 4. */
uint32_t wb_decode_named(
    const uint8_t *chunk, size_t size, uint32_t encoding, bool strict, int64_t *column, size_t room, size_t *count_or_offset);

/* ---- columns: statistics, estimates, the plan ---- */

typedef enum wb_sortedness { WB_CONSTANT = 0, WB_ASCENDING = 1, WB_DESCENDING = 2, WB_UNSORTED = 3 } wb_sortedness;

typedef struct wb_stats {
  uint64_t count;
  int64_t first;
  int64_t min;
  int64_t max;
  uint64_t run_count;            /* runs of equal keys */
  uint64_t sortedness;           /* a wb_sortedness */
  uint64_t cardinality;          /* how many distinct keys, or, where not exact, how many there are at least */
  uint64_t cardinality_is_exact; /* 1 or 0 */
  uint64_t value_span;           /* max - min */
  uint64_t max_zigzag;
  uint64_t varint_body_bytes;
  uint64_t run_length_body_bytes; /* without the run total */
  int64_t delta_min;              /* a delta is taken modulo 2^64 */
  int64_t delta_max;
  uint64_t delta_span;
} wb_stats;

/* The length of the column's chunk in each encoding, in the order of the ids: an encoding's stands at its id less one. All are exact
 * but DeltaBinaryPacked's, which is never too short. One that is not available has length 0. */
typedef struct wb_estimates {
  uint64_t lengths[WB_ENCODINGS];
  uint64_t available[WB_ENCODINGS]; /* 1 or 0 */
} wb_estimates;

typedef enum wb_reason { WB_EMPTY = 0, WB_COMPRESSION_DISABLED = 1, WB_SMALLEST_ESTIMATE = 2, WB_GAIN_BELOW_THRESHOLD = 3 } wb_reason;

typedef struct wb_plan {
  uint64_t encoding;        /* a wb_encoding */
  uint64_t estimated_bytes; /* of that encoding: enough for `out` */
  uint64_t plain_bytes;
  uint64_t reason;        /* a wb_reason */
  double run_density;     /* runs by keys */
  double estimated_ratio; /* plain_bytes by estimated_bytes */
  wb_estimates estimates;
} wb_plan;

/* These four collect the distinct keys, rising, at the front of the scratch, which needs min(count, 16384) places: of more than
 * 16,384 the first 16,384 met. *count_or_offset becomes how many the scratch's front holds. Where they refuse, the struct has every
 * number 0 (the encoding of a plan 1, a cardinality exact), and the scratch is as it was. Refusals: 21, 22; wb_analyze: 24, 21, 22. */

uint32_t wb_analyze_integers(
    const int64_t *column, size_t count, int64_t *scratch, size_t places, wb_stats *stats, size_t *count_or_offset);

/* The distinct keys alone. *count_or_offset becomes 0 where there are more than 16,384. */
uint32_t wb_distinct_values(const int64_t *column, size_t count, int64_t *scratch, size_t places, size_t *count_or_offset);

/* The estimates, with the statistics that they are made of. */
uint32_t wb_estimate_sizes(
    const int64_t *column, size_t count, int64_t *scratch, size_t places, wb_stats *stats, wb_estimates *estimates, size_t *count_or_offset);

/* The plan: the shortest encoding, of equally short ones the one that is read fastest, or Plain where it does not gain enough at the
 * level (0 no compression, 1 to 3 a gain of 20%, 4 to 6 of 5%, 7 to 9 of 1%). */
uint32_t wb_analyze(
    const int64_t *column, size_t count, uint32_t level, int64_t *scratch, size_t places, wb_plan *plan, size_t *count_or_offset);

/* The fraction of Plain's length that has to be saved at a level; 1.0 at level 0, at which none is asked. Above 9 as at 9. */
double wb_minimum_gain(uint32_t level);

#ifdef __cplusplus
}
#endif

#endif
