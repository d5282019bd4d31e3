/* The panner as a static library (libboundary_exports.a, made of crate boundary_exports_c by `scripts/staticlib`). docs/EMBEDDING.md says how to link and call it.
 *
 * No call allocates, blocks, or keeps a pointer. The arrays of one call must not overlap. A pointer beside a count of 0 may be null.
 * Every call answers a number: 0, or the number of a refusal. Beside a refusal every lent place keeps its bits. */
#ifndef PANNER_H
#define PANNER_H

#include <stddef.h>
#include <stdint.h>

#ifdef __cplusplus
extern "C" {
#define PANNER_AT_LEAST(n) n
#else
#define PANNER_AT_LEAST(n) static n
#endif

/* The numbers of document 01. 11 is tested first, the others in rising order. */
enum panner_number {
  PANNER_ACCEPTED = 0,
  PANNER_NOT_TRIPLES = 1,     /* new, open: the count of position numbers is not a multiple of 3 */
  PANNER_POSITIONS = 2,       /* new, open: more than 40 positions */
  PANNER_SOURCES = 3,         /* open: sources not 1 to 8 */
  PANNER_TRIPLETS = 4,        /* new, open: a list of triplets built on the way has more than 80 */
  PANNER_NO_SOURCE = 5,       /* place, take back, settle: source not below the count of sources */
  PANNER_FULL = 6,            /* place: 16 directions already stand */
  PANNER_NONE_STANDS = 7,     /* take back: no direction stands */
  PANNER_BLOCK = 8,           /* render: block of 0 or more than 1,024 samples */
  PANNER_SAMPLES = 9,         /* render: samples are not sources times block */
  PANNER_OUTPUTS = 10,        /* render: outputs are not the layout's outputs times block */
  PANNER_MALFORMED = 11       /* every call on a record or a session: one that no call of the panner made */
};

enum {
  PANNER_RECORD_BYTES = 1022,
  PANNER_RECORD_FLOATS = 1080,
  PANNER_SESSION_BYTES = 1031,
  PANNER_SESSION_FLOATS = 1656
};

/* A layout's record. bytes: 8 of the head (outputs; kind, 0 silent, 1 mono, 2 planar, 3 hull; mono slot; counts of pairs, slots, real points,
 * triplets, imaginary points), 3 for each of 40 pairs (both slots; law, 1 an inverse, 0 the crossfade), 40 slots, 40 slots of points, 3 point
 * numbers for each of 80 triplets, 14 counts of neighbours, 40 neighbours for each of 14 imaginary points. floats: 6 for each of 40 pairs
 * (start, gap, the law's four or +0), 3 for each of 40 points, 9 rows of 80 (entry e of the inverse of triplet t at 360 + e * 80 + t). */
struct panner_record {
  uint8_t bytes[PANNER_RECORD_BYTES];
  float floats[PANNER_RECORD_FLOATS];
};

/* A session: its record's places, and behind them its own. bytes: the count of sources, and a standing count for each of 8 sources.
 * floats: a start row of 40 for each of 8 sources, and 16 directions (azimuth, elevation) for each of 8 sources.
 * The arrays of a session may be passed where those of a record are wanted. */
struct panner_session {
  uint8_t bytes[PANNER_SESSION_BYTES];
  float floats[PANNER_SESSION_FLOATS];
};

/* positions: three numbers a speaker. lfe: slots that get no direction; one that is no slot is ignored. imaginary: points made to close a hull. */
uint32_t panner_new(const float *positions, size_t numbers, const size_t *lfe, size_t lfe_count, size_t *imaginary,
                    uint8_t bytes[PANNER_AT_LEAST(PANNER_RECORD_BYTES)], float floats[PANNER_AT_LEAST(PANNER_RECORD_FLOATS)]);

uint32_t panner_num_outputs(const uint8_t bytes[PANNER_AT_LEAST(PANNER_RECORD_BYTES)],
                            const float floats[PANNER_AT_LEAST(PANNER_RECORD_FLOATS)], size_t *count);

/* The row of a direction into the first min(outputs, length) places of out; the others stay. */
uint32_t panner_gains(const uint8_t bytes[PANNER_AT_LEAST(PANNER_RECORD_BYTES)],
                      const float floats[PANNER_AT_LEAST(PANNER_RECORD_FLOATS)], float az, float el, float *out, size_t length);

/* A row for each direction, width places each, while there are directions and places. */
uint32_t panner_gains_all(const uint8_t bytes[PANNER_AT_LEAST(PANNER_RECORD_BYTES)],
                          const float floats[PANNER_AT_LEAST(PANNER_RECORD_FLOATS)], const float *az, size_t az_count, const float *el,
                          size_t el_count, size_t width, float *out, size_t length);

uint32_t panner_open(const float *positions, size_t numbers, const size_t *lfe, size_t lfe_count, size_t sources, size_t *imaginary,
                     uint8_t bytes[PANNER_AT_LEAST(PANNER_SESSION_BYTES)], float floats[PANNER_AT_LEAST(PANNER_SESSION_FLOATS)]);

uint32_t panner_place(uint8_t bytes[PANNER_AT_LEAST(PANNER_SESSION_BYTES)], float floats[PANNER_AT_LEAST(PANNER_SESSION_FLOATS)],
                      size_t source, float az, float el);

uint32_t panner_take_back(uint8_t bytes[PANNER_AT_LEAST(PANNER_SESSION_BYTES)], float floats[PANNER_AT_LEAST(PANNER_SESSION_FLOATS)],
                          size_t source);

uint32_t panner_settle(uint8_t bytes[PANNER_AT_LEAST(PANNER_SESSION_BYTES)], float floats[PANNER_AT_LEAST(PANNER_SESSION_FLOATS)],
                       size_t source);

/* samples: source after source; outputs: slot after slot, added to; block of each. */
uint32_t panner_render(uint8_t bytes[PANNER_AT_LEAST(PANNER_SESSION_BYTES)], float floats[PANNER_AT_LEAST(PANNER_SESSION_FLOATS)],
                       size_t block, const float *samples, size_t samples_count, float *outputs, size_t outputs_count);

/* For each direction a place and a take back, up to the first that is refused; for measurements. */
uint32_t panner_place_take_back_all(uint8_t bytes[PANNER_AT_LEAST(PANNER_SESSION_BYTES)],
                                    float floats[PANNER_AT_LEAST(PANNER_SESSION_FLOATS)], size_t source, const float *az,
                                    size_t az_count, const float *el, size_t el_count);

/* These two answer no number. */
float panner_normalized_lerp_gain(float from, float to, float dot, float t);
void panner_ramp_add(float *dst, size_t dst_count, const float *src, size_t src_count, float g0, float g1);

/* The number work of whole arrays, up to the end of the shortest; for tests and measurements. */
void panner_narrow_all(const double *src, size_t src_count, float *dst, size_t dst_count);
void panner_sqrt32_all(const float *src, size_t src_count, float *dst, size_t dst_count);
void panner_sqrt64_all(const double *src, size_t src_count, double *dst, size_t dst_count);
void panner_sin_cos_all(const double *src, size_t src_count, double *sin, size_t sin_count, double *cos, size_t cos_count);
void panner_atan2_all(const double *y, size_t y_count, const double *x, size_t x_count, double *dst, size_t dst_count);
void panner_normalized_lerp_gain_all(const float *from, size_t from_count, const float *to, size_t to_count, const float *dot,
                                     size_t dot_count, const float *t, size_t t_count, float *dst, size_t dst_count);

#ifdef __cplusplus
}
#endif

#undef PANNER_AT_LEAST
#endif
