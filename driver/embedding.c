/* The header in use: a session on four speakers, a refusal that leaves everything, and a block. Prints nothing where all is as document 01 says. */
#include "panner.h"

#include <stdio.h>
#include <string.h>

#define CHECK(what)                                                  \
  do {                                                               \
    if (!(what)) {                                                   \
      printf("%s:%d: not so: %s\n", __FILE__, __LINE__, #what);      \
      return 1;                                                      \
    }                                                                \
  } while (0)

static struct panner_session s, before;
static struct panner_record r;

int main(void) {
  /* four speakers on a ring: front, right, back, left */
  const float positions[] = {0, 0, -1, 1, 0, 0, 0, 0, 1, -1, 0, 0};
  const size_t lfe[] = {9};
  size_t imaginary = 7, count = 0;
  CHECK(panner_open(positions, 12, lfe, 1, 2, &imaginary, s.bytes, s.floats) == PANNER_ACCEPTED);
  CHECK(imaginary == 0);
  CHECK(panner_new(positions, 12, lfe, 1, &imaginary, r.bytes, r.floats) == PANNER_ACCEPTED);
  CHECK(memcmp(r.bytes, s.bytes, sizeof r.bytes) == 0 && memcmp(r.floats, s.floats, sizeof r.floats) == 0);
  CHECK(panner_num_outputs(s.bytes, s.floats, &count) == PANNER_ACCEPTED && count == 4);

  /* a refusal leaves every array as it was, a live session in it included */
  before = s;
  imaginary = 7;
  CHECK(panner_open(positions, 11, lfe, 1, 2, &imaginary, s.bytes, s.floats) == PANNER_NOT_TRIPLES);
  CHECK(panner_open(positions, 12, lfe, 1, 9, &imaginary, s.bytes, s.floats) == PANNER_SOURCES);
  CHECK(panner_place(s.bytes, s.floats, 2, 0, 0) == PANNER_NO_SOURCE);
  CHECK(panner_take_back(s.bytes, s.floats, 0) == PANNER_NONE_STANDS);
  CHECK(imaginary == 7 && memcmp(&s, &before, sizeof s) == 0);

  /* to the front: the first speaker alone */
  float row[5] = {9, 9, 9, 9, 9};
  CHECK(panner_gains(s.bytes, s.floats, 0, 0, row, 5) == PANNER_ACCEPTED);
  CHECK(row[0] == 1 && row[1] == 0 && row[2] == 0 && row[3] == 0 && row[4] == 9);

  /* a block from silence to that row: its samples are ramped in */
  const float samples[4] = {1, 1, 0, 0};
  float outputs[8] = {0};
  CHECK(panner_place(s.bytes, s.floats, 0, 0, 0) == PANNER_ACCEPTED);
  CHECK(panner_render(s.bytes, s.floats, 2, samples, 3, outputs, 8) == PANNER_SAMPLES);
  CHECK(panner_render(s.bytes, s.floats, 2, samples, 4, outputs, 8) == PANNER_ACCEPTED);
  CHECK(outputs[0] == 0.5f && outputs[1] == 1 && outputs[2] == 0);
  CHECK(panner_settle(s.bytes, s.floats, 0) == PANNER_ACCEPTED);
  CHECK(panner_take_back(s.bytes, s.floats, 0) == PANNER_ACCEPTED);

  /* a kind that is none is malformed */
  s.bytes[1] = 4;
  CHECK(panner_settle(s.bytes, s.floats, 0) == PANNER_MALFORMED);
  return 0;
}
