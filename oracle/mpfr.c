/* An outside judge of correct rounding: reads case lists on standard input and works out
 * narrow, f32_from_u64, f64_from_u64, sqrt32, sqrt64, rem_euclid32 and rem_euclid64 with MPFR.
 * Prints how many cases of each it judged and how many differ; exit status 1 where any does.
 * Build: cc -O2 -o target/mpfr mpfr.c -lmpfr -lgmp (Debian: libmpfr-dev). */

#include <inttypes.h>
#include <math.h>
#include <mpfr.h>
#include <stdint.h>
#include <stdio.h>
#include <string.h>

/* A format for MPFR, whose significands lie in [1/2, 1). Origin: IEEE 754-2019, table 3.5. */
typedef struct {
    mpfr_prec_t prec;
    mpfr_exp_t emin, emax;
} Format;

static const Format BINARY32 = {24, -148, 128};
static const Format BINARY64 = {53, -1073, 1024};

static const char *NAMES[] = {"narrow", "f32_from_u64", "f64_from_u64", "sqrt32", "sqrt64", "rem_euclid32", "rem_euclid64"};
enum { NARROW, F32_FROM_U64, F64_FROM_U64, SQRT32, SQRT64, REM32, REM64, COUNT };

static float f32_of(uint64_t bits) {
    uint32_t low = (uint32_t)bits;
    float x;
    memcpy(&x, &low, sizeof x);
    return x;
}

static double f64_of(uint64_t bits) {
    double x;
    memcpy(&x, &bits, sizeof x);
    return x;
}

/* Brings a result, rounded to the format's precision in MPFR's whole range, into the format's
 * range: overflow, and the second look at subnormals that MPFR makes with the ternary value. */
static void fit(mpfr_t y, int ternary, Format f) {
    mpfr_exp_t emin = mpfr_get_emin(), emax = mpfr_get_emax();
    mpfr_set_emin(f.emin);
    mpfr_set_emax(f.emax);
    ternary = mpfr_check_range(y, ternary, MPFR_RNDN);
    mpfr_subnormalize(y, ternary, MPFR_RNDN);
    mpfr_set_emin(emin);
    mpfr_set_emax(emax);
}

/* The remainder, plus the modulus where negative. */
static void rem_euclid(mpfr_t y, double x, double m, Format f) {
    mpfr_t a, b;
    mpfr_init2(a, 53);
    mpfr_init2(b, 53);
    mpfr_set_d(a, x, MPFR_RNDN);
    mpfr_set_d(b, m, MPFR_RNDN);
    int ternary = mpfr_fmod(y, a, b, MPFR_RNDN);
    if (!mpfr_nan_p(y) && mpfr_sgn(y) < 0) ternary = mpfr_add(y, y, b, MPFR_RNDN);
    fit(y, ternary, f);
    mpfr_clear(a);
    mpfr_clear(b);
}

static void judge(int which, const uint64_t *arg, mpfr_t y) {
    mpfr_t x;
    mpfr_init2(x, 64);
    switch (which) {
    case NARROW:
        mpfr_set_d(x, f64_of(arg[0]), MPFR_RNDN);
        fit(y, mpfr_set(y, x, MPFR_RNDN), BINARY32);
        break;
    case F32_FROM_U64: fit(y, mpfr_set_uj(y, arg[0], MPFR_RNDN), BINARY32); break;
    case F64_FROM_U64: fit(y, mpfr_set_uj(y, arg[0], MPFR_RNDN), BINARY64); break;
    case SQRT32:
        mpfr_set_flt(x, f32_of(arg[0]), MPFR_RNDN);
        fit(y, mpfr_sqrt(y, x, MPFR_RNDN), BINARY32);
        break;
    case SQRT64:
        mpfr_set_d(x, f64_of(arg[0]), MPFR_RNDN);
        fit(y, mpfr_sqrt(y, x, MPFR_RNDN), BINARY64);
        break;
    case REM32: rem_euclid(y, f32_of(arg[0]), f32_of(arg[1]), BINARY32); break;
    case REM64: rem_euclid(y, f64_of(arg[0]), f64_of(arg[1]), BINARY64); break;
    }
    mpfr_clear(x);
}

/* The word of a result, whose bits the format holds. */
static void word(char *to, size_t size, mpfr_t y, int narrow) {
    if (mpfr_nan_p(y)) {
        snprintf(to, size, "nan");
    } else if (narrow) {
        float x = mpfr_get_flt(y, MPFR_RNDN);
        uint32_t bits;
        memcpy(&bits, &x, sizeof bits);
        snprintf(to, size, "%08" PRIx32, bits);
    } else {
        double x = mpfr_get_d(y, MPFR_RNDN);
        uint64_t bits;
        memcpy(&bits, &x, sizeof bits);
        snprintf(to, size, "%016" PRIx64, bits);
    }
}

int main(void) {
    long judged[COUNT] = {0}, differ[COUNT] = {0}, total = 0;
    char line[256], name[32], given[2][32], expected[32], found[32];
    mpfr_t y24, y53;
    mpfr_init2(y24, 24);
    mpfr_init2(y53, 53);
    while (fgets(line, sizeof line, stdin)) {
        if (line[0] == '#' || sscanf(line, "%31s", name) != 1) continue;
        int which = 0;
        while (which < COUNT && strcmp(NAMES[which], name)) which++;
        if (which == COUNT) continue;
        int two = which == REM32 || which == REM64;
        int narrow = which == NARROW || which == F32_FROM_U64 || which == SQRT32 || which == REM32;
        uint64_t arg[2] = {0, 0};
        if (two) sscanf(line, "%*s %31s %31s %31s", given[0], given[1], expected);
        else sscanf(line, "%*s %31s %31s", given[0], expected);
        for (int i = 0; i <= two; i++) sscanf(given[i], "%" SCNx64, &arg[i]);
        mpfr_ptr y = narrow ? y24 : y53;
        judge(which, arg, y);
        word(found, sizeof found, y, narrow);
        judged[which]++;
        if (strcmp(found, expected)) {
            differ[which]++;
            if (++total <= 20) printf("%.*s: %s by MPFR\n", (int)strcspn(line, "\n"), line, found);
        }
    }
    for (int i = 0; i < COUNT; i++)
        if (judged[i]) printf("%s: %ld judged, %ld differ\n", NAMES[i], judged[i], differ[i]);
    return total != 0;
}
