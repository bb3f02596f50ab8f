// Compares the proved square root with C's, bit for bit, and times its two forms. Usage: see run.sh.
//
// Every NaN counts as the same value, since the proved contract does not tell NaNs apart.
// The exit status is 0 if and only if no root differs.
#include <inttypes.h>
#include <math.h>
#include <stdint.h>
#include <stdio.h>
#include <string.h>
#include <time.h>

double onc_sqrt(double x);
double onc_sqrt_by_digits(double x);

typedef double (*root_fn)(double);

enum { PATTERNS = 6000000, BY_DIGITS_EVERY = 10, INPUTS = 4096, ROUNDS = 500 };

static const uint64_t MANTISSA = 0x000fffffffffffff, EXPONENT = 0x7ff0000000000000;

// xorshift64 from a fixed seed, so that every run compares the same patterns
static uint64_t state = 88172645463325252u;

static uint64_t next(void) {
    state ^= state << 13;
    state ^= state >> 7;
    state ^= state << 17;
    return state;
}

static uint64_t bits_of(double x) {
    uint64_t b;
    memcpy(&b, &x, sizeof b);
    return b;
}

static double of_bits(uint64_t b) {
    double x;
    memcpy(&x, &b, sizeof x);
    return x;
}

// the i-th pattern to compare at; the kinds take turns
static uint64_t pattern(long i) {
    uint64_t r = next();
    switch (i % 8) {
    case 0: // any bits: normal numbers of either sign, now and then a NaN
    case 1:
        return r;
    case 2: // subnormal, of either sign, with any number of digits
        return (r & 0x8000000000000000) | ((r & MANTISSA) >> (next() % 52));
    case 3: { // the square of a 26-digit number, or the double before or after it: a root that is exact or nearly so
        double d = (double)(r >> 38);
        return bits_of(d * d) + next() % 3 - 1;
    }
    case 4: { // the rounded square of a 53-digit number, or a neighbour: a root close to a double
        double d = of_bits((r & MANTISSA) | 0x3ff0000000000000);
        return bits_of(d * d) + next() % 3 - 1;
    }
    case 5: { // just above the middle between two doubles, or just below: a root that is hard to round
        double d = of_bits((r & MANTISSA) | 0x3ff0000000000000);
        return bits_of(d * of_bits(bits_of(d) + 1)) + next() % 3 - 1;
    }
    case 6: // the first or last doubles of a binade
        return (r & EXPONENT) | (r & 1 ? next() & 15 : MANTISSA - (next() & 15));
    default: // powers of two, zeros, infinities, NaNs and their neighbours, of either sign
        return ((r & 0xfff0000000000000) | (r & 1 ? EXPONENT * (r >> 1 & 1) : 0)) + next() % 3 - 1;
    }
}

// by the library and not by the processor's instruction alone: the compiler may not work it out at compile time
static double c_sqrt(double x) {
    volatile double v = x;
    return sqrt(v);
}

static int same(double a, double b) {
    return (a != a && b != b) || bits_of(a) == bits_of(b);
}

static void report(const char *name, uint64_t b, double want, double got) {
    printf("  %s(%016" PRIx64 ") is %016" PRIx64 ", expected %016" PRIx64 "\n", name, b, bits_of(got), bits_of(want));
}

static long compare_all(void) {
    long differ = 0, differ_by_digits = 0, compared_by_digits = 0;
    for (long i = 0; i < PATTERNS; i++) {
        uint64_t b = pattern(i);
        double x = of_bits(b), want = c_sqrt(x), got = onc_sqrt(x);
        if (!same(want, got) && differ++ < 5) {
            report("onc_sqrt", b, want, got);
        }
        if (i / 8 % BY_DIGITS_EVERY == 0) {
            compared_by_digits++;
            got = onc_sqrt_by_digits(x);
            if (!same(want, got) && differ_by_digits++ < 5) {
                report("onc_sqrt_by_digits", b, want, got);
            }
        }
    }
    printf("onc_sqrt: %d patterns compared with C's sqrt, %ld differ\n", PATTERNS, differ);
    printf("onc_sqrt_by_digits: %ld patterns compared with C's sqrt, %ld differ\n", compared_by_digits, differ_by_digits);
    return differ + differ_by_digits;
}

static double seconds(void) {
    struct timespec t;
    clock_gettime(CLOCK_MONOTONIC, &t);
    return (double)t.tv_sec + 1e-9 * (double)t.tv_nsec;
}

// nanoseconds a root over the inputs: the least of five runs, which other work on the machine disturbs least
static double nanoseconds(root_fn f, const double *inputs, int rounds) {
    double least = INFINITY;
    volatile double sink;
    for (int run = 0; run < 5; run++) {
        double sum = 0, start = seconds();
        for (int r = 0; r < rounds; r++) {
            for (int i = 0; i < INPUTS; i++) {
                sum += f(inputs[i]);
            }
        }
        double took = (seconds() - start) * 1e9 / rounds / INPUTS;
        sink = sum;
        least = took < least ? took : least;
    }
    (void)sink;
    return least;
}

static void time_all(const char *name, const double *inputs) {
    double fast = nanoseconds(onc_sqrt, inputs, ROUNDS);
    double digits = nanoseconds(onc_sqrt_by_digits, inputs, ROUNDS / 10);
    double c = nanoseconds(c_sqrt, inputs, ROUNDS);
    printf("%s: onc_sqrt %.1f ns a root, onc_sqrt_by_digits %.1f ns, ratio %.1f; C's sqrt %.1f ns\n", name, fast, digits, digits / fast, c);
}

int main(void) {
    static double inputs[INPUTS];
    long differ = compare_all();
    for (int i = 0; i < INPUTS; i++) {
        inputs[i] = ((double)(next() >> 12) + 0.5) * 0x1p-50;
    }
    time_all("uniform in (0, 4)", inputs);
    for (int i = 0; i < INPUTS; i++) {
        do {
            inputs[i] = of_bits(next() >> 1);
        } while (!isfinite(inputs[i]));
    }
    time_all("any finite positive bits", inputs);
    return differ == 0 ? 0 : 1;
}
