/* The compiled panel behind a pipe. Each request on standard input is one letter and its numbers, each answer on standard output
 * its numbers, all little-endian, as this machine has them. A program on any machine can hold the panel to its own answers so.
 *
 * What a call may touch is watched here: whatever is lent stands between others that must keep their values, and so must a stream.
 * A call that breaks this ends the driver with status 2, after the answers to the requests before it. */
#include <stdint.h>
#include <stdio.h>
#include <stdlib.h>
#include <string.h>
#include <sys/mman.h>
#include <xmmintrin.h>
#include "warpsorrel.h"

static void need(void *to, size_t n) {
    if (fread(to, 1, n, stdin) != n) {
        fprintf(stderr, "driver: a request is cut short\n");
        exit(2);
    }
}

static void give(const void *from, size_t n) {
    if (fwrite(from, 1, n, stdout) != n) {
        fprintf(stderr, "driver: the answer cannot be written\n");
        exit(2);
    }
}

static void hold(int kept, const char *otherwise) {
    if (!kept) {
        fprintf(stderr, "driver: %s\n", otherwise);
        exit(2);
    }
}

/* Words lent to the panel stand between two others. All start alike, so that a word left out or one too many is seen. */
#define UNTOUCHED INT64_C(0x5a5a5a5a5a5a5a5a)

static void lend(int64_t *words, size_t n) {
    for (size_t i = 0; i < n; i++) words[i] = UNTOUCHED;
}

/* The refusal and the words between the two, int64 each. */
static void give_lent(int64_t refusal, const int64_t *words, size_t n) {
    hold(words[0] == UNTOUCHED && words[n - 1] == UNTOUCHED, "the panel wrote outside the words it was lent");
    give(&refusal, sizeof refusal);
    give(words + 1, (n - 2) * sizeof *words);
}

/* Bytes lent to the panel stand between others that start like them, with a byte that no line and no page has. The count that goes with
 * them stands between two words. */
#define UNTOUCHED_BYTE 0x5a
#define BESIDE 64
#define NOWHERE UINT64_MAX /* for a length or a room: NULL, and 0 bytes */

static uint8_t lent_bytes[BESIDE + WARPSORREL_PAGE + 64 + BESIDE];
static int64_t lent_count[3];

static uint64_t need_size(void) {
    uint64_t size;
    need(&size, sizeof size);
    return size;
}

static size_t bytes_of(uint64_t size) {
    return size == NOWHERE ? 0 : size;
}

static uint8_t *lend_bytes(uint64_t room) {
    hold(bytes_of(room) <= sizeof lent_bytes - 2 * BESIDE, "a request for more room than there is");
    memset(lent_bytes, UNTOUCHED_BYTE, BESIDE + bytes_of(room) + BESIDE);
    lend(lent_count, 3);
    return room == NOWHERE ? NULL : lent_bytes + BESIDE;
}

static size_t *lend_count(void) {
    return (size_t *)&lent_count[1];
}

static int untouched(const uint8_t *bytes, size_t n) {
    return bytes[0] == UNTOUCHED_BYTE && memcmp(bytes, bytes + 1, n - 1) == 0;
}

/* The refusal, the count (int64 each) and so many bytes from the start. */
static void give_lent_bytes(int64_t refusal, uint64_t room) {
    hold(lent_count[0] == UNTOUCHED && lent_count[2] == UNTOUCHED, "the panel wrote beside the count");
    size_t count = *lend_count();
    hold(count <= bytes_of(room), "the panel counts more bytes than it was lent, or left the count as it was");
    hold(untouched(lent_bytes, BESIDE), "the panel wrote before the bytes it was lent");
    hold(untouched(lent_bytes + BESIDE + count, bytes_of(room) - count + BESIDE), "the panel wrote past the bytes it counts");
    give(&refusal, sizeof refusal);
    give(&lent_count[1], sizeof lent_count[1]);
    give(lent_bytes + BESIDE, count);
}

/* The stream of the requests that read one. It ends where the memory that may be read ends; the bytes before it are watched. */
#define LONGEST_STREAM (1 << 18)
#define FENCE (1 << 16) /* whole pages of memory on every machine */

static uint8_t *stream_end, *sent;
static const uint8_t *stream;
static size_t stream_length;

static void make_fence(void) {
    uint8_t *memory = mmap(NULL, LONGEST_STREAM + FENCE, PROT_READ | PROT_WRITE, MAP_PRIVATE | MAP_ANONYMOUS, -1, 0);
    sent = malloc(LONGEST_STREAM);
    hold(memory != MAP_FAILED && sent && mprotect(memory + LONGEST_STREAM, FENCE, PROT_NONE) == 0, "no memory for a stream");
    stream_end = memory + LONGEST_STREAM;
}

/* To be said after every call that was given the stream. */
static void stream_kept(void) {
    if (!stream) return;
    hold(memcmp(stream, sent, stream_length) == 0 && untouched(stream - BESIDE, BESIDE), "the panel wrote to the stream or before it");
}

/* A report: its kind (uint32), its probe's number (uint16), then its floats as bits, so that a NaN goes through as it is. */
struct report {
    uint32_t kind;
    uint16_t probe;
    float salinity, temperature, pressure;
};

static struct report need_some(int has_number) {
    uint32_t bits[3];
    struct report report = {0, 0, 0, 0, 0};
    need(&report.kind, sizeof report.kind);
    if (has_number) need(&report.probe, sizeof report.probe);
    need(bits, sizeof bits);
    memcpy(&report.salinity, &bits[0], sizeof bits[0]);
    memcpy(&report.temperature, &bits[1], sizeof bits[1]);
    memcpy(&report.pressure, &bits[2], sizeof bits[2]);
    return report;
}

static struct report need_report(void) {
    return need_some(1);
}

/* v: the version (uint32) */
static void version(void) {
    uint32_t number = warpsorrel_version();
    give(&number, sizeof number);
}

/* g sigma tau pi (int64 each): refusal, density, bulk modulus (uint32 each) */
static void grid_reading(void) {
    int64_t in[3];
    need(in, sizeof in);
    uint32_t out[3] = {warpsorrel_refusal(in[0], in[1], in[2]), warpsorrel_density(in[0], in[1], in[2]), warpsorrel_bulk(in[0], in[1], in[2])};
    give(out, sizeof out);
}

/* w sigma (int64) trials (uint32): refusal, root, trial bit, rest, root so far (64 bits each) */
static void root(void) {
    int64_t sigma, words[6];
    uint32_t trials;
    need(&sigma, sizeof sigma);
    need(&trials, sizeof trials);
    lend(words, 6);
    uint32_t refusal = warpsorrel_root(sigma, trials, (uint64_t *)(words + 1));
    give_lent(refusal, words, 6);
}

/* c report: refusal, sigma, tau, pi, density, bulk modulus, the remarks of salinity, temperature, pressure (int64 each) */
static void channel(void) {
    struct report r = need_report();
    int64_t words[10];
    lend(words, 10);
    uint32_t refusal = warpsorrel_channel(r.kind, r.probe, r.salinity, r.temperature, r.pressure, words + 1);
    give_lent(refusal, words, 10);
}

/* o report, without its probe's number: refusal, ln K0 in millionths (int64 each) */
static void co2(void) {
    struct report r = need_some(0);
    int64_t words[3];
    lend(words, 3);
    uint32_t refusal = warpsorrel_co2(r.kind, r.salinity, r.temperature, r.pressure, words + 1);
    give_lent(refusal, words, 3);
}

/* n left-report right-report: refusal, left density, right density, needle (int64 each) */
static void needle(void) {
    struct report l = need_report();
    struct report r = need_report();
    int64_t words[5];
    lend(words, 5);
    uint32_t refusal = warpsorrel_needle(l.kind, l.probe, l.salinity, l.temperature, l.pressure, r.kind, r.probe, r.salinity, r.temperature,
                                         r.pressure, words + 1);
    give_lent(refusal, words, 5);
}

/* r shown (uint32): the recorder's float, as bits (uint32) */
static void recorder(void) {
    uint32_t shown, bits;
    need(&shown, sizeof shown);
    float value = warpsorrel_recorder(shown);
    memcpy(&bits, &value, sizeof bits);
    give(&bits, sizeof bits);
}

/* s length (uint64) bytes: no answer; the stream of p, k and f from here on */
static void take_stream(void) {
    uint64_t length = need_size();
    hold(bytes_of(length) <= LONGEST_STREAM - BESIDE, "a stream is longer than there is room");
    stream_length = bytes_of(length);
    need(sent, stream_length);
    uint8_t *start = stream_end - stream_length;
    memcpy(start, sent, stream_length);
    memset(start - BESIDE, UNTOUCHED_BYTE, BESIDE);
    stream = length == NOWHERE ? NULL : start;
}

/* p: how many pairs (int64) */
static void pairs(void) {
    int64_t count = warpsorrel_pairs(stream, stream_length);
    stream_kept();
    give(&count, sizeof count);
}

/* k before (uint64): 1 or 0; refusal, density, bulk modulus of the left; of the right; refusal, value of the needle (int64 each) */
static void pair(void) {
    int64_t words[10];
    lend(words, 10);
    uint32_t there = warpsorrel_pair(stream, stream_length, need_size(), words + 1);
    stream_kept();
    give_lent(there, words, 10);
}

/* f room (uint64): refusal, count (int64 each), bytes */
static void page(void) {
    uint64_t room = need_size();
    uint8_t *out = lend_bytes(room);
    uint32_t refusal = warpsorrel_page(stream, stream_length, out, bytes_of(room), lend_count());
    stream_kept();
    give_lent_bytes(refusal, room);
}

/* l number (uint32) left-report right-report room (uint64): refusal, count (int64 each), bytes */
static void line(void) {
    uint32_t number;
    need(&number, sizeof number);
    struct report l = need_report();
    struct report r = need_report();
    uint64_t room = need_size();
    uint8_t *out = lend_bytes(room);
    uint32_t refusal = warpsorrel_line(number, l.kind, l.probe, l.salinity, l.temperature, l.pressure, r.kind, r.probe, r.salinity, r.temperature,
                                       r.pressure, out, bytes_of(room), lend_count());
    give_lent_bytes(refusal, room);
}

/* e rounding flush (uint32 each): the processor's control bits as they were (uint32), without those that report. From here on it rounds
 * to nearest (0), down (1), up (2) or to zero (3), and takes and gives denormals as they are (0) or as zero (1). */
static void environment(void) {
    uint32_t in[2], was = _mm_getcsr() & 0xffc0;
    uint16_t x87;
    need(in, sizeof in);
    hold(in[0] < 4 && in[1] < 2, "no such floating-point mode");
    _mm_setcsr(0x1f80 | in[0] << 13 | in[1] << 15 | in[1] << 6);
    __asm__ volatile("fnstcw %0" : "=m"(x87));
    x87 = (x87 & 0xf3ff) | in[0] << 10;
    __asm__ volatile("fldcw %0" : : "m"(x87));
    give(&was, sizeof was);
}

int main(void) {
    static char in_buffer[1 << 16], out_buffer[1 << 16];
    setvbuf(stdin, in_buffer, _IOFBF, sizeof in_buffer);
    setvbuf(stdout, out_buffer, _IOFBF, sizeof out_buffer);
    make_fence();
    for (int letter; (letter = getchar()) != EOF;) {
        switch (letter) {
        case 'v': version(); break;
        case 'g': grid_reading(); break;
        case 'w': root(); break;
        case 'c': channel(); break;
        case 'o': co2(); break;
        case 'n': needle(); break;
        case 'r': recorder(); break;
        case 's': take_stream(); break;
        case 'p': pairs(); break;
        case 'k': pair(); break;
        case 'f': page(); break;
        case 'l': line(); break;
        case 'e': environment(); break;
        default: fprintf(stderr, "driver: no such request: %d\n", letter); return 2;
        }
    }
    return fflush(stdout) != 0;
}
