/* What an audit of a report cannot do without, beside the reading of its scenario: the report is read whole, cut at line feeds and blanks,
   the digits of each frame are decoded and those of an `in` line kept, and the frame of each `left` line is compared with the one that
   its number names. Nothing is found by name, no window is kept, and nothing is printed but on a fault. It takes SSE2 alone. It is no
   auditor: it shows how long a third of a replay is.

   One word: the report. Build by `cc -O2`; times and instructions beside those of `vplsnet replay` and `vplsnet audit` tell the rest. */
#include <emmintrin.h>
#include <fcntl.h>
#include <stdint.h>
#include <stdio.h>
#include <stdlib.h>
#include <string.h>
#include <sys/stat.h>
#include <unistd.h>

/* So many octets behind the report may be looked at. */
enum { PIECE = 16, WORDS = 10 };

/* A frame that entered. */
struct frame {
    const uint8_t *at;
    size_t length;
};

static struct frame *frames;
static size_t places;
static uint8_t *kept;
static uint8_t *room;
static uint64_t lines, lefts;

static void stop(const char *why)
{
    fprintf(stderr, "audit-floor: %s in line %llu\n", why, (unsigned long long)lines + 1);
    exit(1);
}

static void *taken(size_t size)
{
    void *made = malloc(size);
    if (!made)
        stop("no memory");
    return made;
}

/* The place of the first such octet from a place on; one stands before the end. */
static const uint8_t *next(const uint8_t *at, char mark)
{
    const __m128i marks = _mm_set1_epi8(mark);
    for (;; at += PIECE) {
        int found = _mm_movemask_epi8(_mm_cmpeq_epi8(_mm_loadu_si128((const __m128i *)at), marks));
        if (found)
            return at + __builtin_ctz(found);
    }
}

/* The octets of sixteen digits, in the low halves of eight words, and the digits that are none. */
static __m128i eight(__m128i digits, int *strange)
{
    __m128i decimal = _mm_sub_epi8(_mm_subs_epu8(_mm_add_epi8(digits, _mm_set1_epi8(0xff - '9')), _mm_set1_epi8(6)), _mm_set1_epi8((char)0xf0));
    __m128i letter = _mm_adds_epu8(_mm_sub_epi8(digits, _mm_set1_epi8('a')), _mm_set1_epi8(10));
    __m128i value = _mm_min_epu8(decimal, letter);
    *strange |= _mm_movemask_epi8(_mm_adds_epu8(value, _mm_set1_epi8(127 - 15)));
    return _mm_and_si128(_mm_or_si128(_mm_slli_epi16(value, 4), _mm_srli_epi16(value, 8)), _mm_set1_epi16(0xff));
}

/* Decodes digits into room for them and some more, and answers the number of octets. */
static size_t decoded(const uint8_t *digits, size_t count, uint8_t *to)
{
    int strange = 0;
    size_t at = 0;
    if (count % 2)
        stop("an odd digit");
    for (; at + 16 <= count; at += 16) {
        __m128i octets = eight(_mm_loadu_si128((const __m128i *)(digits + at)), &strange);
        _mm_storel_epi64((__m128i *)(to + at / 2), _mm_packus_epi16(octets, octets));
    }
    if (at < count) {
        uint8_t last[PIECE];
        memset(last, '0', sizeof last);
        memcpy(last, digits + at, count - at);
        __m128i octets = eight(_mm_loadu_si128((const __m128i *)last), &strange);
        _mm_storel_epi64((__m128i *)(to + at / 2), _mm_packus_epi16(octets, octets));
    }
    if (strange)
        stop("no digit");
    return count / 2;
}

static uint64_t number(const uint8_t *at, const uint8_t *end)
{
    uint64_t value = 0;
    for (; at < end; at++) {
        if (*at < '0' || *at > '9')
            stop("no number");
        value = value * 10 + (*at - '0');
    }
    return value;
}

static void keep(uint64_t place, size_t length)
{
    if (place >= places) {
        size_t more = place * 2 + 64;
        frames = realloc(frames, more * sizeof *frames);
        if (!frames)
            stop("no memory");
        memset(frames + places, 0, (more - places) * sizeof *frames);
        places = more;
    }
    frames[place] = (struct frame){kept, length};
    kept += length;
}

/* Cuts so many blanks off a line, behind each of which a word begins; the last word is what is left, and is not looked at. */
static void cut(const uint8_t *at, const uint8_t *end, size_t count, const uint8_t **words)
{
    for (size_t i = 0; i < count; i++) {
        while (at < end && *at != ' ')
            at++;
        if (at == end)
            stop("too few words");
        words[i] = ++at;
    }
}

static int begins(const uint8_t *at, const uint8_t *end, const char *with, size_t length)
{
    return (size_t)(end - at) > length && !memcmp(at, with, length);
}

/* A line up to its line feed. Where its kind has digits they are its last word; other lines are cut alone. */
static void line(const uint8_t *at, const uint8_t *end)
{
    const uint8_t *words[WORDS];
    if (begins(at, end, "left ", 5)) {
        cut(at, end, 4, words);
        uint64_t origin = number(words[1], words[2] - 1);
        size_t length = decoded(words[3], end - words[3], room);
        number(words[2], words[3] - 1);
        if (origin >= places || frames[origin].length != length || memcmp(frames[origin].at, room, length))
            stop("a frame that had not entered");
        lefts++;
    } else if (begins(at, end, "sent ", 5)) {
        cut(at, end, 8, words);
        number(words[0], words[1] - 1);
        number(words[5], words[6] - 1);
        number(words[6], words[7] - 1);
        decoded(words[7], end - words[7], room);
    } else if (begins(at, end, "in ", 3)) {
        cut(at, end, 3, words);
        keep(number(words[1], words[2] - 1), decoded(words[2], end - words[2], kept));
    } else if (begins(at, end, "> frame ", 8) || begins(at, end, "said ", 5)) {
        cut(at, end, 3, words);
        decoded(words[2], end - words[2], room);
    } else {
        while (at < end && *at != ' ')
            at++;
    }
}

int main(int count, char **words)
{
    struct stat about;
    int file = count == 2 ? open(words[1], O_RDONLY) : -1;
    if (file < 0 || fstat(file, &about))
        return 2;
    size_t size = about.st_size, have = 0;
    uint8_t *text = taken(size + 2 * PIECE);
    while (have < size) {
        ssize_t more = read(file, text + have, size - have);
        if (more <= 0)
            stop("no report");
        have += more;
    }
    memset(text + size, '\n', 2 * PIECE);
    kept = taken(size / 2 + PIECE);
    room = taken(size / 2 + PIECE);
    for (const uint8_t *at = text; at < text + size; lines++) {
        const uint8_t *end = next(at, '\n');
        line(at, end);
        at = end + 1;
    }
    return 0;
}
