/* What a replay of broadcasts cannot do without, beside the reading of its file: the frame of each command is kept, four entries are
   kept of each with their octets, and a line is written for each entry. `bench/replay-broadcasts` builds and times it.

   One word: the number of broadcasts. They are those of the bench: one service of one edge with three circuits. */
#include <stdint.h>
#include <stdio.h>
#include <stdlib.h>
#include <string.h>
#include <unistd.h>

enum { FRAME = 26, ROOM = 65536, LONGEST = 128, ENTRIES = 4 };

/* As large as the octets and the entries of the program. */
struct octets {
    uint8_t *at;
    size_t capacity, length;
};

struct entry {
    uint8_t kind;
    uint64_t number, rest[3];
    struct octets octets;
};

struct command {
    uint64_t words[2];
    struct octets octets;
};

static const uint8_t frame[FRAME] = {255, 255, 255, 255, 255, 255, 2, 0, 0, 0, 0, 1, 8, 0, 0x45, 0, 0, 0x14, 0, 0, 0, 0, 0x40, 0x11, 0, 0};

static void *grown(void *items, size_t count, size_t size)
{
    void *more = realloc(items, count * size);
    if (!more)
        exit(1);
    return more;
}

static struct octets copied(const uint8_t *from)
{
    struct octets made = {grown(NULL, FRAME, 1), FRAME, FRAME};
    memcpy(made.at, from, FRAME);
    return made;
}

static char *put(char *text, const char *word)
{
    size_t length = strlen(word);
    memcpy(text, word, length);
    return text + length;
}

static char *put_number(char *text, uint64_t number)
{
    char digits[20];
    size_t first = sizeof digits;
    do
        digits[--first] = '0' + number % 10;
    while (number /= 10);
    memcpy(text, digits + first, sizeof digits - first);
    return text + sizeof digits - first;
}

static char *put_octets(char *text, const struct octets *octets, const char (*pairs)[2])
{
    for (size_t i = 0; i < octets->length; i++)
        memcpy(text + 2 * i, pairs[octets->at[i]], 2);
    return text + 2 * octets->length;
}

static char *put_line(char *text, const struct entry *entry, const char (*pairs)[2])
{
    static const char *const heads[ENTRIES] = {"> frame c1 ", "in c1 ", "left c2 ", "left c3 "};
    text = put(text, heads[entry->kind]);
    if (entry->kind > 0)
        text = put(put_number(text, entry->number), entry->kind == 1 ? " " : " 0 ");
    text = put_octets(text, &entry->octets, pairs);
    *text++ = '\n';
    return text;
}

static void write_all(const char *text, size_t length)
{
    while (length > 0) {
        ssize_t taken = write(STDOUT_FILENO, text, length);
        if (taken < 0)
            exit(1);
        text += taken;
        length -= taken;
    }
}

int main(int words, char **word)
{
    static char pairs[256][2], page[ROOM + LONGEST];
    size_t count = words == 2 ? strtoul(word[1], NULL, 10) : 0, room = 0, told = 0;
    struct command *commands = NULL;
    struct entry *trace = NULL;
    for (unsigned i = 0; i < 256; i++) {
        pairs[i][0] = "0123456789abcdef"[i / 16];
        pairs[i][1] = "0123456789abcdef"[i % 16];
    }
    for (size_t i = 0; i < count; i++) {
        if (i == room)
            commands = grown(commands, room = room ? 2 * room : 64, sizeof *commands);
        commands[i].octets = copied(frame);
    }
    room = 0;
    for (size_t i = 0; i < count; i++)
        for (unsigned kind = 0; kind < ENTRIES; kind++) {
            if (told == room)
                trace = grown(trace, room = room ? 2 * room : 64, sizeof *trace);
            trace[told++] = (struct entry){.kind = kind, .number = i + 1, .octets = kind ? copied(commands[i].octets.at) : commands[i].octets};
        }
    char *text = page;
    for (size_t i = 0; i < told; i++) {
        if (text - page > ROOM) {
            write_all(page, text - page);
            text = page;
        }
        text = put_line(text, trace + i, pairs);
    }
    write_all(page, text - page);
    return 0;
}
