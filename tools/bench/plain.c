/* The job of `lpmtool lookup ROUTES ADDRESSES` in plain C, for tools/bench.py to compare with.
 *
 * Two tables of words, as DIR-24-8 has them, and nothing else: no list of routes, so none can be taken back, no limits
 * and no threads. It reads the files that tools/bench.py writes: a route or an address a line, one space between the
 * fields, no comments, no bits behind a prefix. Another line ends it. */
#include <stdint.h>
#include <stdio.h>
#include <stdlib.h>
#include <string.h>

enum { FIRST_WORDS = 1 << 24, GROUP_WORDS = 256, MOST_GROUPS = 65536, LONGEST_LINE = 25 };

/* A word: 24 bits of a next hop or of a group's number, 6 of the route's length, and which of the two it is. */
static const uint32_t IS_ROUTE = 1u << 30, IS_GROUP = 1u << 31, NUMBER = (1u << 24) - 1;

static uint32_t *first, *second;
static uint32_t groups;

static void *room(size_t bytes)
{
    void *found = calloc(bytes ? bytes : 1, 1);
    if (!found) {
        fputs("plain: out of memory\n", stderr);
        exit(5);
    }
    return found;
}

struct text {
    const char *at, *end;
};

static struct text text_of(const char *path)
{
    FILE *file = fopen(path, "rb");
    if (!file || fseek(file, 0, SEEK_END)) {
        fprintf(stderr, "plain: cannot read %s\n", path);
        exit(3);
    }
    size_t size = (size_t)ftell(file);
    char *bytes = room(size);
    rewind(file);
    if (fread(bytes, 1, size, file) != size) {
        fprintf(stderr, "plain: cannot read %s\n", path);
        exit(3);
    }
    fclose(file);
    return (struct text){bytes, bytes + size};
}

static _Noreturn void bad_line(void)
{
    fputs("plain: a line isn't as tools/bench.py writes it\n", stderr);
    exit(4);
}

/* A decimal up to `most`, and the byte behind it. */
static inline uint32_t number(struct text *text, uint32_t most, char behind)
{
    uint32_t value = 0;
    const char *start = text->at;
    while (text->at < text->end && (unsigned char)(*text->at - '0') < 10) {
        value = value * 10 + (uint32_t)(*text->at++ - '0');
        if (value > most)
            bad_line();
    }
    if (text->at == start || text->at == text->end || *text->at++ != behind)
        bad_line();
    return value;
}

static inline uint32_t address(struct text *text, char behind)
{
    uint32_t value = number(text, 255, '.') << 24;
    value |= number(text, 255, '.') << 16;
    value |= number(text, 255, '.') << 8;
    return value | number(text, 255, behind);
}

static inline uint32_t length_of(uint32_t word)
{
    return word >> 24 & 63;
}

/* Puts a route's word where no longer route stands. */
static void fill(uint32_t *words, uint32_t count, uint32_t word)
{
    for (uint32_t i = 0; i < count; i++) {
        if (words[i] & IS_GROUP)
            fill(second + (size_t)(words[i] & NUMBER) * GROUP_WORDS, GROUP_WORDS, word);
        else if (length_of(words[i]) <= length_of(word))
            words[i] = word;
    }
}

static void add(uint32_t addr, uint32_t length, uint32_t hop)
{
    uint32_t word = IS_ROUTE | length << 24 | hop, *block = first + (addr >> 8);
    if (length <= 24) {
        fill(block - (addr >> 8) % (1u << (24 - length)), 1u << (24 - length), word);
        return;
    }
    if (!(*block & IS_GROUP)) {
        if (groups == MOST_GROUPS) {
            fputs("plain: too many groups\n", stderr);
            exit(6);
        }
        uint32_t *group = second + (size_t)groups * GROUP_WORDS;
        for (int i = 0; i < GROUP_WORDS; i++)
            group[i] = *block;
        *block = IS_GROUP | groups++;
    }
    uint32_t count = 1u << (32 - length);
    fill(second + (size_t)(*block & NUMBER) * GROUP_WORDS + (addr & 255 & ~(count - 1)), count, word);
}

static void read_routes(struct text text)
{
    while (text.at < text.end) {
        uint32_t addr = address(&text, '/'), length = number(&text, 32, ' ');
        add(addr, length, number(&text, NUMBER, '\n'));
    }
}

static size_t read_addresses(struct text text, uint32_t *addrs)
{
    size_t count = 0;
    while (text.at < text.end)
        addrs[count++] = address(&text, '\n');
    return count;
}

static void look_up(const uint32_t *addrs, size_t count, uint32_t *words)
{
    for (size_t i = 0; i < count; i++) {
        uint32_t word = first[addrs[i] >> 8];
        if (word & IS_GROUP)
            word = second[(size_t)(word & NUMBER) * GROUP_WORDS + (addrs[i] & 255)];
        words[i] = word;
    }
}

static char *put_number(char *out, uint32_t value, char behind)
{
    char digits[10];
    int count = 0;
    do
        digits[count++] = (char)('0' + value % 10);
    while (value /= 10);
    while (count)
        *out++ = digits[--count];
    *out++ = behind;
    return out;
}

static size_t put_answers(const uint32_t *addrs, const uint32_t *words, size_t count, char *text)
{
    char *out = text;
    for (size_t i = 0; i < count; i++) {
        out = put_number(out, addrs[i] >> 24, '.');
        out = put_number(out, addrs[i] >> 16 & 255, '.');
        out = put_number(out, addrs[i] >> 8 & 255, '.');
        out = put_number(out, addrs[i] & 255, ' ');
        if (words[i] & IS_ROUTE) {
            out = put_number(out, words[i] & NUMBER, '\n');
        } else {
            *out++ = '-';
            *out++ = '\n';
        }
    }
    return (size_t)(out - text);
}

int main(int count, char **words)
{
    if (count != 3) {
        fputs("usage: plain ROUTES ADDRESSES\n", stderr);
        return 2;
    }
    first = room(sizeof(uint32_t) * FIRST_WORDS);
    second = room(sizeof(uint32_t) * MOST_GROUPS * GROUP_WORDS);
    struct text routes = text_of(words[1]), addresses = text_of(words[2]);
    read_routes(routes);
    size_t most = (size_t)(addresses.end - addresses.at) / strlen("0.0.0.0\n");
    uint32_t *addrs = room(sizeof(uint32_t) * most), *found = room(sizeof(uint32_t) * most);
    size_t lines = read_addresses(addresses, addrs);
    look_up(addrs, lines, found);
    char *text = room(lines * LONGEST_LINE);
    size_t bytes = put_answers(addrs, found, lines, text);
    return fwrite(text, 1, bytes, stdout) == bytes && !fflush(stdout) ? 0 : 3;
}
