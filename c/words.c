#include "words.h"

#include <string.h>

bool is(struct text text, const char *wanted)
{
    return text.length == strlen(wanted) && memcmp(text.at, wanted, text.length) == 0;
}

size_t word_length(const char *at, size_t left)
{
    const char *space = left == 0 ? NULL : memchr(at, ' ', left);
    return space ? (size_t)(space - at) : left;
}

struct text word(struct words *words)
{
    struct text next = {words->rest, 0};
    if (words->left == 0 || words->rest[0] != ' ') {
        words->failed = true;
        return next;
    }
    next.at = words->rest + 1;
    next.length = word_length(next.at, words->left - 1);
    words->rest = next.at + next.length;
    words->left -= next.length + 1;
    return next;
}

bool take(struct words *words, const char *wanted)
{
    struct words ahead = *words;
    if (!is(word(&ahead), wanted) || ahead.failed)
        return false;
    *words = ahead;
    return true;
}

unsigned digit(char c)
{
    if (c >= '0' && c <= '9')
        return (unsigned)(c - '0');
    if (c >= 'a' && c <= 'f')
        return (unsigned)(c - 'a') + 10;
    if (c >= 'A' && c <= 'F')
        return (unsigned)(c - 'A') + 10;
    return 16;
}

bool number_of(struct text word, uint64_t most, uint64_t *number)
{
    unsigned base = 10;
    if (word.length >= 2 && word.at[0] == '0' && word.at[1] == 'x') {
        base = 16;
        word.at += 2;
        word.length -= 2;
    }
    uint64_t value = 0;
    for (size_t i = 0; i < word.length; i++) {
        unsigned next = digit(word.at[i]);
        if (next >= base || value > (UINT64_MAX - next) / base)
            return false;
        value = value * base + next;
    }
    *number = value;
    return word.length > 0 && value <= most;
}

/* The number that has a name. */
static bool number_named(struct text word, name_of name, uint64_t *number)
{
    for (uint32_t n = 0; n < 256; n++) {
        struct plcn_text text = name(n);
        if (text.text[0] != 0 && is(word, text.text)) {
            *number = n;
            return true;
        }
    }
    return false;
}

uint64_t up_to(struct words *words, uint64_t most)
{
    uint64_t number = 0;
    if (!number_of(word(words), most, &number))
        words->failed = true;
    return number;
}

uint64_t bits64(struct words *words)
{
    return up_to(words, UINT64_MAX);
}

uint32_t bits32(struct words *words)
{
    return (uint32_t)up_to(words, UINT32_MAX);
}

uint16_t bits16(struct words *words)
{
    return (uint16_t)up_to(words, UINT16_MAX);
}

uint8_t bits8(struct words *words)
{
    return (uint8_t)up_to(words, UINT8_MAX);
}

uint64_t numeral(struct words *words, name_of name)
{
    uint64_t number = 0;
    struct text next = word(words);
    if (!number_of(next, UINT64_MAX, &number) && !number_named(next, name, &number))
        words->failed = true;
    return number;
}

struct plcn_value object(struct words *words)
{
    struct plcn_value value = {0, 0};
    if (!take(words, "-")) {
        value.there = 1;
        value.value = bits32(words);
    }
    return value;
}
