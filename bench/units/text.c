struct text_buffer {
    char *bytes;
    size_t used, room;
    unsigned failed;
    unsigned borrowed;
};

static const char text_digits[] = "0123456789abcdef";
static const unsigned char text_class[256] = {
    ['0'] = 1, ['1'] = 1, ['2'] = 1, ['3'] = 1, ['4'] = 1, ['5'] = 1, ['6'] = 1, ['7'] = 1, ['8'] = 1, ['9'] = 1,
    [' '] = 2, ['\t'] = 2, ['\n'] = 2, ['\r'] = 2,
    ['"'] = 4, ['\\'] = 4, ['\''] = 4,
};

static int text_reserve(struct text_buffer *buffer, size_t more)
{
    size_t room = buffer->room ? buffer->room : 64;
    char *bytes;

    if (buffer->failed)
        return 0;
    while (room - buffer->used < more)
        room *= 2;
    if (room == buffer->room)
        return 1;
    bytes = realloc(buffer->bytes, room);
    if (!bytes) {
        buffer->failed = 1;
        return 0;
    }
    buffer->bytes = bytes;
    buffer->room = room;
    return 1;
}

void text_put(struct text_buffer *buffer, const char *bytes, size_t length)
{
    if (!text_reserve(buffer, length + 1))
        return;
    memcpy(buffer->bytes + buffer->used, bytes, length);
    buffer->used += length;
    buffer->bytes[buffer->used] = '\0';
}

void text_put_number(struct text_buffer *buffer, unsigned long number, unsigned base)
{
    char digits[sizeof(number) * 8 + 1];
    int i = sizeof digits;

    do {
        digits[--i] = text_digits[number % base];
        number /= base;
    } while (number && i > 0);
    text_put(buffer, &digits[i], sizeof digits - i);
}

void text_put_quoted(struct text_buffer *buffer, const char *text)
{
    text_put(buffer, "\"", 1);
    for (; *text; ++text) {
        unsigned char c = (unsigned char)*text;

        if (text_class[c] & 4) {
            char escaped[2] = { '\\', *text };

            text_put(buffer, escaped, 2);
        } else if (c < 0x20 || c >= 0x7f) {
            text_put(buffer, "\\x", 2);
            text_put_number(buffer, c, 16);
        } else {
            text_put(buffer, text, 1);
        }
    }
    text_put(buffer, "\"", 1);
}

size_t text_count_words(const char *text)
{
    size_t words = 0;
    int inside = 0;

    while (*text) {
        int blank = text_class[(unsigned char)*text++] == 2;

        words += !blank && !inside;
        inside = !blank;
    }
    return words;
}

char *text_trim(char *text)
{
    char *end = text + strlen(text);

    while (end > text && text_class[(unsigned char)end[-1]] == 2)
        *--end = '\0';
    while (text_class[(unsigned char)*text] == 2)
        text++;
    return text;
}

int text_parse_number(const char *text, long *number)
{
    int negative = 0;
    unsigned long sum = 0, most = 0x7fffffffffffffffUL;

    if (*text == '+' || *text == '-')
        negative = *text++ == '-';
    if (!(text_class[(unsigned char)*text] & 1))
        goto bad;
    for (; text_class[(unsigned char)*text] == 1; text++) {
        unsigned digit = (unsigned)(*text - '0');

        if (sum > (most - digit) / 10)
            goto bad;
        sum = sum * 10 + digit;
    }
    *number = negative ? -(long)sum : (long)sum;
    return *text == '\0';
bad:
    printf("text: not a number: "
           "'%s'\n", text);
    return 0;
}

uint64_t text_mix(const char *text, uint64_t seed)
{
    uint64_t a = seed ^ 0x9E3779B97F4A7C15ULL, b = ~seed;

    for (unsigned i = 0; text[i]; i++) {
        a += (uint64_t)(unsigned char)text[i] << (i % 8 * 8);
        b ^= a >> 7;
        a = a << 13 | a >> 51;
        b *= 0xff51afd7ed558ccdull;
        a ^= b;
    }
    return a - b;
}
