#include "digits.h"

#include <stdio.h>
#include <string.h>

static int digit(char c)
{
    if (c >= '0' && c <= '9') return c - '0';
    if (c >= 'a' && c <= 'f') return c - 'a' + 10;
    if (c >= 'A' && c <= 'F') return c - 'A' + 10;
    return -1;
}

size_t read_digits(const char *text, uint8_t *bytes, size_t most)
{
    size_t length = strlen(text);
    if (strcmp(text, "-") == 0) return 0;
    if (length == 0 || length % 2 != 0 || length / 2 > most) return SIZE_MAX;
    for (size_t i = 0; i < length / 2; i++) {
        int high = digit(text[2 * i]), low = digit(text[2 * i + 1]);
        if (high < 0 || low < 0) return SIZE_MAX;
        bytes[i] = (uint8_t)(16 * high + low);
    }
    return length / 2;
}

int next_number(const char **list, size_t most, size_t *number)
{
    const char *at = *list;
    size_t read = 0;
    if (*at == 0) return 0;
    if (*at < '0' || *at > '9') return -1;
    for (; *at >= '0' && *at <= '9'; at++) {
        size_t value = (size_t)(*at - '0');
        if (value > most || read > (most - value) / 10) return -1;
        read = 10 * read + value;
    }
    if (*at == ',' && at[1] != 0) at++;
    else if (*at != 0) return -1;
    *list = at;
    *number = read;
    return 1;
}

int read_number(const char *text, size_t most, size_t *number)
{
    return next_number(&text, most, number) == 1 && *text == 0;
}

int is_list(const char *text, size_t most)
{
    size_t number;
    int next;
    do next = next_number(&text, most, &number);
    while (next == 1);
    return next == 0;
}

void print_digits(const uint8_t *bytes, size_t length, int dash)
{
    if (length == 0 && dash) putchar('-');
    for (size_t i = 0; i < length; i++) printf("%02x", (unsigned)bytes[i]);
    putchar('\n');
}
