/* Bytes as hex digits, read and printed. */
#ifndef DIGITS_H
#define DIGITS_H

#include <stddef.h>
#include <stdint.h>

/* Reads pairs of hex digits; `-` is no bytes. Gives their number, or SIZE_MAX where the text is no pairs of digits or has
 * more than `most`. */
size_t read_digits(const char *text, uint8_t *bytes, size_t most);

/* Reads the next number of a list with commas between, in base 10 and at most `most`, and moves on. Gives 1, 0 at the end
 * of the list, and -1 where there is no such number. */
int next_number(const char **list, size_t most, size_t *number);

/* Gives whether the text is one such number; whether it is a list of them. */
int read_number(const char *text, size_t most, size_t *number);
int is_list(const char *text, size_t most);

/* Prints bytes as lower-case hex and ends the line; no bytes are `-` where `dash` is set. */
void print_digits(const uint8_t *bytes, size_t length, int dash);

#endif
