/* Reading and writing files, with every failure told; and messages. */
#ifndef FILES_H
#define FILES_H

#include <stdbool.h>
#include <stddef.h>
#include <stdint.h>

/* How the program ends. */
enum { WELL = 0, REFUSED = 1, DIFFERS = 1, UNUSABLE = 2 };

/* A number with commas between thousands. */
typedef struct {
    char text[28];
} digits;

digits grouped(uint64_t number);

/* The word that a number in base ten is; one too large for a word stays too large. */
uint32_t word_of(const char *number);

/* "1 core", "2 cores"; the number with commas. */
typedef struct {
    char text[64];
} amount;

amount amount_of(uint64_t number, const char *thing);

/* Tells on standard error why nothing can be done, after the program's name, and ends with 2. */
_Noreturn void give_up(const char *format, ...) __attribute__((format(printf, 1, 2)));

/* Tells on standard error what is wrong at that byte of a file: its name, line and column first. */
void tell_at(const char *file, const uint8_t *text, size_t offset, const char *format, ...)
    __attribute__((format(printf, 4, 5)));

/* Names a byte in words. `text` goes on for `len` bytes from it. */
typedef struct {
    char text[48];
} byte_words;

byte_words byte_in_words(const uint8_t *text, size_t len);

/* What messages call a file: its name, or "standard input" for -. */
const char *file_words(const char *name);

/* Makes sure that the three standard streams are open, so that no file takes the place of one. */
void open_streams(void);

/* Reads a file, `most` bytes of it at most, or standard input for -, which can be read once. */
size_t read_file(const char *name, uint8_t *bytes, size_t most);

/* Gives up where two of these are one file: one that is read, standard output, and the two results;
   the results need not be there yet, and may be NULL. */
void keep_apart(const char *read, const char *plan, const char *table);

/* Writes numbers into a result file. */
void write_numbers(const char *name, const uint8_t *numbers, size_t len, size_t in_a_line);

/* Ends the writing of standard output. Returns `status`, or 2 where something was not written. */
int finish(int status);

#endif
