/*
 * An example in C: clean NOW RETENTION <BUNDLE prints the names of the version files that may go, and removes
 * nothing. Both times are milliseconds, in decimal digits: a zero in front does not make them octal.
 * Exit status: 0 answered, 1 refused, 2 an error.
 */
#include <kerumpase.h>
#include <kerumpase_words.h>

#include <errno.h>
#include <inttypes.h>
#include <stdio.h>
#include <stdlib.h>
#include <string.h>

static uint8_t bundle[KERUMPASE_BUNDLE_MOST + 1];
static uint32_t names[KERUMPASE_NAMES_ROOM];
static uint64_t table_one[KERUMPASE_ROWS_ROOM], table_two[KERUMPASE_ROWS_ROOM];

static uint64_t milliseconds(const char *word)
{
    if (*word == '\0' || strspn(word, "0123456789") != strlen(word)) {
        fprintf(stderr, "clean: %s is no number of milliseconds\n", word);
        exit(2);
    }
    errno = 0;
    uint64_t n = strtoull(word, NULL, 10);
    if (errno != 0) {
        fprintf(stderr, "clean: %s is too large\n", word);
        exit(2);
    }
    return n;
}

int main(int count, char **words)
{
    if (count != 3) {
        fputs("usage: clean NOW RETENTION <BUNDLE\n", stderr);
        return 2;
    }
    uint64_t now = milliseconds(words[1]), retention = milliseconds(words[2]);
    size_t length = fread(bundle, 1, sizeof bundle, stdin);
    if (ferror(stdin)) {
        perror("clean");
        return 2;
    }
    kerumpase_counted a = kerumpase_clean(bundle, length, now, retention, names, KERUMPASE_NAMES_ROOM, table_one,
                                          KERUMPASE_ROWS_ROOM, table_two, KERUMPASE_ROWS_ROOM);
    if (a.refused.number != KERUMPASE_ACCEPTED) {
        fprintf(stderr, "clean: refused %" PRIu32 ": %s\n", a.refused.number, kerumpase_refusal_text(a.refused.number));
        return 1;
    }
    for (size_t i = 0; i < a.count; i++) {
        size_t n;
        const char *name = kerumpase_entry_name(bundle, length, names[i], &n);
        printf("%.*s\n", (int)n, name != NULL ? name : "");
    }
    return 0;
}
