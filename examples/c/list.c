/*
 * An example in C: lists the latest version of the bundle on standard input, as the program `list` does.
 * A row says where the add's line stands in the bundle; the path and the records are shown of that line.
 * Exit status: 0 listed, 1 refused, 2 an error.
 */
#include <kerumpase.h>
#include <kerumpase_words.h>

#include <inttypes.h>
#include <stdio.h>

static uint8_t bundle[KERUMPASE_BUNDLE_MOST + 1];
static uint64_t rows[KERUMPASE_ROWS_ROOM];

static void print_row(kerumpase_row row)
{
    const uint8_t *line = bundle + row.place;
    size_t length = (size_t)row.length;
    kerumpase_place path = kerumpase_path_of(line, length);
    kerumpase_records records = kerumpase_records_of(line, length);

    printf("\"%.*s\" %" PRIu64 " %" PRIu64, (int)path.length, (const char *)line + path.start, row.size, row.time);
    if (records.stated == KERUMPASE_STATED)
        printf(" %" PRIu64 "\n", records.number);
    else
        puts(" -");
}

/* One line as the program `list` prints it, and one that says what it means. */
static void print_refused(kerumpase_refused r, size_t length)
{
    printf("refused %" PRIu32 " entry %zu line %zu\n", r.number, r.entry, r.line);
    fprintf(stderr, "list: %s", kerumpase_refusal_text(r.number));
    if (r.number == KERUMPASE_MALFORMED || r.number == KERUMPASE_TOO_MANY_LIVE || r.number == KERUMPASE_FOREIGN_KEYS) {
        size_t n;
        const char *name = kerumpase_entry_name(bundle, length, r.entry, &n);
        fprintf(stderr, ", in %.*s, line %zu", (int)n, name != NULL ? name : "", r.line);
    }
    fputc('\n', stderr);
}

int main(void)
{
    static const uint8_t all[] = {'[', ']'}; /* no conditions: every file is picked */
    size_t length = fread(bundle, 1, sizeof bundle, stdin);
    if (ferror(stdin)) {
        perror("list");
        return 2;
    }
    kerumpase_listed a = kerumpase_read_latest(bundle, length, all, sizeof all, rows, KERUMPASE_ROWS_ROOM);
    if (a.refused.number != KERUMPASE_ACCEPTED) {
        print_refused(a.refused, length);
        return 1;
    }
    printf("version %" PRIu64 " files %zu reader %" PRIu64 " writer %" PRIu64 " writable %s\n", a.version, a.rows,
           a.reader, a.writer, a.writable ? "yes" : "no");
    for (size_t i = 0; i < a.rows; i++)
        print_row(kerumpase_row_at(rows, i));
    return 0;
}
