/* Prints the columns of a copybook, from a file or from standard input: first byte, width, name and picture of each, by
   depth. A refusal is told with line and column.

       layout [FILE]

   The buffers are lent for the calls and stand here once. */
#include "copybook.h"

#include <stdio.h>

static uint8_t text[COPYBOOK_MOST_BYTES + 1]; /* one byte more, so that a longer copybook is refused */
static uint32_t work[COPYBOOK_WORK];
static uint8_t listing[COPYBOOK_LONGEST_LISTING];
static uint8_t details[COPYBOOK_LONGEST_DETAILS];

static void print_word(const char *before, struct copybook_span span)
{
    if (span.length > 0)
        printf("%s%.*s", before, (int)span.length, (const char *)text + span.start);
}

static void print_entry(const struct copybook_entry *e)
{
    printf("%6llu %6lu  %*s", (unsigned long long)e->first, (unsigned long)e->width, 2 * (int)e->depth, "");
    if (e->name.length == 0)
        printf("FILLER");
    print_word("", e->name);
    print_word(" ", e->picture);
    if (e->has_occurs)
        printf(", %lu times", (unsigned long)e->occurs);
    print_word(", by the count in ", e->depending_on);
    print_word(", over ", e->overlays);
    if (e->folded)
        printf(", %lu ways to read the same bytes", (unsigned long)e->members);
    if (e->slack > 0)
        printf(", after slack of %lu", (unsigned long)e->slack);
    if (e->slack_at_end > 0)
        printf(", slack of %lu at its end included", (unsigned long)e->slack_at_end);
    printf("\n");
}

/* Tells a refusal; the exit status. */
static int refused(const char *file, size_t n, uint32_t number, uint64_t position)
{
    size_t line, column;
    copybook_line_column(text, n, position, &line, &column);
    fprintf(stderr, "%s:%lu:%lu: %s\n    %s\n", file, (unsigned long)line, (unsigned long)column,
            copybook_found(number), copybook_advice(number));
    return 1;
}

int main(int argc, char **argv)
{
    const char *file = argc > 1 ? argv[1] : "standard input";
    FILE *in = argc > 1 ? fopen(file, "rb") : stdin;
    uint64_t answer[COPYBOOK_LAYOUT_ANSWER], more[COPYBOOK_DETAILS_ANSWER];
    struct copybook_reader reader;
    struct copybook_entry entry;
    uint32_t number;
    size_t n;

    if (in == NULL) {
        perror(file);
        return 2;
    }
    n = fread(text, 1, sizeof text, in);
    if (ferror(in)) {
        perror(file);
        return 2;
    }
    number = copybook_layout(text, n, work, COPYBOOK_WORK, listing, sizeof listing, answer, COPYBOOK_LAYOUT_ANSWER);
    if (number != COPYBOOK_OK)
        return refused(file, n, number, answer[0]);
    /* what has a listing has details, and `details` is never too short */
    copybook_details(text, n, work, COPYBOOK_WORK, details, sizeof details, more, COPYBOOK_DETAILS_ANSWER);
    reader = copybook_read(listing, answer[0], details, more[0]);
    printf("record of %lu bytes%s\n", (unsigned long)reader.record_length, reader.variable ? " or more" : "");
    while (copybook_next(&reader, &entry))
        print_entry(&entry);
    return 0;
}
