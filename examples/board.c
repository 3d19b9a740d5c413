/* A board that reads a film, or standard input, and prints what it would show: of each cue its begin and end, its text, the squares
 * that it lights (those that the text names, as e4), and its style. On a refusal it says where to look and what to do.
 *
 *     board [FILM]        status 0: read; 1: refused; 2: no such file
 */
#include <inttypes.h>
#include <stdio.h>

#include "postgarlic.h"

/* All memory that the library works on. A byte more than the limit, so that a longer text is seen to be one. */
static pg_tables tables;
static char film[PG_TEXT_BYTES + 1];
static char line[PG_TEXT_BYTES];
static uint32_t ids[PG_ID_CELLS * 1024];

static void print_clock(int64_t us)
{
    const uint64_t ms = (us < 0 ? 0 - (uint64_t)us : (uint64_t)us) / 1000;
    printf("%s%02" PRIu64 ":%02" PRIu64 ":%02" PRIu64 ".%03" PRIu64, us < 0 ? "-" : "", ms / 3600000, ms / 60000 % 60, ms / 1000 % 60, ms % 1000);
}

static void print_string(const char *label, pg_string string)
{
    printf("%s\"", label);
    fwrite(string.bytes, 1, string.length, stdout); /* it may hold a zero byte */
    printf("\"");
}

static void print_color(const char *label, pg_color color)
{
    if (color.has) {
        printf("%s#%02X%02X%02X%02X", label, color.red, color.green, color.blue, color.alpha);
    }
}

static void print_style(const pg_style *style)
{
    static const char *const sides[] = {"start", "center", "end", "left", "right"};
    print_color(" color ", style->color);
    print_color(" on ", style->background);
    if (style->family.bytes) {
        print_string(" family ", style->family);
    }
    if (style->size.has) {
        printf(" size %g", (double)style->size.value);
    }
    printf("%s%s%s%s", style->bold ? " bold" : "", style->italic ? " italic" : "", style->underline ? " underline" : "",
        style->strike ? " strike" : "");
    printf(" %s\n", sides[style->align]);
}

/* The segments of a list of rows, each on a line, what it holds below it. */
static void print_segments(pg_rows rows, int indent)
{
    for (size_t row = rows.first; row < rows.first + rows.count; row += pg_segment_rows(&tables, row)) {
        printf("%*s", indent, "");
        switch (pg_segment_kind(&tables, row)) {
        case PG_TEXT: print_string("text ", pg_segment_text(&tables, row)); break;
        case PG_BREAK: printf("break"); break;
        case PG_TIMESTAMP: printf("from "), print_clock(pg_segment_time(&tables, row)); break;
        case PG_BOLD: printf("bold"); break;
        case PG_ITALIC: printf("italic"); break;
        case PG_UNDERLINE: printf("underline"); break;
        case PG_STRIKE: printf("strike"); break;
        case PG_COLOR: print_color("color ", pg_segment_color(&tables, row)); break;
        case PG_FONT: {
            const pg_size size = pg_segment_size(&tables, row);
            printf("font");
            if (pg_segment_family(&tables, row).bytes) {
                print_string(" ", pg_segment_family(&tables, row));
            }
            if (size.has) {
                printf(" %g", (double)size.value);
            }
            break;
        }
        }
        printf("\n");
        print_segments(pg_segment_children(&tables, row), indent + 2);
    }
}

/* The squares that a text names. */
static void light_squares(const char *text, size_t length)
{
    const char *label = "  lights";
    for (size_t i = 0; i + 1 < length; i++) {
        const char after = i + 2 < length ? text[i + 2] : ' ';
        if (text[i] >= 'a' && text[i] <= 'h' && text[i + 1] >= '1' && text[i + 1] <= '8' && (after < '0' || after > '9')) {
            printf("%s %.2s", label, text + i);
            label = "";
        }
    }
    printf("%s", *label ? "" : "\n");
}

static void show_cue(size_t cue)
{
    const pg_answer said = pg_cue_text(&tables, cue, line, sizeof line);
    const pg_resolved resolved = pg_resolve_cue(&tables, cue, ids, PG_COUNT(ids));
    print_clock(pg_cue_begin(&tables, cue));
    printf(" to ");
    print_clock(pg_cue_end(&tables, cue));
    printf("\n");
    print_segments(pg_cue_segments(&tables, cue), 2);
    light_squares(line, said.count);
    if (resolved.answer.number != PG_TAKEN) {
        printf("  style refused, number %d: %s\n", resolved.answer.number, pg_cause(resolved.answer.number));
    } else if (resolved.found) {
        printf("  style");
        print_style(&resolved.style);
    }
}

/* The line of the film that a place stands in, with a mark under it. */
static void show_line(size_t length, size_t place)
{
    const pg_position at = pg_position_of(film, length, place);
    size_t begin = place, end = place;
    while (begin > 0 && film[begin - 1] != '\n') {
        begin--;
    }
    while (end < length && film[end] != '\n') {
        end++;
    }
    printf("  | %.*s\n  | %*s^\n", (int)(end - begin), film + begin, (int)at.column - 1, "");
}

static int refuse(const char *name, size_t length, pg_answer answer)
{
    if (pg_names_place(answer.number)) {
        const pg_position at = pg_position_of(film, length, answer.place);
        printf("%s: line %zu, column %zu: ", name, at.line, at.column);
    } else {
        printf("%s: ", name);
    }
    printf("refused, number %d: %s\n", answer.number, pg_cause(answer.number));
    if (pg_names_place(answer.number)) {
        show_line(length, answer.place);
    }
    printf("  do: %s\n", pg_cure(answer.number));
    return 1;
}

int main(int argc, char **argv)
{
    const char *name = argc > 1 ? argv[1] : "standard input";
    FILE *file = argc > 1 ? fopen(name, "rb") : stdin;
    if (!file) {
        perror(name);
        return 2;
    }
    const size_t length = fread(film, 1, sizeof film, file);
    if (ferror(file)) {
        perror(name);
        return 2;
    }
    const pg_answer answer = pg_read(&tables, film, length);
    if (answer.number != PG_TAKEN) {
        return refuse(name, length, answer);
    }
    for (size_t cue = 0; cue < pg_cue_count(&tables); cue++) {
        show_cue(cue);
    }
    return 0;
}
