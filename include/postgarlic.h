/* Postgarlic: TTML captions read, written and asked about, for a board in C11 or C++11 on x86-64.
 *
 *     tools/staticlib ttml          proves the library and writes target/staticlib/libttml.a
 *     cc -I include board.c target/staticlib/libttml.a
 *
 * The library allocates nothing, keeps nothing between calls and takes any bytes. A caller lends tables of fixed lengths: `pg_tables` has
 * them all, 1,106,984 bytes, and can stand in static memory. `pg_read` fills them, the accessors below read them, `pg_write_track` writes them
 * as TTML again. docs/TABLES.md says what stands in each cell, docs/REFUSALS.md what to do about each refusal.
 *
 * This file is not proved: it declares the proved calls and passes the parts of `pg_tables` to them. examples/run tests it.
 *
 * Threads: two calls at the same time need tables of their own.
 * Stack: PG_STACK_BYTES below are enough for each call. The proofs are about a machine whose stack has no end.
 */
#ifndef POSTGARLIC_H
#define POSTGARLIC_H

#include <stdbool.h>
#include <stddef.h>
#include <stdint.h>
#include <string.h>

#ifdef __cplusplus
extern "C" {
#define PG_ASSERT static_assert
#else
#define PG_ASSERT _Static_assert
#endif

/* ---- limits (document 01) */

#define PG_TEXT_BYTES 65536 /* the longest text that is read or written */
#define PG_NODES 8192
#define PG_ATTRS 8192
#define PG_PARAMS 64
#define PG_STYLES 256
#define PG_REGIONS 256
#define PG_CUES 2048
#define PG_SEGMENTS 16384
#define PG_EXTRAS 8192

/* Bytes of stack that are enough for any call. examples/run measures the deepest ones, and fails if they need more. */
#define PG_STACK_BYTES 262144

/* ---- the tables */

/* Every table that is lent, with its fixed length. What it holds before a call to pg_read is of no account. */
typedef struct pg_tables {
    int64_t times[2 * PG_CUES];             /*  32,768 bytes: begin and end of each cue, in microseconds */
    uint32_t nodes[6 * PG_NODES];           /* 196,608 bytes: the tree that was read */
    uint32_t attrs[4 * PG_ATTRS];           /* 131,072 bytes: its attributes */
    uint32_t head[10];                      /*      40 bytes: how many rows the other tables have */
    uint32_t params[4 * PG_PARAMS];         /*   1,024 bytes */
    uint32_t styles[27 * PG_STYLES];        /*  27,648 bytes */
    uint32_t regions[4 * PG_REGIONS];       /*   4,096 bytes */
    uint32_t cues[11 * PG_CUES];            /*  90,112 bytes */
    uint32_t segments[6 * PG_SEGMENTS];     /* 393,216 bytes */
    uint32_t extras[3 * PG_EXTRAS];         /*  98,304 bytes: attributes that are kept as they were */
    float sizes[PG_STYLES];                 /*   1,024 bytes: the font sizes of styles */
    uint8_t strings[PG_TEXT_BYTES];         /*  65,536 bytes */
    uint8_t texts[PG_TEXT_BYTES];           /*  65,536 bytes */
} pg_tables;

PG_ASSERT(sizeof(pg_tables) == 1106984, "the sizes in the comments above");
PG_ASSERT(sizeof(float) == 4, "a float is an IEEE 754 binary32");

/* ---- answers */

/* Document 01's numbers. "At" says which byte the answer's place is; where none is named it is 0. docs/REFUSALS.md has examples. */
typedef enum pg_number {
    PG_TAKEN = 0,           /* nothing is wrong */
    PG_SHORT_TABLE = 1,     /* a lent table is shorter than its fixed length (never from the functions on pg_tables) */
    PG_LONG_TEXT = 2,       /* the text is longer than 65,536 bytes */
    PG_NOT_UTF8 = 3,        /* the text is not UTF-8; at the end of its longest valid beginning */
    PG_DEEP = 4,            /* a 65th element is open; at its "<" */
    PG_MANY_NODES = 5,      /* an 8,193rd node begins; at its first byte */
    PG_NO_NAME = 6,         /* a tag has no name; at its "<" */
    PG_MANY_ATTRS = 7,      /* an 8,193rd attribute begins; at its first byte */
    PG_STRAY_SLASH = 8,     /* a "/" in a start tag is not followed by ">"; at the "/" */
    PG_NO_VALUE = 9,        /* the text ends after an attribute's "="; at the "=" */
    PG_OPEN_START_TAG = 10, /* the text ends inside a start tag; at its end */
    PG_OPEN_CLOSE_TAG = 11, /* a close tag has no ">"; at its "<" */
    PG_NO_ROOT = 12,        /* no top-level tt, or for a single cue no p */
    PG_MANY_ROWS = 13,      /* a style, region, parameter, cue or segment is past its limit; at its element */
    PG_DIGITS = 14,         /* a number has too many digits, an exponent, or is inf or nan; at its attribute */
    PG_CUT_CHARACTER = 15,  /* a fraction of a second or a colour is cut inside a character; at its attribute */
    PG_TIME_OVERFLOW = 16,  /* a sum or product of times is beyond 64 bits; at its element */
    PG_NO_TRACK = 17,       /* the tables that were handed in hold no track */
    PG_NO_ROOM = 18         /* the output is longer than what was lent, or than 65,536 */
} pg_number;

typedef struct pg_answer {
    pg_number number;
    uint32_t place; /* of a refusal: which byte of the text, from 0 on; 0 also if none is named or a track was handed in */
    uint32_t count; /* of a text that was written: its bytes */
} pg_answer;

/* ---- the proved calls
 *
 * A table passes as a pointer and how many cells it has. No pointer is null, not even with 0 cells; what a call may write overlaps nothing
 * else that is passed to it. The answer has the number in its low 32 bits, and in its high 32 the place, or the count of bytes written.
 * After a refusal every cell of every table that may be written is 0. */

uint64_t pg_parse(const uint8_t *text, size_t text_len, uint32_t *nodes, size_t nodes_len, uint32_t *attrs, size_t attrs_len,
    uint32_t *head, size_t head_len, uint32_t *params, size_t params_len, uint32_t *styles, size_t styles_len, uint32_t *regions,
    size_t regions_len, uint32_t *cues, size_t cues_len, int64_t *times, size_t times_len, uint32_t *segments, size_t segments_len,
    float *sizes, size_t sizes_len, uint32_t *extras, size_t extras_len, uint8_t *strings, size_t strings_len, uint8_t *texts,
    size_t texts_len);

uint64_t pg_bytes_to_cue(const uint8_t *text, size_t text_len, uint32_t *nodes, size_t nodes_len, uint32_t *attrs, size_t attrs_len,
    uint32_t *head, size_t head_len, uint32_t *params, size_t params_len, uint32_t *styles, size_t styles_len, uint32_t *regions,
    size_t regions_len, uint32_t *cues, size_t cues_len, int64_t *times, size_t times_len, uint32_t *segments, size_t segments_len,
    float *sizes, size_t sizes_len, uint32_t *extras, size_t extras_len, uint8_t *strings, size_t strings_len, uint8_t *texts,
    size_t texts_len);

uint64_t pg_parse_xml(const uint8_t *text, size_t text_len, uint32_t *nodes, size_t nodes_len, uint32_t *attrs, size_t attrs_len,
    uint8_t *strings, size_t strings_len, uint32_t *counts, size_t counts_len);

uint64_t pg_check_track(const uint32_t *head, size_t head_len, const uint32_t *params, size_t params_len, const uint32_t *styles,
    size_t styles_len, const uint32_t *regions, size_t regions_len, const uint32_t *cues, size_t cues_len, const int64_t *times,
    size_t times_len, const uint32_t *segments, size_t segments_len, const float *sizes, size_t sizes_len, const uint32_t *extras,
    size_t extras_len, const uint8_t *strings, size_t strings_len, const uint8_t *texts, size_t texts_len);

uint64_t pg_write(const uint32_t *head, size_t head_len, const uint32_t *params, size_t params_len, const uint32_t *styles,
    size_t styles_len, const uint32_t *regions, size_t regions_len, const uint32_t *cues, size_t cues_len, const int64_t *times,
    size_t times_len, const uint32_t *segments, size_t segments_len, const float *sizes, size_t sizes_len, const uint32_t *extras,
    size_t extras_len, const uint8_t *strings, size_t strings_len, const uint8_t *texts, size_t texts_len, uint8_t *out, size_t out_len);

uint64_t pg_cue_to_bytes(const uint32_t *head, size_t head_len, const uint32_t *params, size_t params_len, const uint32_t *styles,
    size_t styles_len, const uint32_t *regions, size_t regions_len, const uint32_t *cues, size_t cues_len, const int64_t *times,
    size_t times_len, const uint32_t *segments, size_t segments_len, const float *sizes, size_t sizes_len, const uint32_t *extras,
    size_t extras_len, const uint8_t *strings, size_t strings_len, const uint8_t *texts, size_t texts_len, size_t index, uint8_t *out,
    size_t out_len);

/* What the cue of this index says. It looks at the one cue, and takes tables that are no track too: docs/TABLES.md. */
uint64_t pg_plain_text(const uint32_t *head, size_t head_len, const uint32_t *cues, size_t cues_len, const uint32_t *segments,
    size_t segments_len, const uint8_t *texts, size_t texts_len, size_t index, uint8_t *out, size_t out_len);

/* The queries answer in `out`, 27 cells, and `size`, one; `ids` has four cells for each id that is reached, in the order of their first visit:
 * an id, then its parents from left to right, each followed out fully. docs/TABLES.md says what each cell is. */
uint64_t pg_resolve_referenced_style(const uint8_t *value, size_t value_len, const uint32_t *head, size_t head_len, const uint32_t *params,
    size_t params_len, const uint32_t *styles, size_t styles_len, const uint32_t *regions, size_t regions_len, const uint32_t *cues,
    size_t cues_len, const int64_t *times, size_t times_len, const uint32_t *segments, size_t segments_len, const float *sizes,
    size_t sizes_len, const uint32_t *extras, size_t extras_len, const uint8_t *strings, size_t strings_len, const uint8_t *texts,
    size_t texts_len, uint32_t *ids, size_t ids_len, uint64_t *out, size_t out_len, float *size, size_t size_len);

uint64_t pg_region_style(const uint8_t *id, size_t id_len, const uint32_t *head, size_t head_len, const uint32_t *params,
    size_t params_len, const uint32_t *styles, size_t styles_len, const uint32_t *regions, size_t regions_len, const uint32_t *cues,
    size_t cues_len, const int64_t *times, size_t times_len, const uint32_t *segments, size_t segments_len, const float *sizes,
    size_t sizes_len, const uint32_t *extras, size_t extras_len, const uint8_t *strings, size_t strings_len, const uint8_t *texts,
    size_t texts_len, uint32_t *ids, size_t ids_len, uint64_t *out, size_t out_len, float *size, size_t size_len);

uint64_t pg_effective_style_for_cue_index(const uint32_t *head, size_t head_len, const uint32_t *params, size_t params_len,
    const uint32_t *styles, size_t styles_len, const uint32_t *regions, size_t regions_len, const uint32_t *cues, size_t cues_len,
    const int64_t *times, size_t times_len, const uint32_t *segments, size_t segments_len, const float *sizes, size_t sizes_len,
    const uint32_t *extras, size_t extras_len, const uint8_t *strings, size_t strings_len, const uint8_t *texts, size_t texts_len,
    size_t cue_index, uint32_t *ids, size_t ids_len, uint64_t *out, size_t out_len, float *size, size_t size_len);

/* ---- the calls on pg_tables
 *
 * `text`, `out` and the like lie outside `t`, and are null only if they have no bytes. */

#define PG_COUNT(array) (sizeof(array) / sizeof((array)[0]))
#define PG_LEND(array) (array), PG_COUNT(array)
#define PG_LEND_TREE(t) PG_LEND((t)->nodes), PG_LEND((t)->attrs)
#define PG_LEND_TRACK(t)                                                                                                          \
    PG_LEND((t)->head), PG_LEND((t)->params), PG_LEND((t)->styles), PG_LEND((t)->regions), PG_LEND((t)->cues), PG_LEND((t)->times), \
        PG_LEND((t)->segments), PG_LEND((t)->sizes), PG_LEND((t)->extras), PG_LEND((t)->strings), PG_LEND((t)->texts)

static inline pg_number pg_number_of(uint64_t told) { return (pg_number)(told & 0xFFFFFFFFu); }

static inline pg_answer pg_answer_read(uint64_t told)
{
    pg_answer answer;
    answer.number = pg_number_of(told);
    answer.place = (uint32_t)(told >> 32);
    answer.count = 0;
    return answer;
}

static inline pg_answer pg_answer_written(uint64_t told)
{
    pg_answer answer = pg_answer_read(told);
    if (answer.number == PG_TAKEN) {
        answer.count = answer.place;
        answer.place = 0;
    }
    return answer;
}

/* The calls take no null pointer. */
static inline const uint8_t *pg_bytes(const void *bytes) { return bytes ? (const uint8_t *)bytes : (const uint8_t *)""; }

/* Reads a film: its track stands in t; after a refusal every cell of t is 0. */
static inline pg_answer pg_read(pg_tables *t, const void *text, size_t length)
{
    return pg_answer_read(pg_parse(pg_bytes(text), length, PG_LEND_TREE(t), PG_LEND_TRACK(t)));
}

/* Reads a single cue, the first top-level p: a track of one cue stands in t. */
static inline pg_answer pg_read_cue(pg_tables *t, const void *text, size_t length)
{
    return pg_answer_read(pg_bytes_to_cue(pg_bytes(text), length, PG_LEND_TREE(t), PG_LEND_TRACK(t)));
}

/* Reads the tree alone, into nodes, attrs and strings, whatever its elements are called; counts[0] nodes and counts[1] attributes. */
static inline pg_answer pg_read_tree(pg_tables *t, const void *text, size_t length, uint32_t counts[2])
{
    return pg_answer_read(pg_parse_xml(pg_bytes(text), length, PG_LEND_TREE(t), PG_LEND(t->strings), counts, 2));
}

/* Is what stands in t a track? What pg_read and pg_read_cue leave without a number always is. */
static inline pg_answer pg_check(const pg_tables *t) { return pg_answer_read(pg_check_track(PG_LEND_TRACK(t))); }

/* Writes the track as a film: the answer's count of bytes at the beginning of out, zeros behind them. 65,536 bytes are always enough, or the
 * answer is 18 anyway. */
static inline pg_answer pg_write_track(const pg_tables *t, void *out, size_t room)
{
    uint8_t none;
    return pg_answer_written(pg_write(PG_LEND_TRACK(t), out ? (uint8_t *)out : &none, out ? room : 0));
}

/* Writes one cue as a p of its own. An index past the last cue meets 17. */
static inline pg_answer pg_write_cue(const pg_tables *t, size_t cue, void *out, size_t room)
{
    uint8_t none;
    return pg_answer_written(pg_cue_to_bytes(PG_LEND_TRACK(t), cue, out ? (uint8_t *)out : &none, out ? room : 0));
}

/* Writes what a cue says, with a line feed for each break: the answer's count of bytes, zeros behind them in out, and 18 if it does not fit. An
 * index past the last cue meets 17. */
static inline pg_answer pg_cue_text(const pg_tables *t, size_t cue, char *out, size_t room)
{
    uint8_t none;
    return pg_answer_written(pg_plain_text(PG_LEND(t->head), PG_LEND(t->cues), PG_LEND(t->segments), PG_LEND(t->texts), cue,
        out ? (uint8_t *)out : &none, out ? room : 0));
}

/* ---- values */

/* Bytes of UTF-8, without a zero byte behind them; they may hold zero bytes. `bytes` is null if the string is absent. */
typedef struct pg_string {
    const char *bytes;
    size_t length;
} pg_string;

typedef struct pg_color {
    bool has;
    uint8_t red, green, blue, alpha;
} pg_color;

/* A font size: the float, and how Rust prints it: digits with a point before the last `scale` of them. */
typedef struct pg_size {
    bool has;
    float value;
    bool minus;
    uint32_t digits, scale;
} pg_size;

typedef enum pg_align { PG_START = 0, PG_CENTER = 1, PG_END = 2, PG_LEFT = 3, PG_RIGHT = 4 } pg_align;

typedef struct pg_style {
    pg_string name;
    pg_color color, background;
    pg_string family;
    pg_size size;
    bool bold, italic, underline, strike;
    pg_align align;
} pg_style;

typedef enum pg_kind {
    PG_TEXT = 1,      /* pg_segment_text */
    PG_BREAK = 2,     /* a new line */
    PG_TIMESTAMP = 3, /* what follows among its siblings shows from pg_segment_time on */
    PG_BOLD = 4,      /* this kind and those below hold the segments in the rows after them */
    PG_ITALIC = 5,
    PG_UNDERLINE = 6,
    PG_STRIKE = 7,
    PG_COLOR = 8, /* pg_segment_color */
    PG_FONT = 9   /* pg_segment_family, pg_segment_size */
} pg_kind;

/* Rows from `first` on, `count` of them. */
typedef struct pg_rows {
    size_t first, count;
} pg_rows;

static inline pg_string pg_string_in(const uint8_t *bytes, const uint32_t *cells)
{
    pg_string string;
    string.bytes = (const char *)bytes + cells[0];
    string.length = cells[1];
    return string;
}

/* The same after a flag that says whether it is there. */
static inline pg_string pg_optional_in(const uint8_t *bytes, const uint32_t *cells)
{
    pg_string string;
    string.bytes = NULL;
    string.length = 0;
    return cells[0] ? pg_string_in(bytes, cells + 1) : string;
}

static inline pg_color pg_color_in(const uint32_t *cells)
{
    pg_color color;
    color.has = cells[0] != 0;
    color.red = (uint8_t)cells[1];
    color.green = (uint8_t)cells[2];
    color.blue = (uint8_t)cells[3];
    color.alpha = (uint8_t)cells[4];
    return color;
}

static inline pg_size pg_size_in(const uint32_t *cells, float value)
{
    pg_size size;
    size.has = cells[0] != 0;
    size.value = value;
    size.minus = cells[0] == 2;
    size.digits = cells[1];
    size.scale = cells[2];
    return size;
}

static inline pg_rows pg_rows_in(const uint32_t *cells)
{
    pg_rows rows;
    rows.first = cells[0];
    rows.count = cells[1];
    return rows;
}

/* ---- a track's parts
 *
 * On tables that pg_read or pg_read_cue filled, or that pg_check took. A row is below its count. */

static inline size_t pg_param_count(const pg_tables *t) { return t->head[0]; }
static inline size_t pg_style_count(const pg_tables *t) { return t->head[1]; }
static inline size_t pg_region_count(const pg_tables *t) { return t->head[2]; }
static inline size_t pg_cue_count(const pg_tables *t) { return t->head[3]; }
static inline size_t pg_segment_count(const pg_tables *t) { return t->head[4]; }

/* xml:lang of tt */
static inline pg_string pg_lang(const pg_tables *t) { return pg_optional_in(t->strings, t->head + 5); }

/* Parameters of tt (ttp: and ittp:), their names without the prefix. */
static inline pg_string pg_param_name(const pg_tables *t, size_t row) { return pg_string_in(t->strings, t->params + 4 * row); }
static inline pg_string pg_param_value(const pg_tables *t, size_t row) { return pg_string_in(t->strings, t->params + 4 * row + 2); }

/* A style of the head, as it says itself: pg_resolve_value follows the ids in its chain. */
static inline pg_style pg_style_at(const pg_tables *t, size_t row)
{
    const uint32_t *cells = t->styles + 27 * row;
    pg_style style;
    style.name = pg_string_in(t->strings, cells);
    style.color = pg_color_in(cells + 4);
    style.background = pg_color_in(cells + 9);
    style.family = pg_optional_in(t->strings, cells + 14);
    style.size = pg_size_in(cells + 17, t->sizes[row]);
    style.bold = cells[20] != 0;
    style.italic = cells[21] != 0;
    style.underline = cells[22] != 0;
    style.strike = cells[23] != 0;
    style.align = (pg_align)cells[24];
    return style;
}

/* The ids of its parents; length 0: it has none. */
static inline pg_string pg_style_chain(const pg_tables *t, size_t row) { return pg_string_in(t->strings, t->styles + 27 * row + 2); }
static inline pg_rows pg_style_extras(const pg_tables *t, size_t row) { return pg_rows_in(t->styles + 27 * row + 25); }

static inline pg_string pg_region_id(const pg_tables *t, size_t row) { return pg_string_in(t->strings, t->regions + 4 * row); }
static inline pg_rows pg_region_extras(const pg_tables *t, size_t row) { return pg_rows_in(t->regions + 4 * row + 2); }

/* Microseconds; they may be below zero. */
static inline int64_t pg_cue_begin(const pg_tables *t, size_t cue) { return t->times[2 * cue]; }
static inline int64_t pg_cue_end(const pg_tables *t, size_t cue) { return t->times[2 * cue + 1]; }

/* The attributes style and region of its p. */
static inline pg_string pg_cue_style(const pg_tables *t, size_t cue) { return pg_optional_in(t->strings, t->cues + 11 * cue); }
static inline pg_string pg_cue_region(const pg_tables *t, size_t cue) { return pg_optional_in(t->strings, t->cues + 11 * cue + 3); }
/* xml:space is preserve */
static inline bool pg_cue_preserves(const pg_tables *t, size_t cue) { return t->cues[11 * cue + 6] != 0; }
static inline pg_rows pg_cue_segments(const pg_tables *t, size_t cue) { return pg_rows_in(t->cues + 11 * cue + 7); }
static inline pg_rows pg_cue_extras(const pg_tables *t, size_t cue) { return pg_rows_in(t->cues + 11 * cue + 9); }

/* A segment stands in one row and what it holds in the rows after it. The siblings of a list of rows are
 *     for (row = rows.first; row < rows.first + rows.count; row += pg_segment_rows(t, row)) */
static inline pg_kind pg_segment_kind(const pg_tables *t, size_t row) { return (pg_kind)t->segments[6 * row]; }
static inline size_t pg_segment_rows(const pg_tables *t, size_t row) { return t->segments[6 * row + 1]; }

static inline pg_rows pg_segment_children(const pg_tables *t, size_t row)
{
    pg_rows rows;
    rows.first = row + 1;
    rows.count = pg_segment_rows(t, row) - 1;
    return rows;
}

static inline pg_string pg_segment_text(const pg_tables *t, size_t row) { return pg_string_in(t->texts, t->segments + 6 * row + 2); }

/* The halves of a 64-bit two's complement, which no cast need make. */
static inline int64_t pg_segment_time(const pg_tables *t, size_t row)
{
    const uint32_t *cells = t->segments + 6 * row;
    const uint64_t bits = (uint64_t)cells[3] << 32 | cells[2];
    return bits >> 63 ? -1 - (int64_t)~bits : (int64_t)bits;
}

static inline pg_color pg_segment_color(const pg_tables *t, size_t row)
{
    const uint32_t *cells = t->segments + 6 * row;
    pg_color color;
    color.has = true;
    color.red = (uint8_t)cells[2];
    color.green = (uint8_t)cells[3];
    color.blue = (uint8_t)cells[4];
    color.alpha = 255;
    return color;
}

/* Cell 4 of a font has the flag of its family and the spelling of its size, cell 5 the bits of the float. */
static inline pg_string pg_segment_family(const pg_tables *t, size_t row)
{
    const uint32_t *cells = t->segments + 6 * row;
    const uint32_t family[3] = {cells[4] & 1, cells[2], cells[3]};
    return pg_optional_in(t->strings, family);
}

static inline pg_size pg_segment_size(const pg_tables *t, size_t row)
{
    const uint32_t *cells = t->segments + 6 * row;
    const uint32_t size[3] = {cells[4] >> 1 & 3, cells[4] >> 7, cells[4] >> 3 & 15};
    float value;
    memcpy(&value, cells + 5, sizeof value);
    return pg_size_in(size, value);
}

/* ---- the tree, which pg_read_tree, pg_read and pg_read_cue leave: rows in document order */

typedef enum pg_node { PG_NODE_TEXT = 1, PG_NODE_ELEMENT = 2, PG_NODE_SECTION = 3 } pg_node;

static inline pg_node pg_node_kind(const pg_tables *t, size_t row) { return (pg_node)t->nodes[6 * row]; }
/* The row after all that stands inside: the next sibling, if the parent goes on. */
static inline size_t pg_node_end(const pg_tables *t, size_t row) { return t->nodes[6 * row + 1]; }
/* The place in the text of an element's "<", or of the first byte of a text or a section. */
static inline size_t pg_node_place(const pg_tables *t, size_t row) { return t->nodes[6 * row + 2]; }

/* The name of an element, which stands after its "<"; the bytes of a text, entities read, or of a section. */
static inline pg_string pg_node_string(const pg_tables *t, size_t row)
{
    pg_string string = pg_string_in(t->strings, t->nodes + 6 * row + 2);
    string.bytes += pg_node_kind(t, row) == PG_NODE_ELEMENT;
    return string;
}

/* The rows of an element's attributes. */
static inline pg_rows pg_node_attrs(const pg_tables *t, size_t row) { return pg_rows_in(t->nodes + 6 * row + 4); }
static inline pg_string pg_attr_name(const pg_tables *t, size_t row) { return pg_string_in(t->strings, t->attrs + 4 * row); }
static inline pg_string pg_attr_value(const pg_tables *t, size_t row) { return pg_string_in(t->strings, t->attrs + 4 * row + 2); }

/* ---- extras: attributes that are kept as they were, their names by number in a list of their own for styles, regions and cues */

static inline uint32_t pg_extra_number(const pg_tables *t, size_t row) { return t->extras[3 * row]; }
static inline pg_string pg_extra_value(const pg_tables *t, size_t row) { return pg_string_in(t->strings, t->extras + 3 * row + 1); }

/* Null past the end of the list. */
static inline const char *pg_style_extra_name(uint32_t number)
{
    static const char *const names[46] = {"tts:backgroundClip", "tts:backgroundExtent", "tts:backgroundImage", "tts:backgroundOrigin",
        "tts:backgroundPosition", "tts:backgroundRepeat", "tts:border", "tts:bpd", "tts:direction", "tts:disparity", "tts:display",
        "tts:displayAlign", "tts:extent", "tts:fontKerning", "tts:fontSelectionStrategy", "tts:fontShear", "tts:fontVariant", "tts:ipd",
        "tts:letterSpacing", "tts:lineHeight", "tts:lineShear", "tts:luminanceGain", "tts:opacity", "tts:origin", "tts:overflow",
        "tts:padding", "tts:position", "tts:ruby", "tts:rubyAlign", "tts:rubyPosition", "tts:rubyReserve", "tts:shear",
        "tts:showBackground", "tts:textAlign", "tts:textCombine", "tts:textEmphasis", "tts:textOrientation", "tts:textOutline",
        "tts:textShadow", "tts:unicodeBidi", "tts:visibility", "tts:wrapOption", "tts:writingMode", "tts:zIndex", "itts:forcedDisplay",
        "itts:fillLineGap"};
    return number < PG_COUNT(names) ? names[number] : NULL;
}

/* Those of a style, with one more as the second. */
static inline const char *pg_cue_extra_name(uint32_t number)
{
    return number == 1 ? "tts:backgroundColor" : pg_style_extra_name(number < 1 ? number : number - 1);
}

static inline const char *pg_region_extra_name(uint32_t number)
{
    static const char *const names[53] = {"tts:backgroundClip", "tts:backgroundColor", "tts:backgroundExtent", "tts:backgroundImage",
        "tts:backgroundOrigin", "tts:backgroundPosition", "tts:backgroundRepeat", "tts:border", "tts:bpd", "tts:color", "tts:direction",
        "tts:disparity", "tts:display", "tts:displayAlign", "tts:extent", "tts:fontFamily", "tts:fontKerning",
        "tts:fontSelectionStrategy", "tts:fontShear", "tts:fontSize", "tts:fontStyle", "tts:fontVariant", "tts:fontWeight", "tts:ipd",
        "tts:letterSpacing", "tts:lineHeight", "tts:lineShear", "tts:luminanceGain", "tts:opacity", "tts:origin", "tts:overflow",
        "tts:padding", "tts:position", "tts:ruby", "tts:rubyAlign", "tts:rubyPosition", "tts:rubyReserve", "tts:shear",
        "tts:showBackground", "tts:textAlign", "tts:textCombine", "tts:textEmphasis", "tts:textOrientation", "tts:textOutline",
        "tts:textShadow", "tts:unicodeBidi", "tts:visibility", "tts:wrapOption", "tts:writingMode", "tts:zIndex", "style",
        "itts:forcedDisplay", "itts:fillLineGap"};
    return number < PG_COUNT(names) ? names[number] : NULL;
}

/* ---- the queries */

/* What a style is, after every id that it leads to. */
typedef struct pg_resolved {
    pg_answer answer;
    bool found;     /* a style; else `style` says nothing */
    size_t ids;     /* how many ids were reached, each once: pg_id gives them, in the order of their first visit */
    pg_style style; /* its name is a part of the text that was asked for */
} pg_resolved;

/* A table of ids has four cells for each. With fewer rows than ids the answer is 18. It is never null. */
#define PG_ID_CELLS 4

static inline pg_resolved pg_resolved_in(const pg_tables *t, const uint8_t *text, uint64_t told, const uint64_t out[27], float size)
{
    pg_resolved resolved;
    uint32_t cells[27];
    size_t i;
    for (i = 0; i < 27; i++) {
        cells[i] = (uint32_t)out[i];
    }
    resolved.answer = pg_answer_read(told);
    resolved.found = cells[1] != 0;
    resolved.ids = cells[2];
    resolved.style.name = pg_string_in(text, cells + 3);
    resolved.style.color = pg_color_in(cells + 5);
    resolved.style.background = pg_color_in(cells + 10);
    resolved.style.family = pg_optional_in(t->strings, cells + 15);
    resolved.style.size = pg_size_in(cells + 19, size);
    resolved.style.size.has = cells[18] != 0;
    resolved.style.size.minus = cells[19] != 0;
    resolved.style.bold = cells[22] != 0;
    resolved.style.italic = cells[23] != 0;
    resolved.style.underline = cells[24] != 0;
    resolved.style.strike = cells[25] != 0;
    resolved.style.align = (pg_align)cells[26];
    return resolved;
}

/* The style that a value of the attribute style gives, as "s1 s2". */
static inline pg_resolved pg_resolve_value(const pg_tables *t, const void *value, size_t length, uint32_t *ids, size_t cells)
{
    uint64_t out[27];
    float size;
    const uint64_t told = pg_resolve_referenced_style(pg_bytes(value), length, PG_LEND_TRACK(t), ids, cells, out, 27, &size, 1);
    return pg_resolved_in(t, pg_bytes(value), told, out, size);
}

/* The style of the region of this id. */
static inline pg_resolved pg_resolve_region(const pg_tables *t, const void *id, size_t length, uint32_t *ids, size_t cells)
{
    uint64_t out[27];
    float size;
    const uint64_t told = pg_region_style(pg_bytes(id), length, PG_LEND_TRACK(t), ids, cells, out, 27, &size, 1);
    return pg_resolved_in(t, pg_bytes(id), told, out, size);
}

/* The style of a cue: that of its region, and over it that of its own attribute style. The region's ids come first, then those of the style
 * that are new. */
static inline pg_resolved pg_resolve_cue(const pg_tables *t, size_t cue, uint32_t *ids, size_t cells)
{
    uint64_t out[27];
    float size;
    const uint64_t told = pg_effective_style_for_cue_index(PG_LEND_TRACK(t), cue, ids, cells, out, 27, &size, 1);
    return pg_resolved_in(t, pg_bytes(NULL), told, out, size);
}

/* An id that a query reached; `text` is what was asked for, null for a cue. Row 0 is the first that was visited. With the styles a (its chain is
 * "c b") and b (its chain is "d") the value "a d" has the rows a, c, b, d. */
static inline pg_string pg_id(const pg_tables *t, const void *text, const uint32_t *ids, size_t row)
{
    const uint32_t *cells = ids + PG_ID_CELLS * row;
    return pg_string_in(cells[0] ? t->strings : pg_bytes(text), cells + 1);
}

/* ---- refusals in words */

/* Does a reader that answers this number name a place? */
static inline bool pg_names_place(pg_number number)
{
    return number >= PG_NOT_UTF8 && number <= PG_TIME_OVERFLOW && number != PG_NO_ROOT;
}

/* Line and column of a place in a text, each from 1 on: lines end at line feeds, columns count characters. */
typedef struct pg_position {
    size_t line, column;
} pg_position;

static inline pg_position pg_position_of(const void *text, size_t length, size_t place)
{
    const uint8_t *bytes = pg_bytes(text);
    pg_position at;
    size_t i;
    at.line = 1;
    at.column = 1;
    for (i = 0; i < place && i < length; i++) {
        if (bytes[i] == '\n') {
            at.line++;
            at.column = 1;
        } else if (i + 1 == length || (bytes[i + 1] & 0xC0) != 0x80) {
            at.column++;
        }
    }
    return at;
}

static inline const char *pg_cause(pg_number number)
{
    switch (number) {
    case PG_TAKEN: return "nothing is wrong";
    case PG_SHORT_TABLE: return "a lent table is shorter than its fixed length";
    case PG_LONG_TEXT: return "the text is longer than 65,536 bytes";
    case PG_NOT_UTF8: return "the text is not UTF-8 from here on";
    case PG_DEEP: return "this element stands inside 64 others";
    case PG_MANY_NODES: return "the text has more than 8,192 elements, texts and sections";
    case PG_NO_NAME: return "this tag has no name";
    case PG_MANY_ATTRS: return "the text has more than 8,192 attributes";
    case PG_STRAY_SLASH: return "no \">\" follows this \"/\" in a start tag";
    case PG_NO_VALUE: return "the text ends after this \"=\"";
    case PG_OPEN_START_TAG: return "the text ends inside a start tag";
    case PG_OPEN_CLOSE_TAG: return "this close tag has no \">\"";
    case PG_NO_ROOT: return "there is no tt at top level (of a single cue: no p)";
    case PG_MANY_ROWS: return "there are more styles, regions, parameters, cues or segments than the tables hold";
    case PG_DIGITS: return "this attribute has a number with too many digits, with an exponent, or inf or nan";
    case PG_CUT_CHARACTER: return "this attribute's fraction of a second, or its colour, is cut inside a character";
    case PG_TIME_OVERFLOW: return "a time of this element is beyond 64 bits";
    case PG_NO_TRACK: return "what was handed in is no track";
    case PG_NO_ROOM: return "the output is longer than the room for it, or than 65,536";
    }
    return "no number of this library";
}

static inline const char *pg_cure(pg_number number)
{
    switch (number) {
    case PG_TAKEN: return "nothing";
    case PG_SHORT_TABLE: return "lend tables of the lengths of pg_tables";
    case PG_LONG_TEXT: return "split the film";
    case PG_NOT_UTF8: return "save the file as UTF-8";
    case PG_DEEP: return "close elements earlier, or nest fewer";
    case PG_MANY_NODES: return "split the film, or put fewer spans and breaks into it";
    case PG_NO_NAME: return "write &lt; for a \"<\" that is text, or give the tag its name";
    case PG_MANY_ATTRS: return "split the film, or put attributes that repeat into a style";
    case PG_STRAY_SLASH: return "put the value in quote marks, or end the tag with \"/>\"";
    case PG_NO_VALUE: return "give the attribute its value and close the tag: the file may be cut short";
    case PG_OPEN_START_TAG: return "close the tag or the quote mark that is open: the file may be cut short";
    case PG_OPEN_CLOSE_TAG: return "add the \">\": the file may be cut short";
    case PG_NO_ROOT: return "put the film into <tt> ... </tt>";
    case PG_MANY_ROWS: return "split the film: at most 256 styles, 256 regions, 64 parameters, 2,048 cues, 16,384 segments";
    case PG_DIGITS: return "write the number with fewer digits: 15 for a time or a rate, 6 for a size";
    case PG_CUT_CHARACTER: return "use ASCII letters and digits in the value";
    case PG_TIME_OVERFLOW: return "write a smaller time";
    case PG_NO_TRACK: return "hand in what pg_read filled, or tables that pg_check takes";
    case PG_NO_ROOM: return "lend more room, up to 65,536; a track that needs more is to be split";
    }
    return "nothing";
}

#undef PG_ASSERT
#ifdef __cplusplus
}
#endif
#endif
