/* Tests include/postgarlic.h against the library, as C and as C++: each accessor on a film that has something of everything, the calls that
 * board.c does not make, and the pointers that may be null. Prints what is not as it should be, and how many tests there were. */
#include <stdio.h>
#include <string.h>

#include "postgarlic.h"

static pg_tables tables, again;
static char text[PG_TEXT_BYTES], written[PG_TEXT_BYTES + 8];
static uint32_t ids[PG_ID_CELLS * 8];
static int tests, failed;

#define SHOULD(fact) should((fact), #fact, __LINE__)

static void should(bool holds, const char *fact, int line)
{
    tests++;
    if (!holds) {
        failed++;
        printf("header.c:%d: not so: %s\n", line, fact);
    }
}

static bool is(pg_string string, const char *bytes)
{
    return string.bytes && string.length == strlen(bytes) && memcmp(string.bytes, bytes, string.length) == 0;
}

static bool is_color(pg_color color, uint32_t rgba)
{
    const uint32_t all = (uint32_t)color.red << 24 | (uint32_t)color.green << 16 | (uint32_t)color.blue << 8 | color.alpha;
    return color.has && all == rgba;
}

static bool is_size(pg_size size, float value, bool minus, uint32_t digits, uint32_t scale)
{
    return size.has && size.value == value && size.minus == minus && size.digits == digits && size.scale == scale;
}

static const char film[] =
    "<tt xml:lang='eo' ttp:frameRate='25' ittp:aspectRatio='4 3'><head><styling>"
    "<style xml:id='base' tts:color='#01020304' tts:backgroundColor='navy' tts:opacity='0.5'/>"
    "<style xml:id='s' style='base other' tts:fontFamily='Mono' tts:fontSize='7.25px' tts:fontWeight='bold' tts:fontStyle='italic'"
    " tts:textDecoration='underline line-through' tts:textAlign='right'/></styling>"
    "<layout><region xml:id='r' style='s' tts:fontSize='30px'/></layout></head>"
    "<body><div xml:space='preserve'><p begin='-1s' end='2s' style='s' region='r' tts:backgroundColor='red'>a<br/>"
    "<span begin='5f' tts:color='#0A0B0C'>b</span><span tts:fontFamily='F' tts:fontSize='-0.5'>c</span></p></div>"
    "<p>d <span tts:fontWeight='bold' tts:fontStyle='italic' tts:textDecoration='underline strike'>e</span></p></body></tt>";

static void head(void)
{
    const pg_answer answer = pg_read(&tables, film, sizeof film - 1);
    SHOULD(answer.number == PG_TAKEN && answer.place == 0 && answer.count == 0);
    SHOULD(pg_check(&tables).number == PG_TAKEN);
    SHOULD(is(pg_lang(&tables), "eo"));
    SHOULD(pg_param_count(&tables) == 2);
    SHOULD(is(pg_param_name(&tables, 0), "frameRate") && is(pg_param_value(&tables, 0), "25"));
    SHOULD(is(pg_param_name(&tables, 1), "aspectRatio") && is(pg_param_value(&tables, 1), "4 3"));
    SHOULD(pg_style_count(&tables) == 2);
    const pg_style base = pg_style_at(&tables, 0), s = pg_style_at(&tables, 1);
    SHOULD(is(base.name, "base") && is_color(base.color, 0x01020304) && is_color(base.background, 0x000080FF));
    SHOULD(!base.family.bytes && !base.size.has && !base.bold && !base.italic && !base.underline && !base.strike && base.align == PG_START);
    SHOULD(is(pg_style_chain(&tables, 0), "") && pg_style_extras(&tables, 0).count == 1);
    SHOULD(is(s.name, "s") && !s.color.has && !s.background.has && is(s.family, "Mono") && is_size(s.size, 7.25f, false, 725, 2));
    SHOULD(s.bold && s.italic && s.underline && s.strike && s.align == PG_RIGHT);
    SHOULD(is(pg_style_chain(&tables, 1), "base other") && pg_style_extras(&tables, 1).count == 0);
    SHOULD(pg_region_count(&tables) == 1 && is(pg_region_id(&tables, 0), "r") && pg_region_extras(&tables, 0).count == 2);
}

static void cues(void)
{
    SHOULD(pg_cue_count(&tables) == 2 && pg_segment_count(&tables) == 13);
    SHOULD(pg_cue_begin(&tables, 0) == -1000000 && pg_cue_end(&tables, 0) == 2000000);
    SHOULD(is(pg_cue_style(&tables, 0), "s") && is(pg_cue_region(&tables, 0), "r") && pg_cue_preserves(&tables, 0));
    SHOULD(!pg_cue_style(&tables, 1).bytes && !pg_cue_region(&tables, 1).bytes && !pg_cue_preserves(&tables, 1));
    const pg_rows first = pg_cue_segments(&tables, 0), second = pg_cue_segments(&tables, 1);
    SHOULD(first.first == 0 && first.count == 7 && second.first == 7 && second.count == 6);
    SHOULD(pg_segment_kind(&tables, 0) == PG_TEXT && is(pg_segment_text(&tables, 0), "a"));
    SHOULD(pg_segment_kind(&tables, 1) == PG_BREAK && pg_segment_rows(&tables, 1) == 1);
    SHOULD(pg_segment_kind(&tables, 2) == PG_TIMESTAMP && pg_segment_time(&tables, 2) == -800000);
    SHOULD(pg_segment_kind(&tables, 3) == PG_COLOR && is_color(pg_segment_color(&tables, 3), 0x0A0B0CFF));
    SHOULD(pg_segment_children(&tables, 3).first == 4 && pg_segment_children(&tables, 3).count == 1);
    SHOULD(pg_segment_kind(&tables, 5) == PG_FONT && is(pg_segment_family(&tables, 5), "F"));
    SHOULD(is_size(pg_segment_size(&tables, 5), -0.5f, true, 5, 1));
    SHOULD(pg_segment_kind(&tables, 8) == PG_STRIKE && pg_segment_kind(&tables, 9) == PG_UNDERLINE);
    SHOULD(pg_segment_kind(&tables, 10) == PG_ITALIC && pg_segment_kind(&tables, 11) == PG_BOLD);
    pg_answer said = pg_cue_text(&tables, 0, text, sizeof text);
    SHOULD(said.number == PG_TAKEN && said.place == 0 && said.count == 4 && memcmp(text, "a\nbc\0\0", 6) == 0);
    /* a text that just fits, one byte less, and no room at all */
    memset(text, '#', 6);
    said = pg_cue_text(&tables, 0, text, 4);
    SHOULD(said.number == PG_TAKEN && said.count == 4 && memcmp(text, "a\nbc##", 6) == 0);
    said = pg_cue_text(&tables, 0, text, 3);
    SHOULD(said.number == PG_NO_ROOM && said.place == 0 && said.count == 0 && memcmp(text, "\0\0\0c##", 6) == 0);
    SHOULD(pg_cue_text(&tables, 1, NULL, 0).number == PG_NO_ROOM);
    /* an index past the end */
    said = pg_cue_text(&tables, 2, text, 6);
    SHOULD(said.number == PG_NO_TRACK && said.place == 0 && said.count == 0 && memcmp(text, "\0\0\0\0\0\0", 6) == 0);
    SHOULD(pg_cue_text(&tables, (size_t)-1, NULL, 0).number == PG_NO_TRACK);
    const pg_rows extras = pg_cue_extras(&tables, 0);
    SHOULD(extras.count == 1 && strcmp(pg_cue_extra_name(pg_extra_number(&tables, extras.first)), "tts:backgroundColor") == 0);
    SHOULD(is(pg_extra_value(&tables, extras.first), "red"));
}

static void queries(void)
{
    static const char *const reached[] = {"s", "base", "other", "nobody"};
    const char value[] = " s base nobody ";
    pg_resolved r = pg_resolve_value(&tables, value, sizeof value - 1, ids, PG_COUNT(ids));
    SHOULD(r.answer.number == PG_TAKEN && r.found && r.ids == 4 && is(r.style.name, "s base nobody"));
    SHOULD(is_color(r.style.color, 0x01020304) && is_color(r.style.background, 0x000080FF) && is(r.style.family, "Mono"));
    SHOULD(is_size(r.style.size, 7.25f, false, 725, 2) && r.style.bold && r.style.italic && r.style.underline && r.style.strike);
    SHOULD(r.style.align == PG_RIGHT);
    /* "each once", "in the order of their first visit" */
    for (size_t row = 0; row < PG_COUNT(reached); row++) {
        SHOULD(is(pg_id(&tables, value, ids, row), reached[row]));
    }
    SHOULD(pg_resolve_value(&tables, value, sizeof value - 1, ids, 3 * PG_ID_CELLS).answer.number == PG_NO_ROOM);
    r = pg_resolve_value(&tables, "nobody", 6, ids, PG_COUNT(ids));
    SHOULD(r.answer.number == PG_TAKEN && !r.found && r.ids == 1);
    r = pg_resolve_value(&tables, NULL, 0, ids, PG_COUNT(ids));
    SHOULD(r.answer.number == PG_TAKEN && !r.found && r.ids == 0);
    r = pg_resolve_region(&tables, "r", 1, ids, PG_COUNT(ids));
    SHOULD(r.found && is(r.style.name, "r") && is_size(r.style.size, 30, false, 30, 0) && r.style.bold && r.ids == 3);
    r = pg_resolve_cue(&tables, 0, ids, PG_COUNT(ids));
    SHOULD(r.found && is(r.style.name, "") && is_size(r.style.size, 7.25f, false, 725, 2) && r.ids == 3);
    SHOULD(!pg_resolve_cue(&tables, 1, ids, PG_COUNT(ids)).found && !pg_resolve_cue(&tables, 2, ids, PG_COUNT(ids)).found);
}

static void are(size_t count, const char *asked, const char *const *expected, size_t many)
{
    SHOULD(count == many);
    for (size_t row = 0; row < many; row++) {
        SHOULD(is(pg_id(&again, asked, ids, row), expected[row]));
    }
}

/* "an id, then its parents from left to right, each followed out fully"; of a cue the region's first, then those of its style that are new */
static void order(void)
{
    static const char chains[] =
        "<tt><head><styling><style xml:id='a' style='c b'/><style xml:id='b' style='d'/></styling>"
        "<layout><region xml:id='r' style='b e'/></layout></head><body><p region='r' style='a d'/></body></tt>";
    static const char *const of_value[] = {"a", "c", "b", "d"};
    static const char *const of_region[] = {"b", "d", "e"};
    static const char *const of_cue[] = {"b", "d", "e", "a", "c"};
    SHOULD(pg_read(&again, chains, sizeof chains - 1).number == PG_TAKEN);
    are(pg_resolve_value(&again, "a d", 3, ids, PG_COUNT(ids)).ids, "a d", of_value, PG_COUNT(of_value));
    are(pg_resolve_region(&again, "r", 1, ids, PG_COUNT(ids)).ids, "r", of_region, PG_COUNT(of_region));
    are(pg_resolve_cue(&again, 0, ids, PG_COUNT(ids)).ids, NULL, of_cue, PG_COUNT(of_cue));
}

static void writers(void)
{
    static const char cue[] = "<p begin=\"00:00:00.000\" end=\"00:00:00.000\">d <span tts:textDecoration=\"lineThrough\">";
    pg_answer answer = pg_write_track(&tables, written, sizeof written);
    SHOULD(answer.number == PG_TAKEN && answer.place == 0 && answer.count > 0 && memcmp(written, "<?xml", 5) == 0);
    const uint32_t bytes = answer.count;
    SHOULD(pg_read(&again, written, bytes).number == PG_TAKEN && pg_cue_count(&again) == 2);
    SHOULD(pg_write_track(&tables, written, bytes).count == bytes && pg_write_track(&tables, written, bytes - 1).number == PG_NO_ROOM);
    SHOULD(pg_write_track(&tables, NULL, 0).number == PG_NO_ROOM);
    answer = pg_write_cue(&tables, 1, written, sizeof written);
    SHOULD(answer.number == PG_TAKEN && memcmp(written, cue, sizeof cue - 1) == 0 && written[answer.count] == 0);
    SHOULD(pg_read_cue(&again, written, answer.count).number == PG_TAKEN && pg_cue_count(&again) == 1);
    SHOULD(pg_write_cue(&tables, 2, written, sizeof written).number == PG_NO_TRACK);
    tables.cues[6] = 2;
    SHOULD(pg_check(&tables).number == PG_NO_TRACK && pg_write_track(&tables, written, sizeof written).number == PG_NO_TRACK);
}

static void readers(void)
{
    const char tree[] = "<a x b='&amp;'>c&lt;<![CDATA[&]]></a><d/>";
    uint32_t counts[2] = {7, 7};
    pg_answer answer = pg_read_tree(&tables, tree, sizeof tree - 1, counts);
    SHOULD(answer.number == PG_TAKEN && counts[0] == 4 && counts[1] == 2);
    SHOULD(pg_node_kind(&tables, 0) == PG_NODE_ELEMENT && is(pg_node_string(&tables, 0), "a") && pg_node_end(&tables, 0) == 3);
    SHOULD(pg_node_kind(&tables, 1) == PG_NODE_TEXT && is(pg_node_string(&tables, 1), "c<") && pg_node_end(&tables, 1) == 2);
    SHOULD(pg_node_kind(&tables, 2) == PG_NODE_SECTION && is(pg_node_string(&tables, 2), "&") && pg_node_place(&tables, 2) == 29);
    SHOULD(is(pg_node_string(&tables, 3), "d") && pg_node_place(&tables, 3) == 37 && pg_node_attrs(&tables, 3).count == 0);
    SHOULD(pg_node_attrs(&tables, 0).first == 0 && pg_node_attrs(&tables, 0).count == 2);
    SHOULD(is(pg_attr_name(&tables, 0), "x") && is(pg_attr_value(&tables, 0), ""));
    SHOULD(is(pg_attr_name(&tables, 1), "b") && is(pg_attr_value(&tables, 1), "&"));
    const char zero[] = "<p>&#0;</p>";
    SHOULD(pg_read_cue(&tables, zero, sizeof zero - 1).number == PG_TAKEN && pg_cue_text(&tables, 0, text, 9).count == 1 && text[0] == 0);
    const char silent[] = "<p/>";
    answer = pg_read_cue(&tables, silent, sizeof silent - 1);
    SHOULD(answer.number == PG_TAKEN && pg_cue_text(&tables, 0, NULL, 0).number == PG_TAKEN && pg_cue_text(&tables, 0, text, 9).count == 0);
    answer = pg_read(&tables, NULL, 0);
    SHOULD(answer.number == PG_NO_ROOT && answer.place == 0 && !pg_names_place(answer.number));
    const char damaged[] = "<tt>\n\xC3\xA9<p/\xC3\xA9";
    answer = pg_read(&tables, damaged, sizeof damaged - 1);
    const pg_position at = pg_position_of(damaged, sizeof damaged - 1, answer.place);
    SHOULD(answer.number == PG_STRAY_SLASH && answer.place == 9 && at.line == 2 && at.column == 4 && pg_names_place(answer.number));
    memset(written, 'a', sizeof written);
    SHOULD(pg_read(&tables, written, PG_TEXT_BYTES + 1).number == PG_LONG_TEXT);
    for (int number = PG_TAKEN; number <= PG_NO_ROOM; number++) {
        SHOULD(strlen(pg_cause((pg_number)number)) > 0 && strlen(pg_cure((pg_number)number)) > 0);
    }
}

/* The calls of docs/REFUSALS.md: one on a short table, two on a track without cues. */
static void calls(void)
{
    memset(&tables, 0, sizeof tables);
    const uint64_t told = pg_check_track(tables.head, 9, PG_LEND(tables.params), PG_LEND(tables.styles), PG_LEND(tables.regions),
        PG_LEND(tables.cues), PG_LEND(tables.times), PG_LEND(tables.segments), PG_LEND(tables.sizes), PG_LEND(tables.extras),
        PG_LEND(tables.strings), PG_LEND(tables.texts));
    SHOULD(told == PG_SHORT_TABLE && pg_check(&tables).number == PG_TAKEN);
    pg_answer answer = pg_write_cue(&tables, 0, written, sizeof written);
    SHOULD(answer.number == PG_NO_TRACK && answer.place == 0);
    answer = pg_write_track(&tables, written, 10);
    SHOULD(answer.number == PG_NO_ROOM && answer.place == 0);
}

/* One cue with one segment that has no children: its kind, and the four cells of its data. */
static pg_number one_segment(pg_kind kind, uint32_t a, uint32_t b, uint32_t c, uint32_t d)
{
    const uint32_t row[6] = {(uint32_t)kind, 1, a, b, c, d};
    memset(&tables, 0, sizeof tables);
    tables.head[3] = tables.head[4] = tables.cues[8] = 1;
    memcpy(tables.segments, row, sizeof row);
    return pg_check(&tables).number;
}

/* Times and sizes in the cells of segments, at the ends of what they hold. */
static void packed(void)
{
    static const int64_t times[] = {INT64_MIN, -4294967296, -1, 0, 1, 4294967295, 4294967296, INT64_MAX};
    static const uint32_t halves[][2] = {
        {0, 0x80000000}, {0, 0xFFFFFFFF}, {0xFFFFFFFF, 0xFFFFFFFF}, {0, 0}, {1, 0}, {0xFFFFFFFF, 0}, {0, 1}, {0xFFFFFFFF, 0x7FFFFFFF}};
    for (size_t i = 0; i < PG_COUNT(times); i++) {
        SHOULD(one_segment(PG_TIMESTAMP, halves[i][0], halves[i][1], 0, 0) == PG_TAKEN && pg_segment_time(&tables, 0) == times[i]);
    }
    SHOULD(one_segment(PG_FONT, 0, 0, 0, 0) == PG_TAKEN && !pg_segment_family(&tables, 0).bytes && !pg_segment_size(&tables, 0).has);
    SHOULD(one_segment(PG_FONT, 0, 0, 1, 0) == PG_TAKEN && is(pg_segment_family(&tables, 0), ""));
    SHOULD(one_segment(PG_FONT, 0, 0, 1 << 1, 0) == PG_TAKEN && is_size(pg_segment_size(&tables, 0), 0, false, 0, 0));
    SHOULD(one_segment(PG_FONT, 0, 0, 2 << 1, 0x80000000) == PG_TAKEN && is_size(pg_segment_size(&tables, 0), 0, true, 0, 0));
    SHOULD(one_segment(PG_FONT, 0, 0, 2 << 1 | 10 << 3 | 999999u << 7, 0xB8D1B70A) == PG_TAKEN);
    SHOULD(is_size(pg_segment_size(&tables, 0), -0.0000999999f, true, 999999, 10));
    SHOULD(one_segment(PG_FONT, 0, 0, 3 << 1, 0) == PG_NO_TRACK);
    SHOULD(one_segment(PG_FONT, 0, 0, 2 << 1, 0) == PG_NO_TRACK);
    SHOULD(one_segment(PG_FONT, 0, 0, 1 << 1 | 1u << 3 | 50u << 7, 0x40A00000) == PG_NO_TRACK);
}

static unsigned flags_of(pg_style style)
{
    return (unsigned)style.bold | (unsigned)style.italic << 1 | (unsigned)style.underline << 2 | (unsigned)style.strike << 3;
}

/* Flags and alignments one by one, and white space that is joined or not. */
static void one_by_one(void)
{
    static const char *const says[] = {"tts:fontWeight='bold'", "tts:fontStyle='italic'", "tts:textDecoration='underline'",
        "tts:textDecoration='line-through'", "tts:textAlign='start'", "tts:textAlign='center'", "tts:textAlign='end'", "tts:textAlign='left'",
        "tts:textAlign='right'"};
    for (unsigned i = 0; i < PG_COUNT(says); i++) {
        const int length = snprintf(text, sizeof text, "<tt><head><styling><style id='s' tts:color='red' %s/></styling></head></tt>", says[i]);
        SHOULD(pg_read(&tables, text, (size_t)length).number == PG_TAKEN);
        const pg_style own = pg_style_at(&tables, 0), resolved = pg_resolve_value(&tables, "s", 1, ids, PG_COUNT(ids)).style;
        SHOULD(flags_of(own) == (i < 4 ? 1u << i : 0) && flags_of(resolved) == flags_of(own));
        SHOULD(own.align == (pg_align)(i < 4 ? 0 : i - 4) && resolved.align == own.align);
    }
    const char spaces[] = "<tt><body><p region='long'>a  b</p><p xml:space='preserve'>a  b</p></body></tt>";
    SHOULD(pg_read(&tables, spaces, sizeof spaces - 1).number == PG_TAKEN);
    SHOULD(!pg_cue_preserves(&tables, 0) && is(pg_segment_text(&tables, 0), "a b"));
    SHOULD(pg_cue_preserves(&tables, 1) && is(pg_segment_text(&tables, 1), "a  b"));
}

/* A style, a region and a cue with every name that their lists have, each as its own value: each row's value is the name of its number. */
static void names(void)
{
    size_t length = 0, row;
    uint32_t number;
    const char *name;
#define ADD(...) (length += (size_t)snprintf(text + length, sizeof text - length, __VA_ARGS__))
    ADD("<tt><head><styling><style id='s'");
    for (number = 0; (name = pg_style_extra_name(number)); number++) {
        ADD(" %s='%s'", name, strcmp(name, "tts:textAlign") ? name : "justify");
    }
    ADD("/></styling><layout><region id='r'");
    for (number = 0; (name = pg_region_extra_name(number)); number++) {
        ADD(" %s='%s'", name, name);
    }
    ADD("/></layout></head><body><p");
    for (number = 0; (name = pg_cue_extra_name(number)); number++) {
        ADD(" %s='%s'", name, name);
    }
    ADD("/></body></tt>");
#undef ADD
    SHOULD(pg_read(&tables, text, length).number == PG_TAKEN);
    const pg_rows style = pg_style_extras(&tables, 0), region = pg_region_extras(&tables, 0), cue = pg_cue_extras(&tables, 0);
    SHOULD(style.count == 46 && region.count == 53 && cue.count == 47);
    for (row = 0; row < style.count + region.count + cue.count; row++) {
        number = pg_extra_number(&tables, row);
        name = row < style.count ? pg_style_extra_name(number)
            : row < style.count + region.count ? pg_region_extra_name(number) : pg_cue_extra_name(number);
        SHOULD(is(pg_extra_value(&tables, row), row < style.count && !strcmp(name, "tts:textAlign") ? "justify" : name));
    }
}

int main(void)
{
    head();
    cues();
    queries();
    order();
    writers();
    readers();
    calls();
    packed();
    one_by_one();
    names();
    printf("header.c: %d tests, %d failed\n", tests, failed);
    return failed != 0;
}
