/* Calls the archive through include/homeludaf.h and says what it answers; 0 at the end if each answer is as expected. */
#include <stdio.h>
#include "homeludaf.h"

_Static_assert(sizeof(struct homeludaf_answer) == 24 * sizeof(uint64_t), "24 entries");
_Static_assert(sizeof(struct homeludaf_answer) == HOMELUDAF_ENTRIES * sizeof(uint64_t), "HOMELUDAF_ENTRIES");
_Static_assert(sizeof(struct homeludaf_told) == 2 * sizeof(uint64_t), "two numbers are told");
_Static_assert(offsetof(struct homeludaf_answer, result) == 9 * sizeof(uint64_t), "the result starts at entry 9");
_Static_assert(offsetof(struct homeludaf_answer, result.length.unit) == 10 * sizeof(uint64_t), "a length's unit at 10");
_Static_assert(offsetof(struct homeludaf_answer, result.length.whole) == 11 * sizeof(uint64_t), "whether its number is whole at 11");
_Static_assert(offsetof(struct homeludaf_answer, result.length.end) == 12 * sizeof(uint64_t), "where that ended at 12");
_Static_assert(offsetof(struct homeludaf_answer, result.angle.degrees_bits) == 11 * sizeof(uint64_t), "an angle's degrees at 11");
_Static_assert(offsetof(struct homeludaf_answer, result.angle.whole) == 12 * sizeof(uint64_t), "whether its number is whole at 12");
_Static_assert(offsetof(struct homeludaf_answer, result.angle.end) == 13 * sizeof(uint64_t), "where that ended at 13");
_Static_assert(offsetof(struct homeludaf_answer, result.paint.color) == 13 * sizeof(uint64_t), "a paint's colour at 13");
_Static_assert(offsetof(struct homeludaf_answer, result.inherited.whose) == 9 * sizeof(uint64_t), "whose text it is at 9");
_Static_assert(offsetof(struct homeludaf_answer, result.inherited.part) == 10 * sizeof(uint64_t), "its part at 10");
_Static_assert(offsetof(struct homeludaf_answer, result.filter.value.shadow.colored) == 16 * sizeof(uint64_t), "whether a shadow has a colour at 16");
_Static_assert(sizeof(((struct homeludaf_answer *)0)->result) == 12 * sizeof(uint64_t), "a result has twelve entries");
_Static_assert(offsetof(struct homeludaf_answer, from) == 21 * sizeof(uint64_t), "a stretch starts at entry 21");
_Static_assert(offsetof(struct homeludaf_answer, to) == 22 * sizeof(uint64_t), "and ends at 22");
_Static_assert(offsetof(struct homeludaf_answer, spare) == 23 * sizeof(uint64_t), "entry 23 is spare");

#define TEXT(s) (const uint8_t *)(s), sizeof(s) - 1
#define TEXT_OF(s) { s, sizeof(s) - 1 }
#define COUNT(array) (sizeof (array) / sizeof (array)[0])

struct text {
    const char *at;
    size_t length;
};

static const char lengths[] = "10 20px, 5%";
static const char filters[] = "blur(2px) drop-shadow(1 2 3 red) opacity(50%) hue-rotate(90deg) url(#x) blur(-1)";

static int failed = 0;

static void expect(const char *what, int ok)
{
    if (!ok) {
        failed = 1;
        printf("differs: %s\n", what);
    }
}

static void show(const char *what, const struct homeludaf_answer *a)
{
    uint64_t e[24];
    memcpy(e, a, sizeof e);
    printf("%s:", what);
    for (int i = 0; i < 24; i++)
        printf(" %llx", (unsigned long long)e[i]);
    printf("\n");
}

/* The result's entries from one on, and the spare one, are 0. */
static int unused(const struct homeludaf_answer *a, size_t first)
{
    for (size_t i = first; i < COUNT(a->result.entries); i++)
        if (a->result.entries[i] != 0)
            return 0;
    return a->spare == 0;
}

/* The answer has a refusal's code and stretch; a value has the code 0, and 0 and 0. */
static int tells(const struct homeludaf_answer *a, uint64_t code, uint64_t from, uint64_t to)
{
    return a->code == code && a->from == from && a->to == to;
}

typedef void whole_call(const uint8_t *, size_t, struct homeludaf_answer *);
typedef void next_call(const uint8_t *, size_t, size_t, struct homeludaf_answer *);
typedef void all_call(const uint8_t *, size_t, size_t, struct homeludaf_answer *, size_t, struct homeludaf_told *);

/* The answers of `all`, lent `entries` numbers, are those of `next`, one after the other, and what lies behind them is as it was. */
static void many(const char *what, next_call *next, all_call *all, const char *text, size_t length, size_t start, size_t entries)
{
    struct homeludaf_answer got[8], wanted[8];
    struct homeludaf_told told;
    size_t place = start, n = 0;
    memset(got, 0xa5, sizeof got);
    memset(wanted, 0xa5, sizeof wanted);
    while (n < entries / HOMELUDAF_ENTRIES) {
        next((const uint8_t *)text, length, place, &wanted[n]);
        place = wanted[n].list_place;
        if (wanted[n++].state != HOMELUDAF_STATE_VALUE)
            break;
    }
    all((const uint8_t *)text, length, start, got, entries, &told);
    if (start == 0)
        printf("%s, %zu lent: %llu told, on from %llu\n", what, entries, (unsigned long long)told.count, (unsigned long long)told.list_place);
    expect(what, told.count == n && told.list_place == place && memcmp(got, wanted, sizeof got) == 0);
}

typedef uint64_t packed_call(const uint8_t *, size_t, struct homeludaf_answer *);

/* The number's parts, all its 64 bits, are a paint's in a record. */
static int same_paint(uint64_t v, uint64_t kind, struct homeludaf_part link, uint64_t fallback, struct homeludaf_rgba color)
{
    return HOMELUDAF_PACKED_KIND(v) == kind && HOMELUDAF_PACKED_LINK_START(v) == link.start && HOMELUDAF_PACKED_LINK_LENGTH(v) == link.length
           && HOMELUDAF_PACKED_FALLBACK(v) == fallback && HOMELUDAF_PACKED_RED(v) == color.red && HOMELUDAF_PACKED_GREEN(v) == color.green
           && HOMELUDAF_PACKED_BLUE(v) == color.blue && HOMELUDAF_PACKED_ALPHA(v) == color.alpha && v >> 63 == 0;
}

/* The number that `call` gives. For a refusal it is 0 and the record that was lent is `wanted`; for a value that record is as it came. */
static uint64_t packed(const char *what, packed_call *call, const char *text, size_t length, const struct homeludaf_answer *wanted)
{
    struct homeludaf_answer got, before;
    memset(&before, 0xa5, sizeof before);
    got = before;
    uint64_t v = call((const uint8_t *)text, length, &got);
    expect(what, (v == 0) == (wanted->code != HOMELUDAF_OK));
    expect(what, memcmp(&got, v == 0 ? wanted : &before, sizeof got) == 0);
    return v;
}

/* The calls that give one number answer what those that fill a record do. */
static void both_packed(const char *text, size_t length)
{
    const struct homeludaf_part no_link = { 0, 0 };
    struct homeludaf_answer a;
    homeludaf_color((const uint8_t *)text, length, &a);
    uint64_t v = packed("color_packed", homeludaf_color_packed, text, length, &a);
    expect("color_packed, value", v == 0 || same_paint(v, HOMELUDAF_PAINT_COLOR, no_link, HOMELUDAF_FALLBACK_ABSENT, a.result.color));
    homeludaf_paint((const uint8_t *)text, length, &a);
    v = packed("paint_packed", homeludaf_paint_packed, text, length, &a);
    expect("paint_packed, value", v == 0 || same_paint(v, a.result.paint.kind, a.result.paint.link, a.result.paint.fallback, a.result.paint.color));
}

static void whole_colors(void)
{
    struct homeludaf_answer a;

    memset(&a, 0xff, sizeof a);
    homeludaf_color(TEXT("rgb(10, 20, 30)"), &a);
    show("color", &a);
    expect("color", a.code == HOMELUDAF_OK && a.result.color.red == 10 && a.result.color.green == 20 && a.result.color.blue == 30 && a.result.color.alpha == 255);
    expect("color, unused entries", unused(&a, 4) && a.state == 0);

    memset(&a, 0xff, sizeof a);
    homeludaf_color(TEXT("#12345"), &a);
    show("color refused", &a);
    expect("color refused", a.code == HOMELUDAF_INVALID_VALUE && a.result.color.alpha == 0);

    memset(&a, 0xff, sizeof a);
    homeludaf_color((const uint8_t *)"", 0, &a);
    show("color of nothing", &a);
    expect("color of nothing", a.code == HOMELUDAF_UNEXPECTED_END);
}

static void other_whole_texts(void)
{
    struct homeludaf_answer a;

    memset(&a, 0xff, sizeof a);
    homeludaf_length(TEXT("1.5em"), &a);
    show("length", &a);
    expect("length", a.code == HOMELUDAF_OK && homeludaf_double(a.result.length.bits) == 1.5 && a.result.length.unit == HOMELUDAF_UNIT_EM);

    memset(&a, 0xff, sizeof a);
    homeludaf_angle(TEXT("0.5turn"), &a);
    show("angle", &a);
    expect("angle", a.result.angle.given.unit == HOMELUDAF_ANGLE_TURNS && homeludaf_double(a.result.angle.degrees_bits) == 180.0);

    memset(&a, 0xff, sizeof a);
    homeludaf_func_iri(TEXT("url(#ab)"), &a);
    show("func_iri", &a);
    expect("func_iri", a.code == 0 && a.result.link.start == 5 && a.result.link.length == 2);

    memset(&a, 0xff, sizeof a);
    homeludaf_iri(TEXT("#ab"), &a);
    show("iri", &a);
    expect("iri", a.code == 0 && a.result.link.start == 1 && a.result.link.length == 2);

    memset(&a, 0xff, sizeof a);
    homeludaf_paint(TEXT("url(#g) #fff"), &a);
    show("paint", &a);
    expect("paint", a.result.paint.kind == HOMELUDAF_PAINT_LINK && a.result.paint.link.start == 5 && a.result.paint.link.length == 1
                        && a.result.paint.fallback == HOMELUDAF_FALLBACK_COLOR && a.result.paint.color.alpha == 255);
}

/* Whose text is told, and its part; of a refusal the code. */
static const struct {
    struct text own, parent;
    uint64_t code, whose, start, length;
} inherited_told[] = {
    { TEXT_OF(" red"), TEXT_OF("\xff"), HOMELUDAF_OK, HOMELUDAF_WHOSE_OWN, 1, 3 },
    { TEXT_OF(" inherit "), TEXT_OF("  red"), HOMELUDAF_OK, HOMELUDAF_WHOSE_PARENT, 2, 3 },
    { TEXT_OF(""), TEXT_OF("  red"), HOMELUDAF_OK, HOMELUDAF_WHOSE_PARENT, 2, 3 },
    { TEXT_OF("\xc2\xa0"), TEXT_OF("none "), HOMELUDAF_OK, HOMELUDAF_WHOSE_PARENT, 0, 4 },
    { TEXT_OF(""), TEXT_OF(""), HOMELUDAF_OK, HOMELUDAF_WHOSE_HIGHER, 0, 0 },
    { TEXT_OF(""), TEXT_OF(" \xc2\xa0"), HOMELUDAF_OK, HOMELUDAF_WHOSE_HIGHER, 0, 0 },
    { TEXT_OF(" "), TEXT_OF("\tinherit"), HOMELUDAF_OK, HOMELUDAF_WHOSE_HIGHER, 0, 0 },
    { TEXT_OF("inherit"), TEXT_OF("\n"), HOMELUDAF_OK, HOMELUDAF_WHOSE_HIGHER, 0, 0 },
    { TEXT_OF("inherit"), TEXT_OF(" inherit "), HOMELUDAF_OK, HOMELUDAF_WHOSE_HIGHER, 0, 0 },
    { TEXT_OF("Inherit"), TEXT_OF("red"), HOMELUDAF_INVALID_VALUE, HOMELUDAF_WHOSE_OWN, 0, 0 },
    { TEXT_OF("\xe2\x80\x8b"), TEXT_OF("red"), HOMELUDAF_INVALID_VALUE, HOMELUDAF_WHOSE_OWN, 0, 0 },
    { TEXT_OF(" \xff"), TEXT_OF("red"), HOMELUDAF_NOT_UTF8, HOMELUDAF_WHOSE_OWN, 0, 0 },
    { TEXT_OF(""), TEXT_OF("x"), HOMELUDAF_INVALID_VALUE, HOMELUDAF_WHOSE_PARENT, 0, 0 },
    { TEXT_OF(""), TEXT_OF("url(#a) red)"), HOMELUDAF_UNEXPECTED_DATA, HOMELUDAF_WHOSE_PARENT, 0, 0 },
    { TEXT_OF("inherit"), TEXT_OF("  \xff"), HOMELUDAF_NOT_UTF8, HOMELUDAF_WHOSE_PARENT, 0, 0 },
};

static void inherited(void)
{
    for (size_t i = 0; i < COUNT(inherited_told); i++) {
        const struct text own = inherited_told[i].own, parent = inherited_told[i].parent;
        struct homeludaf_answer a;
        memset(&a, 0xff, sizeof a);
        homeludaf_inherited((const uint8_t *)own.at, own.length, (const uint8_t *)parent.at, parent.length, &a);
        show("inherited", &a);
        expect("inherited", a.code == inherited_told[i].code && a.result.inherited.whose == inherited_told[i].whose);
        expect("inherited, part", a.result.inherited.part.start == inherited_told[i].start && a.result.inherited.part.length == inherited_told[i].length);
        expect("inherited, unused entries", unused(&a, 3) && a.state == 0 && a.list_place == 0);
        expect("inherited, no refusal", a.code != HOMELUDAF_OK || (tells(&a, HOMELUDAF_OK, 0, 0) && a.position == 0 && a.place == 0));
    }
}

/* White space is a text like any other until it is too long. */
static void inherited_long(void)
{
    static char spaces[4097];
    struct homeludaf_answer a;
    memset(spaces, ' ', sizeof spaces);

    homeludaf_inherited((const uint8_t *)spaces, 4096, TEXT("red"), &a);
    expect("4,096 spaces", a.code == HOMELUDAF_OK && a.result.inherited.whose == HOMELUDAF_WHOSE_PARENT && a.result.inherited.part.length == 3);
    homeludaf_inherited((const uint8_t *)spaces, 4097, TEXT("red"), &a);
    expect("4,097 spaces", a.code == HOMELUDAF_TEXT_TOO_LONG && a.result.inherited.whose == HOMELUDAF_WHOSE_OWN && unused(&a, 1));
    homeludaf_inherited(TEXT(""), (const uint8_t *)spaces, 4097, &a);
    expect("the parent's 4,097 spaces", a.code == HOMELUDAF_TEXT_TOO_LONG && a.result.inherited.whose == HOMELUDAF_WHOSE_PARENT && unused(&a, 1));
    homeludaf_inherited(TEXT("red"), (const uint8_t *)spaces, 4097, &a);
    expect("a parent that is not looked at", a.code == HOMELUDAF_OK && a.result.inherited.whose == HOMELUDAF_WHOSE_OWN);
}

static void number_troubles(void)
{
    static const struct {
        struct text text;
        uint64_t code;
    } troubles[] = {
        { TEXT_OF(" x"), HOMELUDAF_INVALID_NUMBER },
        { TEXT_OF(" "), HOMELUDAF_NUMBER_ENDED },
        { TEXT_OF(" 9007199254740992."), HOMELUDAF_NUMBER_OUTSIDE_DOMAIN },
        { TEXT_OF(" 9007199254740992e23"), HOMELUDAF_NUMBER_TOO_LARGE },
        { TEXT_OF(" 0e23"), HOMELUDAF_NUMBER_SCALE },
    };
    for (size_t i = 0; i < COUNT(troubles); i++) {
        struct homeludaf_answer a;
        memset(&a, 0xff, sizeof a);
        homeludaf_length((const uint8_t *)troubles[i].text.at, troubles[i].text.length, &a);
        show("length refused", &a);
        expect("length refused", a.code == troubles[i].code && a.position == 2 && a.result.length.bits == 0);
    }
}

/* Texts that homeludaf_color reads: with the same channels by the house rules, or the position at which these refuse it. */
static const struct {
    struct text text;
    uint64_t position;
    struct homeludaf_rgba color;
} house_told[] = {
    { TEXT_OF(" #aBc "), 0, { 170, 187, 204, 255 } },
    { TEXT_OF("#112233"), 0, { 17, 34, 51, 255 } },
    { TEXT_OF("Red"), 0, { 255, 0, 0, 255 } },
    { TEXT_OF("transparent"), 0, { 0, 0, 0, 0 } },
    { TEXT_OF("RGB( 1 ,+2,\t-3 )"), 0, { 1, 2, 0, 255 } },
    { TEXT_OF("rgb(20%,100.0%,.0%)"), 0, { 51, 255, 0, 255 } },
    { TEXT_OF("rgba(1,2,3,.5)"), 0, { 1, 2, 3, 128 } },
    { TEXT_OF("hsl(120,100%,50%)"), 0, { 0, 255, 0, 255 } },
    { TEXT_OF("hsla(120,100%,50%,2)"), 0, { 0, 255, 0, 255 } },
    { TEXT_OF("#1234"), 6, { 17, 34, 51, 68 } },
    { TEXT_OF(" #1234 "), 7, { 17, 34, 51, 68 } },
    { TEXT_OF("#12345678"), 8, { 18, 52, 86, 120 } },
    { TEXT_OF("rgb(1.0,2,3)"), 8, { 1, 2, 3, 255 } },
    { TEXT_OF("rgb(1,2.0,3)"), 8, { 1, 2, 3, 255 } },
    { TEXT_OF("rgb(1 2 3)"), 7, { 1, 2, 3, 255 } },
    { TEXT_OF("rgb(1e0,2,3)"), 6, { 1, 2, 3, 255 } },
    { TEXT_OF("rgb(1,2,3,)"), 10, { 1, 2, 3, 255 } },
    { TEXT_OF("rgb(1,2,3,1)"), 10, { 1, 2, 3, 255 } },
    { TEXT_OF("rgb(20%,50,20%)"), 11, { 51, 255, 51, 255 } },
    { TEXT_OF("rgba(1,2,3)"), 11, { 1, 2, 3, 255 } },
    { TEXT_OF("hsl(120,100,50)"), 12, { 255, 255, 255, 255 } },
};

static int same_color(struct homeludaf_rgba a, struct homeludaf_rgba b)
{
    return a.red == b.red && a.green == b.green && a.blue == b.blue && a.alpha == b.alpha;
}

static void house_rules(void)
{
    static const struct homeludaf_rgba none = { 0, 0, 0, 0 };
    for (size_t i = 0; i < COUNT(house_told); i++) {
        const uint8_t *at = (const uint8_t *)house_told[i].text.at;
        const uint64_t position = house_told[i].position, from = position == 0 ? 0 : position - 1;
        struct homeludaf_answer a;
        memset(&a, 0xff, sizeof a);
        homeludaf_color(at, house_told[i].text.length, &a);
        expect("color, before the house rules", a.code == HOMELUDAF_OK && same_color(a.result.color, house_told[i].color));
        memset(&a, 0xff, sizeof a);
        homeludaf_strict(at, house_told[i].text.length, &a);
        show("strict", &a);
        expect(house_told[i].text.at, tells(&a, position == 0 ? HOMELUDAF_OK : HOMELUDAF_NOT_STRICT, from, from) && a.position == position
                                          && same_color(a.result.color, position == 0 ? house_told[i].color : none));
        expect("strict, unused entries", unused(&a, 4) && a.place == 0 && a.found == 0 && a.wanted == 0 && a.part.start == 0 && a.part.length == 0
                                             && a.state == HOMELUDAF_STATE_VALUE && a.list_place == 0);
    }
}

/* What homeludaf_color refuses has the same record by the house rules, all 24 entries. */
static void house_refusals(void)
{
    static const struct text texts[] = {
        TEXT_OF(""), TEXT_OF("#12345"), TEXT_OF("currentColor"), TEXT_OF("#1234)"), TEXT_OF("rgb[1"), TEXT_OF("rgb(1,2%,3)"), TEXT_OF("rgb(5.,0,0)"), TEXT_OF("rgb(1.0,2,3\xff"),
        TEXT_OF("rgb(1.0, "), TEXT_OF("rgb(9007199254740992,0,0)"), TEXT_OF("rgb(1e23,0,0)"),
    };
    static const uint64_t codes[] = { 4, 5, 5, 6, 7, 9, 10, 2, 22, 23, 24 };
    _Static_assert(COUNT(texts) == COUNT(codes), "a code for each text");
    for (size_t i = 0; i < COUNT(texts); i++) {
        struct homeludaf_answer a, b;
        memset(&a, 0xff, sizeof a);
        memset(&b, 0xa5, sizeof b);
        homeludaf_color((const uint8_t *)texts[i].at, texts[i].length, &a);
        homeludaf_strict((const uint8_t *)texts[i].at, texts[i].length, &b);
        expect(texts[i].at, b.code == codes[i] && memcmp(&a, &b, sizeof a) == 0);
    }
}

/* The limit is no reason to stop: in 4,096 bytes `#1234` can go on, and in 4,097 nothing is read. */
static void house_limit(void)
{
    static char wide[4097];
    struct homeludaf_answer a;
    memset(wide, ' ', sizeof wide);
    memcpy(wide + 4091, "#1234", 5);

    memset(&a, 0xff, sizeof a);
    homeludaf_strict((const uint8_t *)wide, 4096, &a);
    show("strict at the limit", &a);
    expect("strict at the limit", tells(&a, HOMELUDAF_NOT_STRICT, 4096, 4096) && a.position == 4097 && unused(&a, 0));

    memset(&a, 0xff, sizeof a);
    homeludaf_strict((const uint8_t *)wide, 4097, &a);
    expect("strict past the limit", tells(&a, HOMELUDAF_TEXT_TOO_LONG, 0, 0) && a.position == 0 && unused(&a, 0));
}

/* Inputs of swatch: the line that is read, and by which call. */
static const struct {
    struct text input, line;
    whole_call *call;
    uint64_t code;
} asked_told[] = {
    { TEXT_OF("red"), TEXT_OF("red"), homeludaf_strict, 0 },
    { TEXT_OF("rgb(20%,50,20%)\nred\n"), TEXT_OF("rgb(20%,50,20%)"), homeludaf_strict, 18 },
    { TEXT_OF("read=loose\nrgb(20%,50,20%)\nred"), TEXT_OF("rgb(20%,50,20%)"), homeludaf_color, 0 },
    { TEXT_OF("read=strict\n#1234"), TEXT_OF("#1234"), homeludaf_strict, 18 },
    { TEXT_OF("read=strict\nread=loose\nred"), TEXT_OF("read=loose"), homeludaf_strict, 5 },
    { TEXT_OF("read=loose"), TEXT_OF(""), homeludaf_color, 4 },
    { TEXT_OF("read=strict\n\nred"), TEXT_OF(""), homeludaf_strict, 4 },
    { TEXT_OF("\nread=loose\nred"), TEXT_OF(""), homeludaf_strict, 4 },
    { TEXT_OF("read=Loose\nred"), TEXT_OF("read=Loose"), homeludaf_strict, 5 },
    { TEXT_OF("read=loose\r\nred"), TEXT_OF("read=loose\r"), homeludaf_strict, 5 },
    { TEXT_OF("read=\xff\nred"), TEXT_OF("read=\xff"), homeludaf_strict, 2 },
    { TEXT_OF("read=loose\nred\xff"), TEXT_OF("red\xff"), homeludaf_color, 2 },
    { TEXT_OF("read=loose\nred)"), TEXT_OF("red)"), homeludaf_color, 6 },
};

static void asked_lines(void)
{
    for (size_t i = 0; i < COUNT(asked_told); i++) {
        struct homeludaf_answer a, b;
        memset(&a, 0xff, sizeof a);
        memset(&b, 0xa5, sizeof b);
        homeludaf_asked((const uint8_t *)asked_told[i].input.at, asked_told[i].input.length, &a);
        asked_told[i].call((const uint8_t *)asked_told[i].line.at, asked_told[i].line.length, &b);
        expect(asked_told[i].input.at, a.code == asked_told[i].code && memcmp(&a, &b, sizeof a) == 0);
    }
}

/* The limit counts in the text's own line. */
static void asked_limit(void)
{
    static char wide[11 + 4097];
    struct homeludaf_answer a;
    memset(wide, ' ', sizeof wide);
    memcpy(wide, "read=loose\n", 11);
    memset(&a, 0xff, sizeof a);
    homeludaf_asked((const uint8_t *)wide, 11 + 4096, &a);
    expect("asked at the limit", tells(&a, HOMELUDAF_UNEXPECTED_END, 4096, 4096) && unused(&a, 0));
    memset(&a, 0xff, sizeof a);
    homeludaf_asked((const uint8_t *)wide, 11 + 4097, &a);
    expect("asked past the limit", tells(&a, HOMELUDAF_TEXT_TOO_LONG, 0, 0) && unused(&a, 0));
}

/* The stretch of each refusal that a whole text can have, and of values none. */
static const struct {
    whole_call *call;
    struct text text;
    uint64_t code, from, to;
} whole_told[] = {
    { homeludaf_color, TEXT_OF("red"), HOMELUDAF_OK, 0, 0 },
    { homeludaf_length, TEXT_OF(" 1.5em"), HOMELUDAF_OK, 0, 0 },
    { homeludaf_angle, TEXT_OF("0.5turn"), HOMELUDAF_OK, 0, 0 },
    { homeludaf_iri, TEXT_OF(" #a "), HOMELUDAF_OK, 0, 0 },
    { homeludaf_func_iri, TEXT_OF("url(#a)"), HOMELUDAF_OK, 0, 0 },
    { homeludaf_paint, TEXT_OF(" url(#a) red"), HOMELUDAF_OK, 0, 0 },
    { homeludaf_color, TEXT_OF("\xc3\xa9\xff"), HOMELUDAF_NOT_UTF8, 2, 2 },
    { homeludaf_paint, TEXT_OF("  red\xff "), HOMELUDAF_NOT_UTF8, 5, 5 },
    { homeludaf_color, TEXT_OF(" "), HOMELUDAF_UNEXPECTED_END, 1, 1 },
    { homeludaf_color, TEXT_OF("rgb(1,"), HOMELUDAF_UNEXPECTED_END, 6, 6 },
    { homeludaf_color, TEXT_OF("#12345"), HOMELUDAF_INVALID_VALUE, 6, 6 },
    { homeludaf_color, TEXT_OF("foo)"), HOMELUDAF_INVALID_VALUE, 3, 3 },
    { homeludaf_color, TEXT_OF(")"), HOMELUDAF_INVALID_VALUE, 0, 0 },
    { homeludaf_iri, TEXT_OF("#"), HOMELUDAF_INVALID_VALUE, 1, 1 },
    { homeludaf_func_iri, TEXT_OF("url('#  ')"), HOMELUDAF_INVALID_VALUE, 8, 8 },
    { homeludaf_func_iri, TEXT_OF("url(#a'b)"), HOMELUDAF_INVALID_VALUE, 8, 8 },
    { homeludaf_color, TEXT_OF("red blue"), HOMELUDAF_UNEXPECTED_DATA, 4, 8 },
    { homeludaf_angle, TEXT_OF("90deg)"), HOMELUDAF_UNEXPECTED_DATA, 5, 6 },
    { homeludaf_color, TEXT_OF("rgb[1"), HOMELUDAF_INVALID_CHAR, 3, 4 },
    { homeludaf_color, TEXT_OF("rgb\xc3\xa9"), HOMELUDAF_INVALID_CHAR, 3, 4 },
    { homeludaf_func_iri, TEXT_OF(" src(#a)"), HOMELUDAF_INVALID_STRING, 1, 5 },
    { homeludaf_func_iri, TEXT_OF("\xc3\xa9#a"), HOMELUDAF_INVALID_STRING, 0, 4 },
    { homeludaf_color, TEXT_OF("rgb(1,2, x)"), HOMELUDAF_INVALID_NUMBER, 9, 9 },
    { homeludaf_color, TEXT_OF("rgb(1, "), HOMELUDAF_NUMBER_ENDED, 7, 7 },
    { homeludaf_length, TEXT_OF("1."), HOMELUDAF_NUMBER_OUTSIDE_DOMAIN, 0, 2 },
    { homeludaf_length, TEXT_OF(" -x"), HOMELUDAF_NUMBER_OUTSIDE_DOMAIN, 1, 2 },
    { homeludaf_length, TEXT_OF("1e+m"), HOMELUDAF_NUMBER_OUTSIDE_DOMAIN, 0, 3 },
    { homeludaf_length, TEXT_OF(" 9007199254740992px"), HOMELUDAF_NUMBER_TOO_LARGE, 1, 17 },
    { homeludaf_length, TEXT_OF(" 1e23px"), HOMELUDAF_NUMBER_SCALE, 1, 5 },
    /* What a paint swallows is told where it was met. */
    { homeludaf_paint, TEXT_OF(""), HOMELUDAF_INVALID_VALUE, 0, 0 },
    { homeludaf_paint, TEXT_OF(" x"), HOMELUDAF_INVALID_VALUE, 1, 1 },
    { homeludaf_paint, TEXT_OF(" red)"), HOMELUDAF_INVALID_VALUE, 3, 3 },
    { homeludaf_paint, TEXT_OF("rgb( x"), HOMELUDAF_INVALID_VALUE, 5, 5 },
    { homeludaf_paint, TEXT_OF("url(x)"), HOMELUDAF_INVALID_VALUE, 4, 4 },
    /* What it does not counts from the trimmed text, or from the fallback. */
    { homeludaf_paint, TEXT_OF("\xc2\xa0rgb(1e23,0,0)"), HOMELUDAF_NUMBER_SCALE, 4, 8 },
    { homeludaf_paint, TEXT_OF(" url(#a) red)"), HOMELUDAF_UNEXPECTED_DATA, 3, 4 },
    { homeludaf_paint, TEXT_OF("url(#a) rgb(1,2.,3)"), HOMELUDAF_NUMBER_OUTSIDE_DOMAIN, 6, 8 },
    { homeludaf_paint, TEXT_OF("url(#a) #12345"), HOMELUDAF_INVALID_VALUE, 6, 6 },
};

static void whole_stretches(void)
{
    for (size_t i = 0; i < COUNT(whole_told); i++) {
        struct homeludaf_answer a;
        memset(&a, 0xff, sizeof a);
        whole_told[i].call((const uint8_t *)whole_told[i].text.at, whole_told[i].text.length, &a);
        show("stretch", &a);
        expect(whole_told[i].text.at, tells(&a, whole_told[i].code, whole_told[i].from, whole_told[i].to) && unused(&a, a.code == HOMELUDAF_OK ? 8 : 0));
    }
}

/* The same of steps of lists: places count from the text's start, wherever a step begins. */
static const struct {
    next_call *call;
    struct text text;
    size_t place;
    uint64_t code, from, to;
} step_told[] = {
    { homeludaf_length_next, TEXT_OF("1 2px"), 2, HOMELUDAF_OK, 0, 0 },
    { homeludaf_length_next, TEXT_OF("1 2px"), 5, HOMELUDAF_OK, 0, 0 },
    { homeludaf_length_next, TEXT_OF("1"), 2, HOMELUDAF_BAD_LIST_PLACE, 0, 0 },
    { homeludaf_length_next, TEXT_OF("1 2 x"), 4, HOMELUDAF_INVALID_NUMBER, 4, 4 },
    { homeludaf_filter_next, TEXT_OF("sepia() blur()"), 7, HOMELUDAF_OK, 0, 0 },
    { homeludaf_filter_next, TEXT_OF("none"), 0, HOMELUDAF_OK, 0, 0 },
    { homeludaf_filter_next, TEXT_OF("blur()\xc3\xa9"), 7, HOMELUDAF_BAD_LIST_PLACE, 0, 0 },
    { homeludaf_filter_next, TEXT_OF("none x"), 0, HOMELUDAF_INVALID_VALUE, 5, 5 },
    { homeludaf_filter_next, TEXT_OF("foo() blur()"), 0, HOMELUDAF_UNEXPECTED_DATA, 0, 12 },
    { homeludaf_filter_next, TEXT_OF("blur() foo()"), 6, HOMELUDAF_UNEXPECTED_DATA, 7, 12 },
    { homeludaf_filter_next, TEXT_OF("blur(50%)"), 0, HOMELUDAF_PERCENTAGE_VALUE, 0, 8 },
    { homeludaf_filter_next, TEXT_OF("sepia() blur(-1px)"), 7, HOMELUDAF_NEGATIVE_VALUE, 8, 17 },
    { homeludaf_filter_next, TEXT_OF("hue-rotate(1)"), 0, HOMELUDAF_INVALID_ANGLE, 0, 12 },
    { homeludaf_filter_next, TEXT_OF("drop-shadow( )"), 0, HOMELUDAF_MISSING_SHADOW_OFFSET, 0, 13 },
    { homeludaf_filter_next, TEXT_OF("blur()url(#)"), 6, HOMELUDAF_INVALID_URL, 6, 11 },
};

static void step_stretches(void)
{
    for (size_t i = 0; i < COUNT(step_told); i++) {
        struct homeludaf_answer a;
        memset(&a, 0xff, sizeof a);
        step_told[i].call((const uint8_t *)step_told[i].text.at, step_told[i].text.length, step_told[i].place, &a);
        show("step's stretch", &a);
        expect(step_told[i].text.at, tells(&a, step_told[i].code, step_told[i].from, step_told[i].to) && unused(&a, a.state == HOMELUDAF_STATE_VALUE ? 4 : 0));
    }
}

static void other_stretches(void)
{
    static const char wide[4097];
    struct homeludaf_answer a;

    memset(&a, 0xff, sizeof a);
    homeludaf_paint((const uint8_t *)wide, sizeof wide, &a);
    expect("a text too long, stretch", tells(&a, HOMELUDAF_TEXT_TOO_LONG, 0, 0) && unused(&a, 0));

    memset(&a, 0xff, sizeof a);
    homeludaf_inherited(TEXT(" red"), TEXT("x"), &a);
    expect("inherited, stretch", tells(&a, HOMELUDAF_OK, 0, 0) && unused(&a, 3));

    memset(&a, 0xff, sizeof a);
    homeludaf_inherited(TEXT("inherit"), TEXT("  url(#a) rgb(1,2,x)"), &a);
    show("the parent's stretch", &a);
    expect("the parent's stretch", tells(&a, HOMELUDAF_INVALID_NUMBER, 8, 8) && a.result.inherited.whose == HOMELUDAF_WHOSE_PARENT && unused(&a, 1));
}

/* How a number was written, of a whole text; what is refused has only zeros. */
struct written {
    struct text text;
    uint64_t unit, whole, end;
};

static const struct written lengths_written[] = {
    { TEXT_OF("12"), HOMELUDAF_UNIT_NONE, 1, 2 },
    { TEXT_OF("+12"), HOMELUDAF_UNIT_NONE, 1, 3 },
    { TEXT_OF("-0"), HOMELUDAF_UNIT_NONE, 1, 2 },
    { TEXT_OF("007"), HOMELUDAF_UNIT_NONE, 1, 3 },
    { TEXT_OF(" 7"), HOMELUDAF_UNIT_NONE, 1, 2 },
    { TEXT_OF("\t\n 7mm"), HOMELUDAF_UNIT_MM, 1, 4 },
    { TEXT_OF("9007199254740991"), HOMELUDAF_UNIT_NONE, 1, 16 },
    { TEXT_OF("12px"), HOMELUDAF_UNIT_PX, 1, 2 },
    { TEXT_OF("12%"), HOMELUDAF_UNIT_PERCENT, 1, 2 },
    { TEXT_OF("12.0"), HOMELUDAF_UNIT_NONE, 0, 4 },
    { TEXT_OF(".5"), HOMELUDAF_UNIT_NONE, 0, 2 },
    { TEXT_OF("-12.50%"), HOMELUDAF_UNIT_PERCENT, 0, 6 },
    /* This `e` is the unit's. */
    { TEXT_OF("1em"), HOMELUDAF_UNIT_EM, 1, 1 },
    { TEXT_OF("1ex"), HOMELUDAF_UNIT_EX, 1, 1 },
    { TEXT_OF("1.5em"), HOMELUDAF_UNIT_EM, 0, 3 },
    { TEXT_OF("1e0"), HOMELUDAF_UNIT_NONE, 0, 3 },
    { TEXT_OF("1e0px"), HOMELUDAF_UNIT_PX, 0, 3 },
    { TEXT_OF("1E+2em"), HOMELUDAF_UNIT_EM, 0, 4 },
    { TEXT_OF("1e-0ex"), HOMELUDAF_UNIT_EX, 0, 4 },
    { TEXT_OF(""), 0, 0, 0 },
    { TEXT_OF("x"), 0, 0, 0 },
    { TEXT_OF("1."), 0, 0, 0 },
    { TEXT_OF("12px "), 0, 0, 0 },
    { TEXT_OF("12 "), 0, 0, 0 },
    { TEXT_OF("1Em"), 0, 0, 0 },
    { TEXT_OF("9007199254740992"), 0, 0, 0 },
    { TEXT_OF("1e23"), 0, 0, 0 },
    { TEXT_OF("12\xff"), 0, 0, 0 },
};

static const struct written angles_written[] = {
    { TEXT_OF("90"), HOMELUDAF_ANGLE_DEGREES, 1, 2 },
    { TEXT_OF(" -90deg"), HOMELUDAF_ANGLE_DEGREES, 1, 4 },
    { TEXT_OF("0.5turn"), HOMELUDAF_ANGLE_TURNS, 0, 3 },
    { TEXT_OF("100grad"), HOMELUDAF_ANGLE_GRADIANS, 1, 3 },
    { TEXT_OF("1e0rad"), HOMELUDAF_ANGLE_RADIANS, 0, 3 },
    { TEXT_OF("1.0"), HOMELUDAF_ANGLE_DEGREES, 0, 3 },
    { TEXT_OF(" "), 0, 0, 0 },
    { TEXT_OF("1.deg"), 0, 0, 0 },
    { TEXT_OF("90 deg"), 0, 0, 0 },
    { TEXT_OF("90em"), 0, 0, 0 },
};

/* The answer's unit and two facts are those of `w`; a value has `used` entries. */
static int is_written(const struct homeludaf_answer *a, const struct written *w, uint64_t unit, uint64_t whole, uint64_t end, size_t used)
{
    const int value = a->code == HOMELUDAF_OK;
    return value == (w->end != 0) && unit == w->unit && whole == w->whole && end == w->end && unused(a, value ? used : 0);
}

static void whole_written(void)
{
    struct homeludaf_answer a;
    for (size_t i = 0; i < COUNT(lengths_written); i++) {
        const struct written *w = &lengths_written[i];
        memset(&a, 0xff, sizeof a);
        homeludaf_length((const uint8_t *)w->text.at, w->text.length, &a);
        show("length written", &a);
        expect(w->text.at, is_written(&a, w, a.result.length.unit, a.result.length.whole, a.result.length.end, 4));
    }
    for (size_t i = 0; i < COUNT(angles_written); i++) {
        const struct written *w = &angles_written[i];
        memset(&a, 0xff, sizeof a);
        homeludaf_angle((const uint8_t *)w->text.at, w->text.length, &a);
        show("angle written", &a);
        expect(w->text.at, is_written(&a, w, a.result.angle.given.unit, a.result.angle.whole, a.result.angle.end, 5));
    }
}

/* The same of a list's steps: the end counts from the text's start, wherever a step begins. The list's end has 0 and 0, too. */
static const struct {
    struct text text;
    size_t place;
    uint64_t state, list_place, whole, end;
} steps_written[] = {
    { TEXT_OF(lengths), 0, HOMELUDAF_STATE_VALUE, 3, 1, 2 },
    { TEXT_OF(lengths), 3, HOMELUDAF_STATE_VALUE, 8, 1, 5 },
    { TEXT_OF(lengths), 8, HOMELUDAF_STATE_VALUE, 11, 1, 10 },
    { TEXT_OF(lengths), 11, HOMELUDAF_STATE_END, 11, 0, 0 },
    { TEXT_OF(""), 0, HOMELUDAF_STATE_END, 0, 0, 0 },
    { TEXT_OF("1.0em ,1em"), 0, HOMELUDAF_STATE_VALUE, 7, 0, 3 },
    { TEXT_OF("1.0em ,1em"), 7, HOMELUDAF_STATE_VALUE, 10, 1, 8 },
    { TEXT_OF("1.0em ,1em"), 2, HOMELUDAF_STATE_VALUE, 7, 1, 3 },
    { TEXT_OF("7-.5 1e1"), 0, HOMELUDAF_STATE_VALUE, 1, 1, 1 },
    { TEXT_OF("7-.5 1e1"), 1, HOMELUDAF_STATE_VALUE, 5, 0, 4 },
    { TEXT_OF("7-.5 1e1"), 4, HOMELUDAF_STATE_VALUE, 8, 0, 8 },
    { TEXT_OF("1 x"), 2, HOMELUDAF_STATE_REFUSED, 3, 0, 0 },
    { TEXT_OF("1 2."), 2, HOMELUDAF_STATE_REFUSED, 4, 0, 0 },
    { TEXT_OF("1"), 2, HOMELUDAF_STATE_REFUSED, 2, 0, 0 },
};

static void step_written(void)
{
    for (size_t i = 0; i < COUNT(steps_written); i++) {
        struct homeludaf_answer a;
        memset(&a, 0xff, sizeof a);
        homeludaf_length_next((const uint8_t *)steps_written[i].text.at, steps_written[i].text.length, steps_written[i].place, &a);
        show("step written", &a);
        expect(steps_written[i].text.at, a.state == steps_written[i].state && a.list_place == steps_written[i].list_place
                                             && a.result.length.whole == steps_written[i].whole && a.result.length.end == steps_written[i].end);
        expect(steps_written[i].text.at, unused(&a, a.state == HOMELUDAF_STATE_VALUE ? 4 : 0));
    }
}

/* A filter's lengths and angles do not tell it: each has two entries, and behind them stands the next part, or 0. */
static void filters_unwritten(void)
{
    struct homeludaf_answer a;

    memset(&a, 0xff, sizeof a);
    homeludaf_filter_next(TEXT("blur(2px)"), 0, &a);
    expect("blur, unused entries", a.result.filter.value.blur.unit == HOMELUDAF_UNIT_PX && unused(&a, 3));

    memset(&a, 0xff, sizeof a);
    homeludaf_filter_next(TEXT("hue-rotate(9turn)"), 0, &a);
    expect("hue-rotate, unused entries", a.result.filter.value.hue_rotate.unit == HOMELUDAF_ANGLE_TURNS && unused(&a, 3));

    memset(&a, 0xff, sizeof a);
    homeludaf_filter_next(TEXT("drop-shadow(1 2em 3px)"), 0, &a);
    show("shadow", &a);
    expect("shadow's lengths", homeludaf_double(a.result.filter.value.shadow.dx.bits) == 1.0 && a.result.filter.value.shadow.dx.unit == HOMELUDAF_UNIT_NONE
                                   && homeludaf_double(a.result.filter.value.shadow.dy.bits) == 2.0 && a.result.filter.value.shadow.dy.unit == HOMELUDAF_UNIT_EM
                                   && homeludaf_double(a.result.filter.value.shadow.deviation.bits) == 3.0
                                   && a.result.filter.value.shadow.deviation.unit == HOMELUDAF_UNIT_PX);
    expect("shadow, unused entries", unused(&a, 7));
}

static void packed_numbers(void)
{
    struct homeludaf_answer a;
    uint64_t v = homeludaf_paint_packed(TEXT("  url(#g) #0102037f "), &a);
    printf("paint_packed: %llx\n", (unsigned long long)v);
    expect("paint_packed, by hand", v == (7 | 7 << 3 | 1 << 16 | UINT64_C(3) << 29 | UINT64_C(0x7f030201) << 31));

    memset(&a, 0xff, sizeof a);
    v = homeludaf_color_packed(TEXT("rgb[1"), &a);
    show("color_packed refused", &a);
    expect("color_packed refused", v == 0 && a.code == HOMELUDAF_INVALID_CHAR && a.position == 4 && a.found == '[' && a.wanted == '(' && a.result.color.alpha == 0);

    static const struct text paints[] = {
        TEXT_OF(""), TEXT_OF(" "), TEXT_OF("#"), TEXT_OF("#12"), TEXT_OF("#123"), TEXT_OF("#1234567"), TEXT_OF(" #11223344\t"),
        TEXT_OF("none"), TEXT_OF("inherit "), TEXT_OF("currentColor"), TEXT_OF("context-fill"), TEXT_OF("\ncontext-stroke"), TEXT_OF("Red"),
        TEXT_OF("transparent"), TEXT_OF("redd"), TEXT_OF("red\xc2\xa0"), TEXT_OF("red\xff"), TEXT_OF("rgb(1,2,3)"), TEXT_OF("rgb(1,2,x)"),
        TEXT_OF("rgb(1e400,2,3)"), TEXT_OF("rgb(10%, 20%, 30%, .5)"), TEXT_OF("hsl(120, 100%, 50%)"), TEXT_OF("hsla(1,2%,3%,.4) x"),
        TEXT_OF("url(#a)"), TEXT_OF("url(#a) "), TEXT_OF("url(#a)none"), TEXT_OF("url(#a) none"), TEXT_OF("url(#a) currentColor"),
        TEXT_OF(" url('#b' ) rgb(1,2,3)"), TEXT_OF("url(#\xc3\xa9) teal"), TEXT_OF("url(#a) nothing"), TEXT_OF("url(#a) rgb(1,2"), TEXT_OF("url(#a"),
    };
    for (size_t i = 0; i < COUNT(paints); i++)
        for (size_t n = 0; n <= paints[i].length; n++)
            both_packed(paints[i].at, n);
    static char wide[4098];
    memset(wide, ' ', sizeof wide);
    memcpy(wide + 4089, "url(#a)", 7);
    for (size_t n = 4090; n <= 4098; n++)
        both_packed(wide, n);
}

/* Calls with `size` of the 12 bytes of `lent`, which show what was not written. */
#define SET_BACK(call, size, ...) (memset(lent, 0xa5, sizeof lent), memset(&a, 0xff, sizeof a), call(__VA_ARGS__, lent, size, &a))

static void set_back(void)
{
    struct homeludaf_answer a;
    uint8_t lent[12];

    SET_BACK(homeludaf_hex, 9, 17, 34, 51, 128, true);
    show("hex", &a);
    expect("hex", tells(&a, HOMELUDAF_OK, 0, 0) && a.result.written == 9 && unused(&a, 1) && memcmp(lent, "#11223380\xa5\xa5\xa5", 12) == 0);

    SET_BACK(homeludaf_hex, 12, 17, 34, 51, 255, true);
    expect("short hex", a.result.written == 4 && memcmp(lent, "#123\xa5\xa5\xa5\xa5\xa5\xa5\xa5\xa5", 12) == 0);

    SET_BACK(homeludaf_hex, 6, 17, 34, 51, 255, false);
    show("hex refused", &a);
    expect("hex refused", tells(&a, HOMELUDAF_BUFFER_TOO_SHORT, 0, 0) && a.position == 0 && unused(&a, 0) && lent[0] == 0xa5);

    SET_BACK(homeludaf_keyword, 4, 0, 255, 255, 255);
    show("keyword", &a);
    expect("keyword", a.code == HOMELUDAF_OK && a.result.written == 4 && memcmp(lent, "aqua\xa5", 5) == 0);

    SET_BACK(homeludaf_keyword, 3, 0, 255, 255, 255);
    expect("keyword too long", a.code == HOMELUDAF_BUFFER_TOO_SHORT && a.result.written == 0 && lent[0] == 0xa5);

    SET_BACK(homeludaf_keyword, 0, 0, 0, 0, 0);
    show("no keyword", &a);
    expect("no keyword", tells(&a, HOMELUDAF_NO_KEYWORD, 0, 0) && unused(&a, 0) && lent[0] == 0xa5);
}

static void length_steps(void)
{
    struct homeludaf_answer a;
    size_t place = 0;
    int n = 0;
    for (;;) {
        memset(&a, 0xff, sizeof a);
        homeludaf_length_next(TEXT(lengths), place, &a);
        show("length_next", &a);
        place = a.list_place;
        if (a.state != HOMELUDAF_STATE_VALUE)
            break;
        n++;
    }
    expect("length_next", n == 3 && a.state == HOMELUDAF_STATE_END && place == sizeof lengths - 1);
}

static void filter_steps(void)
{
    static const uint64_t kinds[] = { HOMELUDAF_FILTER_BLUR, HOMELUDAF_FILTER_DROP_SHADOW, HOMELUDAF_FILTER_OPACITY, HOMELUDAF_FILTER_HUE_ROTATE, HOMELUDAF_FILTER_URL };
    struct homeludaf_answer a;
    size_t place = 0;
    int n = 0;
    for (;;) {
        memset(&a, 0xff, sizeof a);
        homeludaf_filter_next(TEXT(filters), place, &a);
        show("filter_next", &a);
        place = a.list_place;
        if (a.state != HOMELUDAF_STATE_VALUE)
            break;
        expect("filter kind", n < 5 && a.result.filter.kind == kinds[n]);
        if (n == 1)
            expect("shadow", homeludaf_double(a.result.filter.value.shadow.dy.bits) == 2.0 && a.result.filter.value.shadow.colored == 1
                                 && a.result.filter.value.shadow.color.red == 255 && a.result.filter.value.shadow.color.alpha == 255);
        if (n == 2)
            expect("opacity", homeludaf_double(a.result.filter.value.number_bits) == 0.5);
        n++;
    }
    expect("filter_next", n == 5 && a.state == HOMELUDAF_STATE_REFUSED && a.code == HOMELUDAF_NEGATIVE_VALUE && place == sizeof filters - 1);

    memset(&a, 0xff, sizeof a);
    homeludaf_filter_next(TEXT("none"), 0, &a);
    show("filter_next none", &a);
    expect("filter_next none", a.state == HOMELUDAF_STATE_NONE && a.list_place == 4);
}

static void many_steps(void)
{
    static const struct text lists[] = {
        TEXT_OF(filters), TEXT_OF("none"), TEXT_OF(""), TEXT_OF("  "), TEXT_OF("blur(2px)\xff"), TEXT_OF("url(#\xc3\xa9) sepia()"), TEXT_OF(lengths), TEXT_OF("1,2,,3"),
    };
    static const size_t lent[] = { 0, 23, 24, 49, 72, 8 * 24 };
    for (size_t i = 0; i < COUNT(lists); i++)
        for (size_t start = 0; start <= lists[i].length + 1; start++)
            for (size_t k = 0; k < COUNT(lent); k++) {
                many("filter_all", homeludaf_filter_next, homeludaf_filter_all, lists[i].at, lists[i].length, start, lent[k]);
                many("length_all", homeludaf_length_next, homeludaf_length_all, lists[i].at, lists[i].length, start, lent[k]);
            }
}

/* A text of 4,096 bytes with as many values as fit: 682, and a rest of four bytes, by which the list ends in one way or another. */
static void most_values(void)
{
    enum { VALUES = 4096 / 6, ROOM = VALUES + 1 };
    static const struct { const char *rest; uint64_t state; } ends[] = {
        { "    ", HOMELUDAF_STATE_END }, { "none", HOMELUDAF_STATE_NONE }, { "blur", HOMELUDAF_STATE_REFUSED },
    };
    static struct homeludaf_answer got[ROOM + 1], lent;
    static char text[4096];
    struct homeludaf_told told;
    memset(&lent, 0xa5, sizeof lent);
    for (size_t i = 0; i < VALUES; i++)
        memcpy(text + 6 * i, "blur()", 6);
    for (size_t i = 0; i < COUNT(ends); i++) {
        memcpy(text + 6 * VALUES, ends[i].rest, 4);
        memset(got, 0xa5, sizeof got);
        homeludaf_filter_all((const uint8_t *)text, sizeof text, 0, got, ROOM * HOMELUDAF_ENTRIES, &told);
        expect("most values", told.count == 683 && told.list_place == sizeof text && got[ROOM - 1].state == ends[i].state);
        for (size_t k = 0; k < VALUES; k++)
            expect("most values, one of them", got[k].state == HOMELUDAF_STATE_VALUE && got[k].result.filter.kind == HOMELUDAF_FILTER_BLUR);
        expect("most values, behind them", memcmp(&got[ROOM], &lent, sizeof lent) == 0);
    }
    memset(got, 0xa5, sizeof got);
    homeludaf_filter_all((const uint8_t *)text, sizeof text, 0, got, VALUES * HOMELUDAF_ENTRIES, &told);
    expect("most values, room for one less", told.count == VALUES && got[VALUES - 1].state == HOMELUDAF_STATE_VALUE);
}

int main(void)
{
    whole_colors();
    other_whole_texts();
    inherited();
    inherited_long();
    number_troubles();
    house_rules();
    house_refusals();
    house_limit();
    asked_lines();
    asked_limit();
    whole_stretches();
    step_stretches();
    other_stretches();
    whole_written();
    step_written();
    filters_unwritten();
    packed_numbers();
    set_back();
    length_steps();
    filter_steps();
    many_steps();
    most_values();
    printf(failed ? "not as expected\n" : "all as expected\n");
    return failed;
}
