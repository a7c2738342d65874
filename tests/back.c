/* Writes colours through the archive, in each form, and reads them back; 0 at the end if each text is as expected and reads as its colour.
 * What is expected is worked out here: hex by the C library, the keyword by going through the names in their order.
 * HOMELUDAF_BACK=all goes over all 2^24 opaque colours and 2^20 others; without it, over one in 61 of them. */
#include <stdio.h>
#include <stdlib.h>
#include "homeludaf.h"

enum { ROOM = 24, MARK = 0xa5, OPAQUE = 1 << 24, OTHERS = 1 << 20, STRIDE = 61 };

static const char *const names[] = {
    "aliceblue", "antiquewhite", "aqua", "aquamarine", "azure", "beige", "bisque", "black", "blanchedalmond", "blue", "blueviolet", "brown",
    "burlywood", "cadetblue", "chartreuse", "chocolate", "coral", "cornflowerblue", "cornsilk", "crimson", "cyan", "darkblue", "darkcyan",
    "darkgoldenrod", "darkgray", "darkgreen", "darkgrey", "darkkhaki", "darkmagenta", "darkolivegreen", "darkorange", "darkorchid", "darkred",
    "darksalmon", "darkseagreen", "darkslateblue", "darkslategray", "darkslategrey", "darkturquoise", "darkviolet", "deeppink", "deepskyblue",
    "dimgray", "dimgrey", "dodgerblue", "firebrick", "floralwhite", "forestgreen", "fuchsia", "gainsboro", "ghostwhite", "gold", "goldenrod", "gray",
    "green", "greenyellow", "grey", "honeydew", "hotpink", "indianred", "indigo", "ivory", "khaki", "lavender", "lavenderblush", "lawngreen",
    "lemonchiffon", "lightblue", "lightcoral", "lightcyan", "lightgoldenrodyellow", "lightgray", "lightgreen", "lightgrey", "lightpink",
    "lightsalmon", "lightseagreen", "lightskyblue", "lightslategray", "lightslategrey", "lightsteelblue", "lightyellow", "lime", "limegreen", "linen",
    "magenta", "maroon", "mediumaquamarine", "mediumblue", "mediumorchid", "mediumpurple", "mediumseagreen", "mediumslateblue", "mediumspringgreen",
    "mediumturquoise", "mediumvioletred", "midnightblue", "mintcream", "mistyrose", "moccasin", "navajowhite", "navy", "oldlace", "olive",
    "olivedrab", "orange", "orangered", "orchid", "palegoldenrod", "palegreen", "paleturquoise", "palevioletred", "papayawhip", "peachpuff", "peru",
    "pink", "plum", "powderblue", "purple", "red", "rosybrown", "royalblue", "saddlebrown", "salmon", "sandybrown", "seagreen", "seashell", "sienna",
    "silver", "skyblue", "slateblue", "slategray", "slategrey", "snow", "springgreen", "steelblue", "tan", "teal", "thistle", "tomato", "turquoise",
    "violet", "wheat", "white", "whitesmoke", "yellow", "yellowgreen",
};

enum { NAMES = sizeof names / sizeof names[0] };

/* For each opaque colour the number of the first name that reads as it, counted from 1; 0 for none. */
static uint8_t first[OPAQUE];

static unsigned long failed, written;

struct color {
    uint8_t red, green, blue, alpha;
};

static uint32_t opaque_number(struct color c)
{
    return (uint32_t)c.red << 16 | (uint32_t)c.green << 8 | c.blue;
}

static void differs(const char *what, struct color c, size_t size)
{
    if (failed++ < 10)
        printf("differs: %s of %d,%d,%d,%d in %zu bytes\n", what, c.red, c.green, c.blue, c.alpha, size);
}

static bool reads_as(const uint8_t *text, size_t length, struct color c)
{
    struct homeludaf_answer a;
    homeludaf_color(text, length, &a);
    return a.code == HOMELUDAF_OK && a.result.color.red == c.red && a.result.color.green == c.green && a.result.color.blue == c.blue
           && a.result.color.alpha == c.alpha;
}

static bool doubled(uint8_t n)
{
    return n >> 4 == (n & 15);
}

/* The text that is wanted of hex, and its length. */
static size_t wanted_hex(struct color c, bool short_form, char *text)
{
    if (short_form && doubled(c.red) && doubled(c.green) && doubled(c.blue) && doubled(c.alpha))
        return (size_t)(c.alpha == 255 ? sprintf(text, "#%x%x%x", c.red & 15, c.green & 15, c.blue & 15)
                                       : sprintf(text, "#%x%x%x%x", c.red & 15, c.green & 15, c.blue & 15, c.alpha & 15));
    return (size_t)(c.alpha == 255 ? sprintf(text, "#%02x%02x%02x", c.red, c.green, c.blue)
                                   : sprintf(text, "#%02x%02x%02x%02x", c.red, c.green, c.blue, c.alpha));
}

/* Holds an answer, and what was lent with it, to the text that is wanted; none is wanted where it is null. */
static void hold(const char *what, struct color c, size_t size, const uint8_t *lent, const struct homeludaf_answer *a, const char *text, size_t length)
{
    uint64_t code = !text ? HOMELUDAF_NO_KEYWORD : size < length ? HOMELUDAF_BUFFER_TOO_SHORT : HOMELUDAF_OK;
    size_t count = code == HOMELUDAF_OK ? length : 0;
    bool good = a->code == code && a->result.written == count && (count == 0 || memcmp(lent, text, count) == 0);
    for (size_t i = count; i < ROOM; i++)
        good = good && lent[i] == MARK;
    if (!good || (count != 0 && !reads_as(lent, count, c)))
        differs(what, c, size);
    written += count != 0;
}

static void try_forms(struct color c, size_t size)
{
    struct homeludaf_answer a;
    uint8_t lent[ROOM];
    char text[ROOM];
    for (int form = 0; form < 2; form++) {
        size_t length = wanted_hex(c, form == 1, text);
        memset(lent, MARK, sizeof lent);
        homeludaf_hex(c.red, c.green, c.blue, c.alpha, form == 1, lent, size, &a);
        hold(form == 1 ? "short hex" : "hex", c, size, lent, &a, text, length);
    }
    const char *name = c.alpha == 255 && first[opaque_number(c)] != 0 ? names[first[opaque_number(c)] - 1] : NULL;
    memset(lent, MARK, sizeof lent);
    homeludaf_keyword(c.red, c.green, c.blue, c.alpha, lent, size, &a);
    hold("keyword", c, size, lent, &a, name, name ? strlen(name) : 0);
}

/* Opaque colour n, and colour n of those that are not: the first of these have doubled channels, all that there are. */
static struct color opaque(uint32_t n)
{
    return (struct color){ (uint8_t)(n >> 16), (uint8_t)(n >> 8), (uint8_t)n, 255 };
}

static struct color other(uint32_t n)
{
    if (n < 15 << 12)
        return (struct color){ (uint8_t)((n >> 8 & 15) * 17), (uint8_t)((n >> 4 & 15) * 17), (uint8_t)((n & 15) * 17), (uint8_t)((n >> 12) * 17) };
    uint32_t mixed = n * UINT32_C(2654435761);
    return (struct color){ (uint8_t)(mixed >> 24), (uint8_t)(mixed >> 16), (uint8_t)(mixed >> 8), (uint8_t)(n % 255) };
}

static struct color named(size_t i)
{
    struct homeludaf_answer a;
    homeludaf_color((const uint8_t *)names[i], strlen(names[i]), &a);
    if (a.code != HOMELUDAF_OK)
        printf("differs: %s is no colour\n", names[i]), failed++;
    return (struct color){ (uint8_t)a.result.color.red, (uint8_t)a.result.color.green, (uint8_t)a.result.color.blue, (uint8_t)a.result.color.alpha };
}

int main(void)
{
    const char *size = getenv("HOMELUDAF_BACK");
    const uint32_t stride = size && strcmp(size, "all") == 0 ? 1 : STRIDE;
    unsigned long opaques = 0, others = 0;
    for (size_t i = NAMES; i-- > 0;)
        first[opaque_number(named(i))] = (uint8_t)(i + 1);
    for (size_t n = 0; n <= ROOM; n++) {
        for (size_t i = 0; i < NAMES; i++)
            try_forms(named(i), n);
        for (uint32_t i = 0; i < OTHERS; i += 4099)
            try_forms(other(i), n);
    }
    for (uint32_t i = 0; i < OPAQUE; i += stride, opaques++)
        try_forms(opaque(i), ROOM);
    for (uint32_t i = 0; i < OTHERS; i += stride, others++)
        try_forms(other(i), ROOM);
    printf("%lu opaque colours and %lu others, %d keywords in 0 to %d bytes: %lu texts read back, %lu different\n", opaques, others, (int)NAMES, (int)ROOM,
           written, failed);
    return failed != 0;
}
