/* Homeludaf's C boundary: SVG colours, lengths, angles, links, paints and filter values, read by proved code; colours written by it, too.
 *
 * A text is a pointer, which is not null, and its length in bytes; it needs no end mark and no promise: one that is too long or not UTF-8 is refused.
 * Each call fills whole answers, 24 numbers of 64 bits each; two give a value as one number and fill an answer for a refusal alone. The layouts are those
 * of crates/records/specs/Records.antt, crates/counts/specs/Counts.antt and crates/packed/specs/Numbers.antt, which the proofs cite.
 * Places and parts are counted in bytes of the text, positions in characters from 1. What an answer does not use is 0.
 *
 * A refusal tells a stretch besides its position: the bytes from the place `from` up to, and not with, the place `to`. They count from where the position
 * counts: in a paint from the first byte that trimming leaves, in a fallback from the fallback's first. By the refusal's code:
 *
 *     1, 3, 16, 17    none: both are 0, as for a value
 *     2               empty at its place in the text that was lent, of a paint too
 *     4               empty at the end of the text
 *     5               empty where reading stopped, as after the word, the hex digits or the link; in a paint, where its colour or its link was refused
 *     6               from the position to the end of the text
 *     7               the byte found, though it may be the first of a longer character
 *     8               the part found
 *     9, 18, 22       empty at the position
 *     10              from the number's first byte to the first that its form cannot take, or to the end of the text
 *     11 to 15        from the first byte of the filter's name to where reading stopped
 *     23, 24          all of the number
 *
 * A length's and an angle's own calls tell how the number was written. `whole` is 1 where neither a dot nor an exponent was (`12`, `-0`, `1em`), else 0
 * (`12.0`, `1e0`); `end` is the place after its last byte, before the unit: 2 for `12px` and `12%`. The lengths and angles of filter values have neither.
 */
#ifndef HOMELUDAF_H
#define HOMELUDAF_H

#include <stdbool.h>
#include <stddef.h>
#include <stdint.h>
#include <string.h>

#ifdef __cplusplus
extern "C" {
#endif

/* why there is no result */
enum homeludaf_code {
    HOMELUDAF_OK = 0,
    HOMELUDAF_TEXT_TOO_LONG = 1,           /* over 4,096 bytes */
    HOMELUDAF_NOT_UTF8 = 2,                /* tells the place of the first ill-formed sequence */
    HOMELUDAF_BAD_LIST_PLACE = 3,          /* past the end, or inside a character */
    HOMELUDAF_UNEXPECTED_END = 4,
    HOMELUDAF_INVALID_VALUE = 5,
    HOMELUDAF_UNEXPECTED_DATA = 6,
    HOMELUDAF_INVALID_CHAR = 7,            /* tells the byte found and the byte wanted */
    HOMELUDAF_INVALID_STRING = 8,          /* tells the part found */
    HOMELUDAF_INVALID_NUMBER = 9,          /* another byte stands where a number is to start */
    HOMELUDAF_NUMBER_OUTSIDE_DOMAIN = 10,  /* does not keep to the form; 23 and 24 are outside the domain, too */
    HOMELUDAF_PERCENTAGE_VALUE = 11,
    HOMELUDAF_NEGATIVE_VALUE = 12,
    HOMELUDAF_INVALID_ANGLE = 13,
    HOMELUDAF_MISSING_SHADOW_OFFSET = 14,
    HOMELUDAF_INVALID_URL = 15,
    HOMELUDAF_BUFFER_TOO_SHORT = 16,       /* what is lent has no room for the text */
    HOMELUDAF_NO_KEYWORD = 17,             /* no keyword has the colour, or it is not opaque */
    HOMELUDAF_NOT_STRICT = 18,             /* a colour, but not as the house rules write one */
    HOMELUDAF_NUMBER_ENDED = 22,           /* the text has ended where a number is to start */
    HOMELUDAF_NUMBER_TOO_LARGE = 23,       /* its digits, joined, make more than 9,007,199,254,740,991 */
    HOMELUDAF_NUMBER_SCALE = 24            /* its exponent less its fraction digits lies outside -22 to 22 */
};

/* a step of a list */
enum homeludaf_state {
    HOMELUDAF_STATE_VALUE = 0,
    HOMELUDAF_STATE_END = 1,
    HOMELUDAF_STATE_NONE = 2,              /* the end, by the word `none` */
    HOMELUDAF_STATE_REFUSED = 3
};

enum homeludaf_length_unit {
    HOMELUDAF_UNIT_NONE = 0,
    HOMELUDAF_UNIT_EM = 1,
    HOMELUDAF_UNIT_EX = 2,
    HOMELUDAF_UNIT_PX = 3,
    HOMELUDAF_UNIT_IN = 4,
    HOMELUDAF_UNIT_CM = 5,
    HOMELUDAF_UNIT_MM = 6,
    HOMELUDAF_UNIT_PT = 7,
    HOMELUDAF_UNIT_PC = 8,
    HOMELUDAF_UNIT_PERCENT = 9
};

enum homeludaf_angle_unit {
    HOMELUDAF_ANGLE_DEGREES = 0,
    HOMELUDAF_ANGLE_GRADIANS = 1,
    HOMELUDAF_ANGLE_RADIANS = 2,
    HOMELUDAF_ANGLE_TURNS = 3
};

enum homeludaf_paint_kind {
    HOMELUDAF_PAINT_NONE = 1,
    HOMELUDAF_PAINT_INHERIT = 2,
    HOMELUDAF_PAINT_CURRENT_COLOR = 3,
    HOMELUDAF_PAINT_CONTEXT_FILL = 4,
    HOMELUDAF_PAINT_CONTEXT_STROKE = 5,
    HOMELUDAF_PAINT_COLOR = 6,
    HOMELUDAF_PAINT_LINK = 7
};

enum homeludaf_fallback {
    HOMELUDAF_FALLBACK_ABSENT = 0,
    HOMELUDAF_FALLBACK_NONE = 1,
    HOMELUDAF_FALLBACK_CURRENT_COLOR = 2,
    HOMELUDAF_FALLBACK_COLOR = 3
};

enum homeludaf_whose {
    HOMELUDAF_WHOSE_OWN = 1,
    HOMELUDAF_WHOSE_PARENT = 2,
    HOMELUDAF_WHOSE_HIGHER = 3             /* neither text tells: ask higher up */
};

enum homeludaf_filter_kind {
    HOMELUDAF_FILTER_BLUR = 1,
    HOMELUDAF_FILTER_DROP_SHADOW = 2,
    HOMELUDAF_FILTER_BRIGHTNESS = 3,
    HOMELUDAF_FILTER_CONTRAST = 4,
    HOMELUDAF_FILTER_GRAYSCALE = 5,
    HOMELUDAF_FILTER_HUE_ROTATE = 6,
    HOMELUDAF_FILTER_INVERT = 7,
    HOMELUDAF_FILTER_OPACITY = 8,
    HOMELUDAF_FILTER_SEPIA = 9,
    HOMELUDAF_FILTER_SATURATE = 10,
    HOMELUDAF_FILTER_URL = 11
};

struct homeludaf_rgba { uint64_t red, green, blue, alpha; };
struct homeludaf_number { uint64_t bits, unit; };      /* homeludaf_double(bits), and a length's or an angle's unit */
struct homeludaf_part { uint64_t start, length; };

struct homeludaf_answer {
    uint64_t code;                                     /*  0 enum homeludaf_code */
    uint64_t position;                                 /*  1 */
    uint64_t place;                                    /*  2 */
    uint64_t found;                                    /*  3 */
    uint64_t wanted;                                   /*  4 */
    struct homeludaf_part part;                        /*  5,  6 */
    uint64_t state;                                    /*  7 enum homeludaf_state */
    uint64_t list_place;                               /*  8 where the next step goes on */
    union {                                            /*  9 .. 20 */
        uint64_t entries[12];
        struct homeludaf_rgba color;
        struct { uint64_t bits, unit, whole, end; } length;
        struct { struct homeludaf_number given; uint64_t degrees_bits, whole, end; } angle;
        struct homeludaf_part link;
        uint64_t written;                              /* bytes, of a colour that was set back */
        struct { uint64_t kind; struct homeludaf_part link; uint64_t fallback; struct homeludaf_rgba color; } paint;
        struct { uint64_t whose; struct homeludaf_part part; } inherited;      /* enum homeludaf_whose, of a refusal too */
        struct {
            uint64_t kind;                             /* enum homeludaf_filter_kind */
            union {
                struct homeludaf_number blur;
                struct homeludaf_number hue_rotate;
                uint64_t number_bits;                  /* the seven plain functions */
                struct homeludaf_part url;
                struct { struct homeludaf_number dx, dy, deviation; uint64_t colored; struct homeludaf_rgba color; } shadow;
            } value;
        } filter;
    } result;
    uint64_t from;                                     /* 21 where the refused stretch starts */
    uint64_t to;                                       /* 22 where it ends */
    uint64_t spare;                                    /* 23 always 0 */
};

enum { HOMELUDAF_ENTRIES = 24 };                       /* the numbers of an answer */

/* A colour's or a paint's value as one number, which is never 0. Its kind is an enum homeludaf_paint_kind; a colour has HOMELUDAF_PAINT_COLOR.
 * A colour, or a paint that is one, has red to alpha; a link its part and its fallback, and red to alpha where that is a colour. */
#define HOMELUDAF_PACKED_BITS(v, from, count) (((uint64_t)(v) >> (from)) & ((UINT64_C(1) << (count)) - 1))
#define HOMELUDAF_PACKED_KIND(v) HOMELUDAF_PACKED_BITS(v, 0, 3)
#define HOMELUDAF_PACKED_LINK_START(v) HOMELUDAF_PACKED_BITS(v, 3, 13)
#define HOMELUDAF_PACKED_LINK_LENGTH(v) HOMELUDAF_PACKED_BITS(v, 16, 13)
#define HOMELUDAF_PACKED_FALLBACK(v) HOMELUDAF_PACKED_BITS(v, 29, 2)
#define HOMELUDAF_PACKED_RED(v) HOMELUDAF_PACKED_BITS(v, 31, 8)
#define HOMELUDAF_PACKED_GREEN(v) HOMELUDAF_PACKED_BITS(v, 39, 8)
#define HOMELUDAF_PACKED_BLUE(v) HOMELUDAF_PACKED_BITS(v, 47, 8)
#define HOMELUDAF_PACKED_ALPHA(v) HOMELUDAF_PACKED_BITS(v, 55, 8)

/* what a call that hands out many answers tells of them */
struct homeludaf_told {
    uint64_t count;                                    /* how many answers were written */
    uint64_t list_place;                               /* where to go on: the last answer's list place, or the place that was given where there is none */
};

static inline double homeludaf_double(uint64_t bits)
{
    double x;
    memcpy(&x, &bits, sizeof x);
    return x;
}

void homeludaf_color(const uint8_t *text, size_t length, struct homeludaf_answer *answer);
void homeludaf_length(const uint8_t *text, size_t length, struct homeludaf_answer *answer);
void homeludaf_length_next(const uint8_t *text, size_t length, size_t place, struct homeludaf_answer *answer);
void homeludaf_angle(const uint8_t *text, size_t length, struct homeludaf_answer *answer);
void homeludaf_iri(const uint8_t *text, size_t length, struct homeludaf_answer *answer);
void homeludaf_func_iri(const uint8_t *text, size_t length, struct homeludaf_answer *answer);
void homeludaf_paint(const uint8_t *text, size_t length, struct homeludaf_answer *answer);
void homeludaf_filter_next(const uint8_t *text, size_t length, size_t place, struct homeludaf_answer *answer);

/* A colour by the house rules for new artwork, which is as CSS Color 3 writes it: `#` and three or six hex digits; rgb() of three whole numbers or three
 * percentages; hsl() of a number and two percentages; rgba() and hsla() with a number for alpha besides, always; the 147 keywords and `transparent`. Letter case
 * is ignored. One comma stands between values; spaces may stand around values and around the whole. Numbers have no exponent, and are clipped, not refused,
 * outside their range. A text that homeludaf_color refuses is refused by that code and with all that it tells. One that it reads has the same channels
 * here, or, where it is not written so, the code 18 and the position of the first character, or of the end, at which no such text, however long, can go on. */
void homeludaf_strict(const uint8_t *text, size_t length, struct homeludaf_answer *answer);

/* What the program swatch reads. The first line is the input up to a line feed, or all of it. If it is `read=loose` or `read=strict`, to the letter and
 * without a return, the text is the next line, the empty one where there is none, by homeludaf_color or homeludaf_strict. Any other first line is the text, by
 * homeludaf_strict: another word after `read=` is 5. Positions, places and the limit count in the text's own line, and no line after it is looked at. */
void homeludaf_asked(const uint8_t *input, size_t length, struct homeludaf_answer *answer);

/* Whose text paints an element, its own or its parent's, and which part of it: all that trimming leaves. An own text that is empty after trimming, as that of an
 * attribute that is not there, or that reads `inherit`, chooses the parent's; a parent's that is not chosen is not looked at. A chosen parent's text that
 * is itself empty or `inherit` gives HOMELUDAF_WHOSE_HIGHER and an empty part: ask again with an empty own text and with the next ancestor's as the parent's.
 * Any other text that is judged and is no paint is refused as by homeludaf_paint, and `whose` tells which it is. */
void homeludaf_inherited(const uint8_t *own, size_t own_length, const uint8_t *parent, size_t parent_length, struct homeludaf_answer *answer);

/* A colour as text, written to the front of `out`, which is not null and lends `length` bytes. As many as the text has are enough; those behind it stay, and
 * a refusal, 16 or 17, writes none. What is written reads back as the colour by homeludaf_color. At most 9 bytes of hex digits, and 20 of a keyword.
 * Hex is `#` and two small digits for each channel, with `short_form` one digit where each channel, alpha too, is one digit twice; an alpha of 255 is left out.
 * The keyword is the first in the alphabet that has the channels, for an alpha of 255 alone; where there is none it is 17, however few bytes are lent. */
void homeludaf_hex(uint8_t red, uint8_t green, uint8_t blue, uint8_t alpha, bool short_form, uint8_t *out, size_t length, struct homeludaf_answer *answer);
void homeludaf_keyword(uint8_t red, uint8_t green, uint8_t blue, uint8_t alpha, uint8_t *out, size_t length, struct homeludaf_answer *answer);

/* A colour or a paint as one number. A value is the number, and `answer` stays as it came. A refusal is 0, and fills `answer` as homeludaf_color or
 * homeludaf_paint would. */
uint64_t homeludaf_color_packed(const uint8_t *text, size_t length, struct homeludaf_answer *answer);
uint64_t homeludaf_paint_packed(const uint8_t *text, size_t length, struct homeludaf_answer *answer);

/* Many steps of a list at once, with one test of the text: the answers of the single steps, each from the list place of the one before it, up to and with the
 * first whose state is not HOMELUDAF_STATE_VALUE, as many as fit. `entries` counts the numbers lent, HOMELUDAF_ENTRIES for each answer; those behind the last
 * answer stay as they were. `answers` is not null even where `entries` is 0, and `told` lies outside it.
 * Of filter values, room for length / 6 + 1 answers always reaches the end of the text, or its refusal: 683 answers at 4,096 bytes. */
void homeludaf_length_all(const uint8_t *text, size_t length, size_t place, struct homeludaf_answer *answers, size_t entries, struct homeludaf_told *told);
void homeludaf_filter_all(const uint8_t *text, size_t length, size_t place, struct homeludaf_answer *answers, size_t entries, struct homeludaf_told *told);

#ifdef __cplusplus
}
#endif

#endif
