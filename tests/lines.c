/* Answers cases over the archive, by the line protocol of the runs (docs/RUNS.md): one case a line in, one answer a line out.
 *
 *     lines base        the cases of the program `replay`, with the same answers: 9 for 22, 10 for 23 and 24
 *     lines             these with every refusal's own number and its stretch and with how a length's and an angle's number was written, and
 *                       the strict reading, the program `swatch` and the writers of colours (document 02)
 *
 * A case is a call and its operands, one space between: a text is its bytes, two lower-case hex digits each, `-` for none; a number is decimal.
 * A line that is no case gets the answer `?` alone. */
#include <inttypes.h>
#include <stdbool.h>
#include <stdio.h>
#include <stdlib.h>
#include "homeludaf.h"

_Static_assert(SIZE_MAX == UINT64_MAX, "the calls take every list place of the protocol");

/* bytes of the line that is answered: a field, or the text that it stands for */
struct bytes {
    uint8_t *at;
    size_t length;
};

enum { LENT = 4096 };                                   /* the most bytes that a case lends */

struct operands {
    uint64_t place;
    struct bytes texts[2];
    uint64_t flag;
    uint64_t size;                                     /* of the bytes that are lent */
    uint64_t channels[4];
};

struct call {
    const char *name;
    const char *takes;                                 /* its operands: p a list place, t a text, f a flag, s a size, c a channel */
    void (*answer)(const struct operands *);
};

static bool base;                                      /* whether it speaks as `replay` does */

#define NAMED(names, n) named(names, sizeof (names) / sizeof (names)[0], n)

/* The name of a number; `!` for a number that the header does not list. */
static const char *named(const char *const *names, size_t count, uint64_t n)
{
    return n < count ? names[n] : "!";
}

static const char *const states[] = { "value", "end", "end", "refused" };
static const char *const length_units[] = { "none", "em", "ex", "px", "in", "cm", "mm", "pt", "pc", "%" };
static const char *const angle_units[] = { "deg", "grad", "rad", "turn" };
static const char *const paint_kinds[] = { "-", "none", "inherit", "currentColor", "context-fill", "context-stroke", "color", "url" };
static const char *const fallbacks[] = { "-", "none", "currentColor", "color" };
static const char *const owners[] = { "!", "own", "parent", "higher" };
static const char *const filter_kinds[] = { "!", "blur", "drop-shadow", "brightness", "contrast", "grayscale", "hue-rotate", "invert", "opacity", "sepia", "saturate", "url" };

/* A record that shows which of its entries a call has not filled. */
static struct homeludaf_answer unfilled(void)
{
    struct homeludaf_answer a;
    memset(&a, 0xee, sizeof a);
    return a;
}

static void put_number(uint64_t n)
{
    printf(" %" PRIu64, n);
}

static void put_word(const char *word)
{
    printf(" %s", word);
}

static void put_bits(uint64_t bits)
{
    printf(" %016" PRIx64, bits);
}

static void put_bytes(const uint8_t *at, size_t length)
{
    put_word(length == 0 ? "-" : "");
    for (size_t i = 0; i < length; i++)
        printf("%02x", at[i]);
}

/* The bytes of a part of a text; `!` where the text has no such part. */
static void put_part_bytes(struct bytes text, struct homeludaf_part part)
{
    if (text.length < part.start || text.length - part.start < part.length)
        put_word("!");
    else
        put_bytes(text.at + part.start, part.length);
}

static void put_part(struct homeludaf_part part)
{
    put_number(part.start);
    put_number(part.length);
}

/* A refusal's number; document 01, by which `replay` speaks, splits neither 9 nor 10. */
static uint64_t told_number(uint64_t code)
{
    if (!base)
        return code;
    switch (code) {
    case HOMELUDAF_NUMBER_ENDED:
        return HOMELUDAF_INVALID_NUMBER;
    case HOMELUDAF_NUMBER_TOO_LARGE:
    case HOMELUDAF_NUMBER_SCALE:
        return HOMELUDAF_NUMBER_OUTSIDE_DOMAIN;
    default:
        return code;
    }
}

/* What every answer of a reader begins with: the refusal, whose part lies in `text`. */
static void put_refusal(const struct homeludaf_answer *a, struct bytes text)
{
    printf("%" PRIu64, told_number(a->code));
    put_number(a->position);
    put_number(a->place);
    put_number(a->found);
    put_number(a->wanted);
    put_part_bytes(text, a->part);
    if (!base) {
        put_number(a->from);
        put_number(a->to);
    }
}

static void put_step(const struct homeludaf_answer *a)
{
    put_word(NAMED(states, a->state));
    put_number(a->list_place);
}

static void put_channels(struct homeludaf_rgba c)
{
    put_number(c.red);
    put_number(c.green);
    put_number(c.blue);
    put_number(c.alpha);
}

static void put_length(struct homeludaf_number length)
{
    put_bits(length.bits);
    put_word(NAMED(length_units, length.unit));
}

static void put_angle(struct homeludaf_number angle)
{
    put_bits(angle.bits);
    put_word(NAMED(angle_units, angle.unit));
}

/* How a number was written, which document 01 does not ask of it. */
static void put_written(uint64_t whole, uint64_t end)
{
    if (!base) {
        put_number(whole);
        put_number(end);
    }
}

/* A length that is no part of a filter value. */
static void put_own_length(const struct homeludaf_answer *a)
{
    put_length((struct homeludaf_number){ a->result.length.bits, a->result.length.unit });
    put_written(a->result.length.whole, a->result.length.end);
}

static void answer_color(const struct operands *o)
{
    struct homeludaf_answer a = unfilled();
    homeludaf_color(o->texts[0].at, o->texts[0].length, &a);
    put_refusal(&a, o->texts[0]);
    put_channels(a.result.color);
}

static void answer_strict(const struct operands *o)
{
    struct homeludaf_answer a = unfilled();
    homeludaf_strict(o->texts[0].at, o->texts[0].length, &a);
    put_refusal(&a, o->texts[0]);
    put_channels(a.result.color);
}

/* What the program swatch prints, from the call that it is made of. */
static void answer_swatch(const struct operands *o)
{
    char out[80];
    struct homeludaf_answer a = unfilled();
    homeludaf_asked(o->texts[0].at, o->texts[0].length, &a);
    const struct homeludaf_rgba c = a.result.color;
    snprintf(out, sizeof out, "code=%" PRIu64 "\nat=%" PRIu64 "\nrgba=%" PRIu64 ",%" PRIu64 ",%" PRIu64 ",%" PRIu64 "\n", a.code,
             a.code == HOMELUDAF_NOT_UTF8 ? a.place : a.position, c.red, c.green, c.blue, c.alpha);
    for (const char *at = out; *at; at++)
        printf("%02x", (unsigned)*at);
}

static void answer_length(const struct operands *o)
{
    struct homeludaf_answer a = unfilled();
    homeludaf_length(o->texts[0].at, o->texts[0].length, &a);
    put_refusal(&a, o->texts[0]);
    put_own_length(&a);
}

static void answer_lengths(const struct operands *o)
{
    struct homeludaf_answer a = unfilled();
    homeludaf_length_next(o->texts[0].at, o->texts[0].length, o->place, &a);
    put_refusal(&a, o->texts[0]);
    put_step(&a);
    put_own_length(&a);
}

static void answer_angle(const struct operands *o)
{
    struct homeludaf_answer a = unfilled();
    homeludaf_angle(o->texts[0].at, o->texts[0].length, &a);
    put_refusal(&a, o->texts[0]);
    put_angle(a.result.angle.given);
    put_bits(a.result.angle.degrees_bits);
    put_written(a.result.angle.whole, a.result.angle.end);
}

static void put_link(const struct homeludaf_answer *a, struct bytes text)
{
    put_refusal(a, text);
    put_part(a->result.link);
    put_part_bytes(text, a->result.link);
}

static void answer_iri(const struct operands *o)
{
    struct homeludaf_answer a = unfilled();
    homeludaf_iri(o->texts[0].at, o->texts[0].length, &a);
    put_link(&a, o->texts[0]);
}

static void answer_func_iri(const struct operands *o)
{
    struct homeludaf_answer a = unfilled();
    homeludaf_func_iri(o->texts[0].at, o->texts[0].length, &a);
    put_link(&a, o->texts[0]);
}

static void answer_paint(const struct operands *o)
{
    struct homeludaf_answer a = unfilled();
    homeludaf_paint(o->texts[0].at, o->texts[0].length, &a);
    put_refusal(&a, o->texts[0]);
    put_word(NAMED(paint_kinds, a.result.paint.kind));
    put_part(a.result.paint.link);
    put_word(NAMED(fallbacks, a.result.paint.fallback));
    put_channels(a.result.paint.color);
}

static void answer_inherited(const struct operands *o)
{
    const struct bytes own = o->texts[0], parent = o->texts[1];
    struct homeludaf_answer a = unfilled();
    homeludaf_inherited(own.at, own.length, parent.at, parent.length, &a);
    const struct bytes text = a.result.inherited.whose == HOMELUDAF_WHOSE_PARENT ? parent : own;
    put_refusal(&a, text);
    put_word(NAMED(owners, a.result.inherited.whose));
    put_part(a.result.inherited.part);
    put_part_bytes(text, a.result.inherited.part);
}

static void put_shadow(const struct homeludaf_answer *a)
{
    const struct homeludaf_rgba c = a->result.filter.value.shadow.color;
    put_length(a->result.filter.value.shadow.dx);
    put_length(a->result.filter.value.shadow.dy);
    put_length(a->result.filter.value.shadow.deviation);
    if (a->result.filter.value.shadow.colored)
        printf(" %" PRIu64 ",%" PRIu64 ",%" PRIu64 ",%" PRIu64, c.red, c.green, c.blue, c.alpha);
    else
        put_word("-");
}

static void put_filter_value(const struct homeludaf_answer *a)
{
    put_word(NAMED(filter_kinds, a->result.filter.kind));
    switch (a->result.filter.kind) {
    case HOMELUDAF_FILTER_BLUR:
        put_length(a->result.filter.value.blur);
        break;
    case HOMELUDAF_FILTER_DROP_SHADOW:
        put_shadow(a);
        break;
    case HOMELUDAF_FILTER_HUE_ROTATE:
        put_angle(a->result.filter.value.hue_rotate);
        break;
    case HOMELUDAF_FILTER_URL:
        put_part(a->result.filter.value.url);
        break;
    default:
        put_bits(a->result.filter.value.number_bits);
    }
}

static void answer_filter(const struct operands *o)
{
    struct homeludaf_answer a = unfilled();
    homeludaf_filter_next(o->texts[0].at, o->texts[0].length, o->place, &a);
    put_refusal(&a, o->texts[0]);
    put_step(&a);
    if (a.state == HOMELUDAF_STATE_VALUE)
        put_filter_value(&a);
}

/* What is lent to a writer, with marks that show what it has not written. */
static uint8_t lent[LENT];

static void put_set_back(const struct homeludaf_answer *a, uint64_t size)
{
    printf("%" PRIu64, a->code);
    put_number(a->result.written);
    put_bytes(lent, size);
}

static void answer_hex(const struct operands *o)
{
    struct homeludaf_answer a = unfilled();
    memset(lent, 0xee, sizeof lent);
    homeludaf_hex((uint8_t)o->channels[0], (uint8_t)o->channels[1], (uint8_t)o->channels[2], (uint8_t)o->channels[3], o->flag != 0, lent, o->size, &a);
    put_set_back(&a, o->size);
}

static void answer_keyword(const struct operands *o)
{
    struct homeludaf_answer a = unfilled();
    memset(lent, 0xee, sizeof lent);
    homeludaf_keyword((uint8_t)o->channels[0], (uint8_t)o->channels[1], (uint8_t)o->channels[2], (uint8_t)o->channels[3], lent, o->size, &a);
    put_set_back(&a, o->size);
}

static const struct call base_calls[] = {
    { "color", "t", answer_color },
    { "length", "t", answer_length },
    { "lengths", "pt", answer_lengths },
    { "angle", "t", answer_angle },
    { "iri", "t", answer_iri },
    { "funciri", "t", answer_func_iri },
    { "paint", "t", answer_paint },
    { "inherit", "tt", answer_inherited },
    { "filter", "pt", answer_filter },
};

static const struct call later_calls[] = {
    { "strict", "t", answer_strict },
    { "swatch", "t", answer_swatch },
    { "hex", "fscccc", answer_hex },
    { "keyword", "scccc", answer_keyword },
};

/* Takes the bytes up to the next space, or all, off the front of what is left of a line. */
static struct bytes take_field(struct bytes *left)
{
    struct bytes field = *left;
    const uint8_t *space = memchr(left->at, ' ', left->length);
    if (space)
        field.length = (size_t)(space - left->at);
    left->at += field.length;
    left->length -= field.length;
    return field;
}

static bool take_space(struct bytes *left)
{
    if (left->length == 0 || left->at[0] != ' ')
        return false;
    left->at++;
    left->length--;
    return true;
}

/* A hex digit's value, -1 for another byte. */
static int digit_value(uint8_t b)
{
    if ('0' <= b && b <= '9')
        return b - '0';
    if ('a' <= b && b <= 'f')
        return b - 'a' + 10;
    return -1;
}

/* Turns a field into the text that it stands for, where it lies; whether it stands for one. */
static bool decode(struct bytes *field)
{
    if (field->length == 1 && field->at[0] == '-') {
        field->length = 0;
        return true;
    }
    if (field->length == 0 || field->length % 2 != 0)
        return false;
    for (size_t i = 0; i < field->length; i += 2) {
        int high = digit_value(field->at[i]), low = digit_value(field->at[i + 1]);
        if (high < 0 || low < 0)
            return false;
        field->at[i / 2] = (uint8_t)(high * 16 + low);
    }
    field->length /= 2;
    return true;
}

/* The number that a field stands for, and whether it stands for one: decimal digits, at most 2^64 - 1. */
static bool decimal(struct bytes field, uint64_t *n)
{
    *n = 0;
    for (size_t i = 0; i < field.length; i++) {
        if (field.at[i] < '0' || '9' < field.at[i])
            return false;
        uint64_t digit = (uint64_t)(field.at[i] - '0');
        if ((UINT64_MAX - digit) / 10 < *n)
            return false;
        *n = *n * 10 + digit;
    }
    return field.length != 0;
}

/* Likewise, of a number that is at most `most`. */
static bool at_most(struct bytes field, uint64_t most, uint64_t *n)
{
    return decimal(field, n) && *n <= most;
}

/* Where the operands of a kind that comes several times go. */
struct next {
    struct bytes *text;
    uint64_t *channel;
};

static bool take_operand(char kind, struct bytes field, struct operands *o, struct next *next)
{
    switch (kind) {
    case 'p':
        return decimal(field, &o->place);
    case 'f':
        return at_most(field, 1, &o->flag);
    case 's':
        return at_most(field, LENT, &o->size);
    case 'c':
        return at_most(field, 255, next->channel++);
    default:
        if (!decode(&field))
            return false;
        *next->text++ = field;
        return true;
    }
}

/* Takes a call's operands off what is left of its line; whether they are there, and nothing else. */
static bool take_operands(const char *takes, struct bytes left, struct operands *o)
{
    struct next next = { o->texts, o->channels };
    for (; *takes; takes++)
        if (!take_space(&left) || !take_operand(*takes, take_field(&left), o, &next))
            return false;
    return left.length == 0;
}

static const struct call *call_named(const struct call *calls, size_t count, struct bytes name)
{
    for (size_t i = 0; i < count; i++)
        if (strlen(calls[i].name) == name.length && memcmp(calls[i].name, name.at, name.length) == 0)
            return &calls[i];
    return NULL;
}

static void answer(struct bytes line, bool later)
{
    struct operands o;
    struct bytes name = take_field(&line);
    const struct call *call = call_named(base_calls, sizeof base_calls / sizeof base_calls[0], name);
    if (!call && later)
        call = call_named(later_calls, sizeof later_calls / sizeof later_calls[0], name);
    if (call && take_operands(call->takes, line, &o))
        call->answer(&o);
    else
        putchar('?');
    putchar('\n');
}

struct room {
    uint8_t *at;
    size_t length;
};

static void widen(struct room *room)
{
    room->length = room->length == 0 ? 65536 : room->length * 2;
    room->at = realloc(room->at, room->length);
    if (!room->at) {
        fputs("lines: no memory for a line\n", stderr);
        exit(1);
    }
}

/* Reads a line of any length, without its line feed; whether there was one. The last may lack the line feed. */
static bool read_line(struct room *room, struct bytes *line)
{
    size_t length = 0;
    int c;
    while ((c = getchar()) != EOF && c != '\n') {
        if (length == room->length)
            widen(room);
        room->at[length++] = (uint8_t)c;
    }
    *line = (struct bytes){ room->at, length };
    return c != EOF || length != 0;
}

int main(int argc, char **argv)
{
    base = argc == 2 && strcmp(argv[1], "base") == 0;
    if (argc != 1 && !base) {
        fputs("usage: lines [base] <CASES >ANSWERS\n", stderr);
        return 2;
    }
    struct room room = { NULL, 0 };
    struct bytes line;
    widen(&room);
    /* A program that waits for each answer gets it. */
    setvbuf(stdout, NULL, _IOLBF, BUFSIZ);
    while (read_line(&room, &line))
        answer(line, argc == 1);
    free(room.at);
    return ferror(stdin) || ferror(stdout) ? 1 : 0;
}
