/* A price as a salesperson reads it, with an edge by the metre, a basket of prices, a price calendar, and refusals, from a price book
 * that is made here by hand; and prices from a maker's own price file.
 *
 *   cc price.c $(pkg-config --cflags --libs rafttwine) -o price
 *
 * The bytes of books, questions and text books are in FORMAT.md, the calls in CALLS.md and in the header. A tool has its books from
 * the maker, packed; then it needs add_number, add_name and the question alone. */
#include <stdio.h>
#include <stdlib.h>
#include <string.h>

#include "rafttwine.h"

/* ---- Bytes, one behind the other ---- */

typedef struct packed {
    uint8_t bytes[1024];
    size_t length;
} packed;

static void fail(const char *why) {
    fprintf(stderr, "price: %s\n", why);
    exit(1);
}

static void add_byte(packed *to, unsigned byte) {
    if (to->length == sizeof to->bytes) fail("more is to be packed than there is room for");
    to->bytes[to->length++] = (uint8_t)byte;
}

/* A number of 1 to 7 bytes: big-endian, and below zero as two's complement. */
static void add_number(packed *to, int width, int64_t number) {
    int64_t limit = (int64_t)1 << (8 * width);
    if (number >= limit || number < -limit / 2) fail("a number does not fit its field");
    for (int shift = 8 * (width - 1); shift >= 0; shift -= 8) add_byte(to, (unsigned)((uint64_t)number >> shift & 255));
}

/* A byte with its length, and then its bytes, which are Latin-1. */
static void add_name(packed *to, const char *name, size_t most) {
    size_t length = strlen(name);
    if (length > most) fail("a name is too long for its field");
    add_byte(to, (unsigned)length);
    for (size_t at = 0; at < length; at++) {
        unsigned byte = (unsigned char)name[at];
        if (byte < 32 || (byte > 126 && byte < 160)) fail("a name has a byte that is no character of Latin-1");
        add_byte(to, byte);
    }
}

enum { PLAIN = 1, WITH_FACTORS = 2 };

/* A book, a question or a text book: its length, which is put in when it is known, and its version. */
static packed start(unsigned version) {
    packed whole;
    whole.length = 0;
    add_number(&whole, 4, 0);
    add_byte(&whole, version);
    return whole;
}

static void finish(packed *whole) {
    size_t length = whole->length;
    whole->length = 0;
    add_number(whole, 4, (int64_t)length);
    whole->length = length;
}

/* A record of a book: the length of what follows, likewise, and its kind. */
static size_t start_record(packed *book, unsigned kind) {
    size_t place = book->length;
    add_number(book, 2, 0);
    add_byte(book, kind);
    return place;
}

static void finish_record(packed *book, size_t place) {
    size_t length = book->length;
    book->length = place;
    add_number(book, 2, (int64_t)(length - place - 2));
    book->length = length;
}

/* ---- A price book, a text book, a question ---- */

enum { ARTICLE = 1, PRICE = 2, OF_BASE = 1, OF_TOTAL_SO_FAR = 2, TABLE = 1, OAK = 2, EDGE = 3, DISCOUNT = 4 };

/* A fixed value is in cents, any other in hundredths of a percent. A discount is below zero. */
typedef struct price_row {
    char level;            /* 'B' base price, 'X' surcharge, 'D' discount */
    const char *condition; /* in capitals, as granted names are raised to capitals and these are not; "" for always */
    int rule, text, fixed;
    int32_t value;
    uint32_t from, to; /* the first day and the last, on which it still holds */
} price_row;

static void add_article(packed *book, const char *number) {
    size_t place = start_record(book, ARTICLE);
    add_name(book, number, 40);
    add_name(book, "", 20); /* no scheme: its order number is its number */
    finish_record(book, place);
}

static void add_price(packed *book, const char *article, const price_row *row) {
    size_t place = start_record(book, PRICE);
    add_name(book, article, 40);
    add_name(book, row->condition, 20);
    add_byte(book, 'S'); /* a sale price */
    add_byte(book, (unsigned)row->level);
    add_byte(book, (unsigned)row->rule);
    add_number(book, 4, row->text);
    add_byte(book, (unsigned)row->fixed);
    add_number(book, 4, row->value);
    add_byte(book, 'E');
    add_byte(book, 'U');
    add_byte(book, 'R');
    add_number(book, 4, row->from);
    add_number(book, 4, row->to);
    add_number(book, 4, 0); /* for any quantity */
    add_number(book, 2, 0); /* rounded to the cent */
    finish_record(book, place);
}

static packed price_book(void) {
    static const price_row rows[] = {
        {'B', "", OF_BASE, TABLE, 1, 10000, 20240101, 20240630},
        {'B', "", OF_BASE, TABLE, 1, 10500, 20240701, 20241231},
        {'X', "OAK", OF_BASE, OAK, 0, 1250, 20240101, 20241231},
        {'X', "EDGE", OF_BASE, EDGE, 1, 695, 20240101, 20241231},
        {'D', "", OF_TOTAL_SO_FAR, DISCOUNT, 0, -333, 20240101, 20241231},
    };
    packed book = start(PLAIN);
    add_article(&book, "A1");
    for (size_t at = 0; at < sizeof rows / sizeof *rows; at++) add_price(&book, "A1", &rows[at]);
    finish(&book);
    return book;
}

static void add_text(packed *texts, int number, const char *text) {
    add_number(texts, 4, number);
    add_number(texts, 2, (int64_t)strlen(text));
    while (*text) add_byte(texts, (unsigned char)*text++);
}

/* The discount has no text here, as happens in life. */
static packed text_book(void) {
    packed texts = start(PLAIN);
    add_text(&texts, TABLE, "Table");
    add_text(&texts, OAK, "Top in oak");
    add_text(&texts, EDGE, "Edge, a metre");
    finish(&texts);
    return texts;
}

/* A condition that the planned piece grants, and how many times it counts, in thousandths: the edge runs along 4.8 metres. Where everything
 * counts once, a question of version 1 is enough, which has the names alone. */
typedef struct condition {
    const char *name;
    int factor;
} condition;

static const condition granted[] = {{"oak", RAFTTWINE_FACTOR_ONE}, {"edge", 4800}, {"castor", RAFTTWINE_FACTOR_ONE}};
enum { GRANTED = sizeof granted / sizeof *granted };

static packed question(const char *article, uint32_t day, int quantity) {
    packed asked = start(WITH_FACTORS);
    add_name(&asked, article, 40);
    add_byte(&asked, 'S');
    add_number(&asked, 3, 0); /* in any currency */
    add_number(&asked, 4, day);
    add_number(&asked, 4, quantity);
    add_byte(&asked, GRANTED);
    for (int at = 0; at < GRANTED; at++) {
        add_name(&asked, granted[at].name, 20);
        add_number(&asked, 2, granted[at].factor);
    }
    add_byte(&asked, 0); /* no properties, which only order numbers need */
    finish(&asked);
    return asked;
}

/* ---- What is printed ---- */

static int64_t number_at(const uint8_t *bytes, int width) {
    uint64_t number = 0;
    for (int at = 0; at < width; at++) number = number << 8 | bytes[at];
    return (int64_t)number; /* of 8 bytes, two's complements come out below zero */
}

static void print_amount(const char *what, int64_t cents, const uint8_t *currency) {
    uint64_t size = cents < 0 ? 0 - (uint64_t)cents : (uint64_t)cents;
    char amount[32];
    snprintf(amount, sizeof amount, "%s%lu.%02lu", cents < 0 ? "-" : "", (unsigned long)(size / 100), (unsigned long)(size % 100));
    printf("  %-24s %10s %.3s\n", what, amount, (const char *)currency);
}

/* The fields of a line stand as the header lists them. A factor is in the amount already. */
static void print_line(const packed *texts, const uint8_t *line, const uint8_t *currency) {
    uint32_t number = (uint32_t)number_at(line, 4);
    unsigned factor = (unsigned)number_at(line + 14, 2);
    char what[64], times[16] = "";
    rafttwine_text_answer text = rafttwine_text(texts->bytes, texts->length, texts->bytes, texts->length, number);
    if (factor != RAFTTWINE_FACTOR_ONE) snprintf(times, sizeof times, " x %u.%03u", factor / 1000, factor % 1000);
    if (text.number == RAFTTWINE_DONE)
        snprintf(what, sizeof what, "%.*s%s", (int)text.length, (const char *)texts->bytes + text.place, times);
    else
        snprintf(what, sizeof what, "Text %lu%s", (unsigned long)number, times);
    print_amount(what, number_at(line + 6, 8), currency);
}

static void print_price(const packed *book, const packed *texts, const packed *asked) {
    uint8_t lines[RAFTTWINE_MOST_PRICE_BYTES];
    rafttwine_price_answer price =
        rafttwine_price(book->bytes, book->length, asked->bytes, asked->length, lines, sizeof lines);
    if (price.number != RAFTTWINE_DONE) {
        printf("  No price: %s\n", rafttwine_refusal_text(price.number));
        return;
    }
    for (uint64_t at = 0; at < price.lines; at++) print_line(texts, lines + at * RAFTTWINE_LINE_BYTES, price.currency);
    print_amount("One piece", price.unit, price.currency);
    print_amount("All pieces", price.total, price.currency);
    for (int at = 0; at < GRANTED; at++)
        if (price.unused >> at & 1) printf("  No price line for %s\n", granted[at].name);
}

/* One answer of a basket: its fields stand as the header lists them. Returns where the next question's lines start. */
static const uint8_t *print_answer(const packed *texts, const uint8_t *answer, const uint8_t *lines) {
    const uint8_t *currency = answer + 17;
    int64_t count = number_at(answer + 20, 8);
    if (answer[0] != RAFTTWINE_DONE) printf("  No price: %s\n", rafttwine_refusal_text(answer[0]));
    for (int64_t at = 0; at < count; at++, lines += RAFTTWINE_LINE_BYTES) print_line(texts, lines, currency);
    if (answer[0] == RAFTTWINE_DONE) print_amount("All pieces", number_at(answer + 9, 8), currency);
    return lines;
}

static void print_basket(const packed *book, const packed *texts, const packed *asked, size_t count) {
    static uint8_t out[RAFTTWINE_MOST_BASKET_BYTES];
    packed questions;
    questions.length = 0;
    for (size_t at = 0; at < count; at++)
        for (size_t byte = 0; byte < asked[at].length; byte++) add_byte(&questions, asked[at].bytes[byte]);
    rafttwine_written found =
        rafttwine_basket(book->bytes, book->length, questions.bytes, questions.length, out, sizeof out);
    if (found.number != RAFTTWINE_DONE) {
        printf("  No prices: %s\n", rafttwine_refusal_text(found.number));
        return;
    }
    const uint8_t *lines = out + count * RAFTTWINE_ANSWER_BYTES;
    for (size_t at = 0; at < count; at++) lines = print_answer(texts, out + at * RAFTTWINE_ANSWER_BYTES, lines);
}

static void print_calendar(const packed *book, const packed *asked, uint32_t end) {
    static rafttwine_stretch stretches[RAFTTWINE_MOST_STRETCHES];
    rafttwine_calendar_answer found = rafttwine_calendar_list(book->bytes, book->length, asked->bytes, asked->length, end,
                                                              stretches, RAFTTWINE_MOST_STRETCHES);
    if (found.number != RAFTTWINE_DONE) {
        printf("  No calendar: %s\n", rafttwine_refusal_text(found.number));
        return;
    }
    for (uint64_t at = 0; at < found.length; at++) {
        const rafttwine_stretch *one = &stretches[at];
        char days[32];
        snprintf(days, sizeof days, "%lu to %lu", (unsigned long)one->first, (unsigned long)one->last);
        if (one->refusal == RAFTTWINE_DONE)
            print_amount(days, one->unit, one->currency);
        else
            printf("  %s, no price: %s\n", days, rafttwine_refusal_text(one->refusal));
    }
}

/* A book of a maker's own price file, which has no article records: they stand in front. Reports a bad line, and then returns false. */
static int read_file(packed *book, const char *article, const char *file) {
    *book = start(PLAIN);
    add_article(book, article);
    rafttwine_placed read = rafttwine_read_prices((const uint8_t *)file, strlen(file), book->bytes + book->length,
                                                  sizeof book->bytes - book->length);
    if (read.number == RAFTTWINE_BAD_ROW) printf("  Line %lu is bad\n", (unsigned long)read.place);
    else if (read.number != RAFTTWINE_DONE) fail(rafttwine_refusal_text(read.number));
    book->length += (size_t)read.length;
    finish(book);
    return read.number == RAFTTWINE_DONE;
}

static void print_file(const packed *book) {
    static uint8_t file[RAFTTWINE_MOST_FILE_BYTES(sizeof book->bytes)];
    rafttwine_placed written = rafttwine_write_prices(book->bytes, book->length, file, sizeof file);
    if (written.number != RAFTTWINE_DONE) fail(rafttwine_refusal_text(written.number));
    fwrite(file, 1, (size_t)written.length, stdout);
}

/* The library that was loaded may be another than the one whose header this was compiled with. */
static void check_version(void) {
    uint32_t loaded = rafttwine_version();
    if (loaded / 10000 != RAFTTWINE_VERSION_MAJOR || loaded < RAFTTWINE_VERSION_NUMBER)
        fail("the library is not the one that this was compiled for, " RAFTTWINE_VERSION ", nor a later one that serves it");
}

int main(void) {
    check_version();
    packed book = price_book(), texts = text_book();
    packed june = question("A1", 20240630, 2), next_year = question("A1", 20250101, 2), unknown = question("B7", 20240630, 2);
    puts("Two pieces on 30 June 2024");
    print_price(&book, &texts, &june);
    puts("Two pieces on 1 January 2025");
    print_price(&book, &texts, &next_year);
    puts("An article that is not in the book");
    print_price(&book, &texts, &unknown);
    puts("One piece on 1 July 2024, two on 1 January 2025 and five on 30 June 2024, asked at once");
    packed basket[] = {question("A1", 20240701, 1), next_year, question("A1", 20240630, 5)};
    print_basket(&book, &texts, basket, sizeof basket / sizeof *basket);
    puts("A book of which the last byte is lost");
    book.length--;
    print_price(&book, &texts, &june);
    book.length++;
    puts("Calendar from 30 June 2024 to 2 January 2025");
    print_calendar(&book, &june, 20250102);
    puts("Calendar to a day before the first");
    print_calendar(&book, &june, 20240629);
    puts("The book as a price file");
    print_file(&book);
    packed other, asked = question("T7", 20240630, 2);
    puts("Two pieces of a table from another maker's price file");
    const char *file = "# prices of 2024\nT7;;S;B;1;table;249;1;EUR;20240101;20241231;0;\nT7;OAK;S;X;1;oak;8;0;EUR;20240101;20241231;0;\n";
    if (read_file(&other, "T7", file)) print_price(&other, &texts, &asked);
    puts("A price file with a comma in a value");
    if (read_file(&other, "T7", "# prices of 2024\nT7;;S;B;1;table;249,00;1;EUR;20240101;20241231;0;\n")) print_file(&other);
    return 0;
}
