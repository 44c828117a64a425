/* What a programmer would write by hand for one format: reads Apache's combined lines and writes the JSON that
 *   logfmt read apache '%h %l %u %t "%r" %>s %b "%{Referer}i" "%{User-agent}i"'
 * writes, with `unread N` on standard error. It is strict: escapes, numbers and dates are checked.
 * cc -O2 -o scanner bench/scanner.c */
#include <stdbool.h>
#include <stdint.h>
#include <stdio.h>
#include <stdlib.h>
#include <string.h>
#include <unistd.h>

typedef unsigned char byte;
typedef const byte *place; /* in a line, or NULL where the line isn't read */

enum { PIECE = 1 << 18, OUT = 1 << 20 };

static bool visible[256], plain[256];
static signed char hex_value[256];
static const char hex_digits[] = "0123456789abcdef";

static void make_tables(void) {
    memset(hex_value, -1, sizeof hex_value);
    for (int k = 0; k < 16; k++) hex_value[(byte)hex_digits[k]] = k;
    for (int b = 0x20; b < 0x7f; b++) {
        visible[b] = b != ' ';
        plain[b] = b != '"' && b != '\\';
    }
}

/* ---- The texts of a piece, of a line and of a value ---- */

struct text { byte *bytes; size_t len, room; };
static struct text out, row, letters;

static inline void reserve(struct text *t, size_t more) {
    if (t->len + more <= t->room) return;
    t->room = 2 * (t->len + more);
    t->bytes = realloc(t->bytes, t->room);
    if (!t->bytes) exit(6);
}

static inline void add(struct text *t, const void *bytes, size_t len) {
    reserve(t, len);
    memcpy(t->bytes + t->len, bytes, len);
    t->len += len;
}

static inline void add_byte(struct text *t, byte b) {
    reserve(t, 1);
    t->bytes[t->len++] = b;
}

static void put_out(void) {
    for (size_t done = 0; done < out.len;) {
        ssize_t some = write(1, out.bytes + done, out.len - done);
        if (some <= 0) exit(5);
        done += some;
    }
    out.len = 0;
}

/* ---- JSON of a text with escapes ---- */

static int follows(const byte *b, size_t left) { /* the length of the UTF-8 sequence that begins here, or 0 */
    byte low = 0x80, high = 0xbf;
    int len = b[0] < 0x80 ? 1 : b[0] < 0xc2 ? 0 : b[0] < 0xe0 ? 2 : b[0] < 0xf0 ? 3 : b[0] < 0xf5 ? 4 : 0;
    if (len == 0 || left < (size_t)len) return 0;
    if (b[0] == 0xe0) low = 0xa0;
    if (b[0] == 0xed) high = 0x9f;
    if (b[0] == 0xf0) low = 0x90;
    if (b[0] == 0xf4) high = 0x8f;
    for (int k = 1; k < len; k++, low = 0x80, high = 0xbf)
        if (b[k] < low || b[k] > high) return 0;
    return len;
}

static bool is_utf8(const struct text *t) {
    for (size_t k = 0; k < t->len;) {
        int len = follows(t->bytes + k, t->len - k);
        if (len == 0) return false;
        k += len;
    }
    return true;
}

static void add_hex(const struct text *t) {
    add(&row, "{\"hex\":\"", 8);
    for (size_t k = 0; k < t->len; k++) {
        add_byte(&row, hex_digits[t->bytes[k] >> 4]);
        add_byte(&row, hex_digits[t->bytes[k] & 15]);
    }
    add(&row, "\"}", 2);
}

static void add_letter(byte b) {
    const char *named = "\"\"\\\\\bb\ff\nn\rr\tt";
    for (const char *at = named; *at; at += 2)
        if ((byte)at[0] == b) {
            add_byte(&row, '\\');
            add_byte(&row, at[1]);
            return;
        }
    if (b < 0x20) {
        add(&row, "\\u00", 4);
        add_byte(&row, hex_digits[b >> 4]);
        add_byte(&row, hex_digits[b & 15]);
        return;
    }
    add_byte(&row, b);
}

static void add_letters(void) {
    if (!is_utf8(&letters)) {
        add_hex(&letters);
        return;
    }
    add_byte(&row, '"');
    for (size_t k = 0; k < letters.len; k++) add_letter(letters.bytes[k]);
    add_byte(&row, '"');
}

/* ---- Values ---- */

static inline void add_span(place from, size_t len) { /* plain bytes, or a dash for none */
    if (len == 1 && *from == '-') {
        add(&row, "null", 4);
        return;
    }
    reserve(&row, len + 2);
    byte *to = row.bytes + row.len;
    *to++ = '"';
    memcpy(to, from, len);
    to[len] = '"';
    row.len += len + 2;
}

static place escape(place at, place end) { /* one escape, of which the shortest way to write a letter is asked */
    static const char named[] = "\"\"\\\\b\bn\nr\rt\tv\v";
    if (end - at < 2) return NULL;
    for (const char *name = named; *name; name += 2)
        if (at[1] == (byte)name[0]) {
            add_byte(&letters, name[1]);
            return at + 2;
        }
    if (at[1] != 'x' || end - at < 4) return NULL;
    int high = hex_value[at[2]], low = hex_value[at[3]], letter = high * 16 + low;
    if (high < 0 || low < 0) return NULL;
    if ((letter >= 0x20 && letter < 0x7f) || (letter >= 8 && letter <= 11) || letter == 13) return NULL;
    add_byte(&letters, letter);
    return at + 4;
}

static place escaped(place from, place at, place end) { /* a text with an escape at `at`, up to the end */
    letters.len = 0;
    add(&letters, from, at - from);
    while (at < end) {
        if (*at == '\\') {
            at = escape(at, end);
            if (!at) return NULL;
        } else if (plain[*at]) {
            add_byte(&letters, *at++);
        } else {
            return NULL;
        }
    }
    add_letters();
    return at;
}

static inline place plain_end(place at, place end) {
    while (at < end && plain[*at]) at++;
    return at;
}

static place quote_after(place at, place end) { /* the first quote that no backslash escapes */
    while (at < end && *at != '"') at += *at == '\\' ? 2 : 1;
    return at < end ? at : NULL;
}

static inline place quoted(place from, place end) { /* to behind the quote that ends it */
    place at = plain_end(from, end);
    if (at < end && *at == '"') {
        add_span(from, at - from);
        return at + 1;
    }
    place quote = quote_after(at, end);
    return quote && escaped(from, at, quote) ? quote + 1 : NULL;
}

static place whole(place from, place end) { /* a text that ends there */
    place at = plain_end(from, end);
    if (at < end) return escaped(from, at, end);
    add_span(from, at - from);
    return at;
}

static inline place word(place from, place end) { /* a text up to the next space, which holds none */
    place at = from;
    while (at < end && visible[*at] && plain[*at]) at++;
    if (at < end && *at == ' ') {
        if (at == from) return NULL;
        add_span(from, at - from);
        return at;
    }
    place space = memchr(at, ' ', end - at);
    return space && escaped(from, at, space) ? space : NULL;
}

static inline int two(place at) {
    unsigned tens = at[0] - '0', ones = at[1] - '0';
    return tens > 9 || ones > 9 ? -1 : (int)(10 * tens + ones);
}

static inline int name_of(const char *three) { return (byte)three[0] << 16 | (byte)three[1] << 8 | (byte)three[2]; }

static int month_of(place at) {
    static const char names[] = "JanFebMarAprMayJunJulAugSepOctNovDec";
    int name = name_of((const char *)at);
    for (int k = 0; k < 12; k++)
        if (name == name_of(names + 3 * k)) return k + 1;
    return 0;
}

static bool is_date(int year, int month, int day) {
    static const byte days[] = {31, 28, 31, 30, 31, 30, 31, 31, 30, 31, 30, 31};
    if (year < 1 || month < 1 || day < 1) return false;
    bool leap = (year % 4 == 0 && year % 100 != 0) || year % 400 == 0;
    return day <= days[month - 1] + (month == 2 && leap);
}

static bool moment(place t) { /* [10/Oct/2000:13:55:36 -0700] */
    if (t[0] != '[' || t[3] != '/' || t[7] != '/' || t[12] != ':' || t[15] != ':' || t[18] != ':' || t[21] != ' ' || t[27] != ']')
        return false;
    int day = two(t + 1), month = month_of(t + 4), century = two(t + 8), years = two(t + 10);
    int hour = two(t + 13), minute = two(t + 16), second = two(t + 19), east = two(t + 23), rest = two(t + 25);
    if (century < 0 || years < 0 || !is_date(100 * century + years, month, day)) return false;
    if (hour < 0 || hour > 23 || minute < 0 || minute > 59 || second < 0 || second > 59) return false;
    if (east < 0 || east > 23 || rest < 0 || rest > 59) return false;
    if (t[22] != '+' && (t[22] != '-' || east + rest == 0)) return false;
    byte json[] = "\"yyyy-mm-ddThh:mm:ss.000+hh:mm\"";
    memcpy(json + 1, t + 8, 4);
    json[6] = '0' + month / 10;
    json[7] = '0' + month % 10;
    memcpy(json + 9, t + 1, 2);
    memcpy(json + 12, t + 13, 8);
    memcpy(json + 24, t + 22, 3);
    memcpy(json + 28, t + 25, 2);
    add(&row, json, 31);
    return true;
}

static place status(place at, place end) {
    if (at < end && *at == '-') {
        add(&row, "null", 4);
        return at + 1;
    }
    if (end - at < 3 || at[0] < '1' || at[0] > '9' || two(at + 1) < 0) return NULL;
    add(&row, at, 3);
    return at + 3;
}

static place count(place from, place end) { /* a dash for zero, or a number within 63 bits */
    place at = from;
    if (at < end && *at == '-') {
        add_byte(&row, '0');
        return at + 1;
    }
    while (at < end && *at >= '0' && *at <= '9') at++;
    size_t len = at - from;
    if (len == 0 || len > 19 || *from == '0') return NULL;
    if (len == 19 && memcmp(from, "9223372036854775807", 19) > 0) return NULL;
    add(&row, from, len);
    return at;
}

static inline place literal(place at, place end, const char *text, size_t len) {
    return at && (size_t)(end - at) >= len && memcmp(at, text, len) == 0 ? at + len : NULL;
}

static inline place comma(place at) {
    if (at) add_byte(&row, ',');
    return at;
}

/* ---- Lines ---- */

static place user_and_time(place at, place end) { /* the time has one length, so the quote behind it says where it is */
    place quote = quote_after(at, end);
    if (!quote || quote - at < 31) return NULL;
    place time = quote - 29, space = time - 1;
    if (*space != ' ' || quote[-1] != ' ' || !whole(at, space)) return NULL;
    comma(at);
    return moment(time) ? quote + 1 : NULL;
}

static bool is_read(place at, place end) {
    row.len = 0;
    add_byte(&row, '[');
    if (!(at = comma(literal(word(at, end), end, " ", 1)))) return false;
    if (!(at = word(at, end))) return false;
    if (!(at = comma(literal(at, end, " ", 1)))) return false;
    if (!(at = comma(user_and_time(at, end)))) return false;
    if (!(at = quoted(at, end)) || !(at = comma(literal(at, end, " ", 1)))) return false;
    if (!(at = status(at, end)) || !(at = comma(literal(at, end, " ", 1)))) return false;
    if (!(at = count(at, end)) || !(at = comma(literal(at, end, " \"", 2)))) return false;
    if (!(at = quoted(at, end)) || !(at = comma(literal(at, end, " \"", 2)))) return false;
    if (!(at = quoted(at, end)) || at != end) return false;
    add(&row, "]\n", 2);
    return true;
}

static bool read_line(place from, place end, uint64_t number) {
    if (!is_read(from, end)) {
        fprintf(stderr, "unread %llu\n", (unsigned long long)number);
        return false;
    }
    if (out.len + row.len > OUT) put_out();
    add(&out, row.bytes, row.len);
    return true;
}

int main(void) {
    struct text held = {0};
    uint64_t number = 0;
    bool all = true;
    ssize_t some;
    make_tables();
    do {
        reserve(&held, PIECE);
        some = read(0, held.bytes + held.len, PIECE);
        if (some < 0) return 4;
        held.len += some;
        place at = held.bytes, end = at + held.len, feed;
        while ((feed = memchr(at, '\n', end - at))) {
            all &= read_line(at, feed, ++number);
            at = feed + 1;
        }
        if (some == 0 && at < end) {
            all &= read_line(at, end, ++number);
            at = end;
        }
        held.len = end - at;
        memmove(held.bytes, at, held.len);
    } while (some > 0);
    put_out();
    return all ? 0 : 3;
}
