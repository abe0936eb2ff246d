/* What jeanzircon.crawl says of a page: its title, links and numbers of errors, written as json.dumps writes them. */
#include "found.h"

static char *more(Text *it, size_t size) {
    if (it->text && it->room - it->length < size) {
        char *text = (char *)realloc(it->text, it->room = 2 * (it->room + size));
        if (!text) free(it->text);
        it->text = text;
    }
    return it->text ? it->text + it->length : NULL;
}

static void put(Text *it, const char *text) {
    size_t length = strlen(text);
    char *to = more(it, length);
    if (to) memcpy(to, text, length);
    it->length += length;
}

static char *put_unit(char *to, uint32_t unit) {
    static const char digits[] = "0123456789abcdef";
    int i;
    *to++ = '\\';
    *to++ = 'u';
    for (i = 12; i >= 0; i -= 4) *to++ = digits[unit >> i & 15];
    return to;
}

/* A byte as it is, or by a backslash. */
static char *put_ascii(char *to, uint8_t byte) {
    static const char plain[] = "\"\\\b\f\n\r\t", letters[] = "\"\\bfnrt";
    const char *at = byte ? strchr(plain, byte) : NULL;
    if (!at && (byte < ' ' || byte > '~')) return put_unit(to, byte);
    if (at) *to++ = '\\';
    *to++ = at ? letters[at - plain] : (char)byte;
    return to;
}

/* A character that has more bytes than one: its numbers in UTF-16. Returns how many bytes it has. */
static size_t put_wide(char **to, const uint8_t *bytes) {
    size_t i, length = bytes[0] < 0xE0 ? 2 : bytes[0] < 0xF0 ? 3 : 4;
    uint32_t number = bytes[0] & (0xFFu >> (length + 1));
    for (i = 1; i < length; i++) number = number << 6 | (bytes[i] & 63);
    if (number >= 0x10000) *to = put_unit(*to, 0xD7C0 + (number >> 10));
    *to = put_unit(*to, number < 0x10000 ? number : 0xDC00 | (number & 0x3FF));
    return length;
}

static void put_string(Text *it, jz_bytes bytes) {
    char *begin = more(it, 6 * bytes.length + 2), *to = begin;
    size_t i = 0;
    if (!begin) return;
    *to++ = '"';
    while (i < bytes.length) {
        uint8_t byte = bytes.bytes[i];
        if (byte >= 0x80) i += put_wide(&to, bytes.bytes + i);
        else if (byte >= ' ' && byte < 0x7F && byte != '"' && byte != '\\') *to++ = (char)byte, i++;
        else to = put_ascii(to, byte), i++;
    }
    *to++ = '"';
    it->length += (size_t)(to - begin);
}

/* The text of the first title, with white space as Page.title has it. `all` has room for each text. */
static jz_bytes title_of(const jz_doc *doc, uint8_t *all) {
    uint32_t node = doc->root, child;
    size_t length = 0, i;
    while (node != JZ_NONE && !(jz_kind(doc, node) == JZ_ELEMENT && jz_is(jz_name(doc, node), "title"))) node = jz_after(doc, node, doc->root);
    for (child = node == JZ_NONE ? JZ_NONE : jz_first_child(doc, node); child != JZ_NONE; child = jz_next(doc, child)) {
        jz_bytes it = jz_kind(doc, child) == JZ_TEXT_NODE ? jz_data(doc, child) : jz_lent(all, 0);
        for (i = 0; i < it.length; i++) {
            int is_space = strchr("\t\n\f\r ", it.bytes[i]) && it.bytes[i];
            if (!is_space) all[length++] = it.bytes[i];
            else if (length && all[length - 1] != ' ') all[length++] = ' ';
        }
    }
    return jz_lent(all, length && all[length - 1] == ' ' ? length - 1 : length);
}

static size_t characters(jz_bytes bytes) {
    size_t i, count = 0;
    for (i = 0; i < bytes.length; i++) count += (bytes.bytes[i] & 0xC0) != 0x80;
    return count;
}

/* Whether the links have no more characters than `room`: no more are counted, however many there are. */
static int is_room(const Links *found, size_t room) {
    size_t i, count;
    for (i = 0; i < found->count; i++) {
        const Link *link = &found->links[i];
        if (link->href.length > 4 * room || link->end - link->begin > 4 * room) return 0;
        count = characters(link->href) + characters(jz_lent(found->text + link->begin, link->end - link->begin));
        if (count > room) return 0;
        room -= count;
    }
    return 1;
}

static void put_errors(Text *it, const jz_doc *doc) {
    size_t counts[JZ_ERROR_COUNT] = { 0 }, i;
    const char *before = "{";
    char number[32];
    for (i = 0; i < doc->error_count; i++) counts[doc->errors[i].code]++;
    for (i = 0; i < JZ_ERROR_COUNT; i++) {
        if (!counts[i]) continue;
        snprintf(number, sizeof number, "\": %zu", counts[i]);
        put(it, before);
        put(it, "\"");
        put(it, jz_error_name((uint32_t)i));
        put(it, number);
        before = ", ";
    }
    put(it, *before == '{' ? "{}" : "}");
}

static void put_links(Text *it, const Links *found) {
    size_t i;
    for (i = 0; i < found->count; i++) {
        const Link *link = &found->links[i];
        put(it, i ? ", [" : "[");
        put_string(it, link->href);
        put(it, ", ");
        put_string(it, jz_lent(found->text + link->begin, link->end - link->begin));
        put(it, "]");
    }
}

/* What is said of a page. Its text is null where memory runs out, and empty where the links have more characters than `room`. */
Text said_of(const jz_doc *doc, size_t room) {
    Text it = { NULL, 0, 4096 };
    Links found;
    uint8_t *all = find_links(doc, &found) ? (uint8_t *)malloc(doc->words_length + 1) : NULL;
    it.text = all ? (char *)malloc(it.room) : NULL;
    if (all && is_room(&found, room)) {
        put(&it, "\"title\": ");
        put_string(&it, title_of(doc, all));
        put(&it, ", \"links\": [");
        put_links(&it, &found);
        put(&it, "], \"errors\": ");
        put_errors(&it, doc);
    }
    free(all);
    free_links(&found);
    return it;
}
