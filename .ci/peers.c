/* What .ci/peers measures in C: bytes to a tree by jz_parse, or by gumbo, in processor milliseconds; and the lines of a crawl.
 *
 *   peers parse|core|whole|gumbo ROUNDS FILE..     the least of some rounds, for all files together: by jz_parse with the lists that Python
 *                                                  and Rust choose, with the core table or the Standard's, or by gumbo
 *   peers lines PART PARTS FILE                    the lines that jeanzircon.crawl writes of each page of a WARC file whose number leaves PART
 *                                                  when divided by PARTS; all records are whole responses of type text/html */
#include <time.h>
#include "found.h"
#include "jeanzircon_data.h"
#ifdef WITH_GUMBO
#include <gumbo.h>
#endif

static double now(void) { return (double)clock() * 1e3 / CLOCKS_PER_SEC; }

/* As Python and Rust do it, of the Standard's lists no more is read than a page needs. */
static jz_options needed(jz_options options, const uint8_t *bytes, size_t length) {
    static const jz_options core = JZ_DEFAULTS;
    static uint8_t room[8192];
    options.entities = jz_entities_for(bytes, length, options.entities, jz_standard_parts, room, sizeof room);
    if (!jz_quirks_matter(bytes, length, options.quirks)) options.quirks = core.quirks;
    return options;
}

static double parse(char way, jz_options options, const uint8_t *bytes, size_t length) {
    double begun = now(), taken;
    jz_answer answer;
    jz_doc doc;
    if (way == 'p') options = needed(options, bytes, length);
    if (way == 'c') options.entities = (jz_bytes)JZ_NO_BYTES;
    jz_parse(bytes, length, &options, &doc, &answer);
    taken = now() - begun;
    jz_free(&doc);
    return taken;
}

static double gumbo(const uint8_t *bytes, size_t length) {
    double taken = now();
#ifdef WITH_GUMBO
    GumboOutput *output = gumbo_parse_with_options(&kGumboDefaultOptions, (const char *)bytes, length);
    taken = now() - taken;
    gumbo_destroy_output(&kGumboDefaultOptions, output);
#endif
    return bytes && length ? taken : 0;
}

/* Writes the line of a page, as Python does. */
static void write_line(const char *archive, unsigned long record, const char *address, jz_bytes page, jz_options options) {
    double begun = now();
    jz_answer answer;
    Text said = { NULL, 0, 0 };
    jz_doc doc;
    options = needed(options, page.bytes, page.length);
    options.bad_bytes = 1;
    if (jz_parse(page.bytes, page.length, &options, &doc, &answer) == JZ_OK) said = said_of(&doc, 8 * page.length + 65536);
    jz_free(&doc);
    printf("{\"archive\": \"%s\", \"record\": %lu, \"address\": \"%s\", \"status\": ", archive, record, address);
    if (answer.status == JZ_OK) printf("\"ok\", \"at\": null, %.*s", (int)said.length, said.text);
    else
        printf("\"%s %s\", \"at\": %llu, \"title\": null, \"links\": [], \"errors\": {}", jz_status_name(answer.status), jz_detail_name(&answer),
               (unsigned long long)answer.at);
    printf(", \"bytes\": %zu, \"seconds\": %.6f}\n", page.length, (now() - begun) / 1e3);
    free(said.text);
}

static int write_lines(const char *archive, unsigned long part, unsigned long parts, jz_options options) {
    static char line[65536], address[65536], block[1 << 23];
    FILE *file = fopen(archive, "rb");
    unsigned long record = 0;
    size_t length = 0;
    while (file && fgets(line, sizeof line, file)) {
        if (sscanf(line, "Content-Length: %zu", &length) == 1 || sscanf(line, "WARC-Target-URI: %65535s", address) == 1 || strcmp(line, "\r\n")) continue;
        if (++record % parts != part) {
            fseek(file, (long)length + 4, SEEK_CUR);
        } else if (length + 4 <= sizeof block && fread(block, 1, length + 4, file) == length + 4) {
            const char *page = strstr(block, "\r\n\r\n") + 4;
            write_line(archive, record, address, jz_lent((const uint8_t *)page, (size_t)(block + length - page)), options);
        }
    }
    return !file || fclose(file);
}

int main(int count, char **words) {
    jz_options standard = JZ_STANDARD;
    double least = 1e300;
    int rounds, i;
    if (count < 4 || !jz_draw_keys(&standard)) return 1;
    if (words[1][0] == 'l' && count == 5) return write_lines(words[4], strtoul(words[2], NULL, 10), strtoul(words[3], NULL, 10), standard);
    for (rounds = atoi(words[2]); rounds > 0; rounds--) {
        double taken = 0;
        for (i = 3; i < count; i++) {
            size_t length;
            uint8_t *bytes = jz_read_file(words[i], &length);
            if (!bytes) return 1;
            taken += words[1][0] == 'g' ? gumbo(bytes, length) : parse(words[1][0], standard, bytes, length);
            free(bytes);
        }
        if (taken < least) least = taken;
    }
    printf("%.6f\n", least);
    return 0;
}
