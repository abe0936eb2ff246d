/* Prints the links of a page, each with its text, and with --in NAME whether a fragment is plain:
 *
 *     links PAGE
 *     links --in NAME FRAGMENT
 */
#include "jeanzircon_data.h"
#include <stdio.h>

static void die(const char *what) {
    fprintf(stderr, "links: %s\n", what);
    exit(3);
}

static int refused(const jz_answer *answer) {
    fprintf(stderr, "refused: %s %s at %llu\n", jz_status_name(answer->status), jz_detail_name(answer), (unsigned long long)answer->at);
    return 2;
}

/* The texts of a tree one after another. Those inside a node are from begins[node] to begins[past[node]], where past[node] is the first
 * node after all that are inside it, or doc.count. So a link in a link in a link takes no longer than any other. */
typedef struct all_texts {
    char *bytes;
    size_t *begins;
    uint32_t *past;
} all_texts;

static all_texts texts_of(const jz_doc *doc, size_t room) {
    all_texts all = { malloc(room + 1), malloc((doc->count + 1) * sizeof *all.begins), malloc(doc->count * sizeof *all.past) };
    size_t length = 0;
    uint32_t node;
    if (!all.bytes || !all.begins || !all.past) die("out of memory");
    all.past[doc->root] = doc->count;
    for (node = jz_first_child(doc, doc->root); node != JZ_NONE; node = jz_after(doc, node, doc->root)) {
        uint32_t next = jz_next(doc, node);
        all.past[node] = next != JZ_NONE ? next : all.past[jz_parent(doc, node)];
        all.begins[node] = length;
        if (jz_kind(doc, node) == JZ_TEXT_NODE) {
            jz_bytes text = jz_data(doc, node);
            memcpy(all.bytes + length, text.bytes, text.length);
            length += text.length;
        }
    }
    all.begins[doc->count] = length;
    return all;
}

static int print_links(const uint8_t *page, size_t length, const jz_options *options) {
    jz_doc doc;
    jz_answer answer;
    all_texts all;
    uint32_t node;
    if (jz_parse(page, length, options, &doc, &answer) != JZ_OK) return refused(&answer);
    all = texts_of(&doc, (size_t)answer.length);
    for (node = jz_first_child(&doc, doc.root); node != JZ_NONE; node = jz_after(&doc, node, doc.root)) {
        jz_bytes link;
        if (!jz_is(jz_name(&doc, node), "a")) continue;
        link = jz_attribute(&doc, node, "href");
        if (!link.bytes) continue;
        fwrite(link.bytes, 1, link.length, stdout);
        putchar(' ');
        fwrite(all.bytes + all.begins[node], 1, all.begins[all.past[node]] - all.begins[node], stdout);
        putchar('\n');
    }
    free(all.bytes);
    free(all.begins);
    free(all.past);
    jz_free(&doc);
    return 0;
}

static int print_plain(const uint8_t *fragment, size_t length, const jz_options *options) {
    uint8_t text[16];
    jz_answer answer;
    if (jz_text(JZ_PLAIN, fragment, length, options, text, sizeof text, &answer) != JZ_OK) return refused(&answer);
    printf("%.*s", (int)answer.length, (const char *)text);
    return 0;
}

int main(int count, char **words) {
    jz_options options = JZ_STANDARD;
    uint8_t *bytes;
    size_t length;
    int status;
    if (count != 2 && !(count == 4 && strcmp(words[1], "--in") == 0)) die("name a page, or --in NAME and a fragment");
    if (!jz_draw_keys(&options)) die("no random bytes");
    if (!(bytes = jz_read_file(words[count - 1], &length))) die("cannot read");
    if (count == 4) options.context = jz_lent((const uint8_t *)words[2], strlen(words[2]));
    status = count == 4 ? print_plain(bytes, length, &options) : print_links(bytes, length, &options);
    free(bytes);
    return status;
}
