/* The links of a tree, found in one walk. The texts inside links go one after another into one buffer, in which
 * each link has its part: so nested links take no more than others. */
#include "found.h"

static int add_link(Links *found, uint32_t node, jz_bytes href) {
    Link *link;
    if (found->count == found->room) {
        size_t room = 2 * found->room + 64;
        Link *more = (Link *)realloc(found->links, room * sizeof *more);
        if (!more) return 0;
        found->links = more;
        found->room = room;
    }
    link = &found->links[found->count];
    link->href = href;
    link->begin = link->end = found->length;
    link->node = node;
    link->outer = found->open;
    found->open = (uint32_t)found->count++;
    return 1;
}

/* A node is entered: a text is kept where a link is open, and an element may be one. Returns 0 where memory runs out. */
static int enter(Links *found, const jz_doc *doc, uint32_t node) {
    jz_words words = jz_words_of(doc, node);
    jz_bytes it;
    if (jz_kind(doc, node) == JZ_ELEMENT) {
        if (words.at[0] != 'a' || words.at[1] != 0xFF) return 1; /* (0xFF ends the name) */
        it = jz_attribute(doc, node, "href");
        return !it.bytes || add_link(found, node, it);
    }
    if (found->open != JZ_NONE && jz_kind(doc, node) == JZ_TEXT_NODE) {
        it = jz_next_word(&words);
        memcpy(found->text + found->length, it.bytes, it.length);
        found->length += it.length;
    }
    return 1;
}

static void leave(Links *found, uint32_t node) {
    if (found->open == JZ_NONE || found->links[found->open].node != node) return;
    found->links[found->open].end = found->length;
    found->open = found->links[found->open].outer;
}

/* Finds the links of a tree. Returns 0 where memory runs out; what is found is freed by free_links in either case. */
int find_links(const jz_doc *doc, Links *found) {
    uint32_t node = jz_first_child(doc, doc->root), next;
    memset(found, 0, sizeof *found);
    found->open = JZ_NONE;
    if (!(found->text = (uint8_t *)malloc(doc->words_length + 1))) return 0;
    while (node != JZ_NONE) {
        if (!enter(found, doc, node)) return 0;
        next = jz_first_child(doc, node);
        while (next == JZ_NONE && node != JZ_NONE && node != doc->root) {
            leave(found, node);
            next = jz_next(doc, node);
            if (next == JZ_NONE) node = jz_parent(doc, node);
        }
        node = next;
    }
    return 1;
}

void free_links(Links *found) {
    free(found->links);
    free(found->text);
}
