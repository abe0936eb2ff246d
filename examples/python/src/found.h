/* What is found in a tree, in C without Python: its links, and what jeanzircon.crawl says of a page. */
#ifndef JEANZIRCON_FOUND_H
#define JEANZIRCON_FOUND_H

#include "jeanzircon.h"

/* --- links.c */
typedef struct {
    jz_bytes href;
    size_t begin, end; /* its text in that of all links */
    uint32_t node, outer;
} Link;

typedef struct {
    Link *links;
    size_t count, room;
    uint8_t *text;
    size_t length;
    uint32_t open; /* the innermost link that is open, or JZ_NONE */
} Links;

int find_links(const jz_doc *doc, Links *found);
void free_links(Links *found);

/* --- said.c */

/* A text that grows. Where memory runs out it has none, and stays so. */
typedef struct {
    char *text;
    size_t length, room;
} Text;

Text said_of(const jz_doc *doc, size_t room);

#endif
