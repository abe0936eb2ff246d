/* Tries the plain C of the library's header. Where the Nth allocation and all that follow are refused, or it alone, for each N, it makes what
 * it makes otherwise, or the status is JZ_MEMORY, nothing is made, and all that was taken is freed. And what that plain C costs, in parses, in
 * bytes looked at and in memory kept, and does with null pointers; what a table in its flat form costs, and a text that is only measured;
 * options before a page that cannot be read; pieces; threads with small stacks.
 * Its argument names an input, and `once` after it has each function called once. The last line is 'N passed, M failed'.
 * Linked with -Wl,--wrap=X for each X of malloc, realloc, free, jz_text, jz_page and jz_table. */
#include <malloc.h>
#include <pthread.h>
#include <stdio.h>
#include <string.h>
#include <sys/mman.h>
#include <sys/resource.h>
#include <sys/wait.h>
#include <time.h>
#include <unistd.h>

/* The bytes that the header's plain C looks at where it searches words. */
static size_t looked_at;

static void *search(const void *bytes, int byte, size_t length) {
    const void *found = memchr(bytes, byte, length);
    looked_at += found ? (size_t)((const char *)found - (const char *)bytes) + 1 : length;
    return (void *)found;
}

#define memchr search
#include "jeanzircon_data.h"

void *__real_malloc(size_t size);
void *__real_realloc(void *block, size_t size);
void __real_free(void *block);

/* `left` allocations are given before all are refused, `only` is the one that is refused, and -1 of either refuses none. */
static long left = -1, only = -1, passed, failed;
static _Atomic long alive, calls;
_Atomic long parses;

static int is_refused(void) {
    if (calls++ == only) return 1;
    return left >= 0 && left-- <= 0 ? (left = 0, 1) : 0;
}

void *__wrap_malloc(size_t size) {
    void *block = is_refused() ? NULL : __real_malloc(size);
    alive += block != NULL;
    return block;
}

void *__wrap_realloc(void *block, size_t size) {
    void *new = is_refused() ? NULL : __real_realloc(block, size);
    alive += new && !block;
    return new;
}

void __wrap_free(void *block) {
    alive -= block != NULL;
    __real_free(block);
}

/* A call of the library is counted, and goes on to it. */
#define COUNTED(call) __asm__(".text\n.globl __wrap_" #call "\n__wrap_" #call ": lock incq parses(%rip)\n jmp __real_" #call "\n");
COUNTED(jz_text)
COUNTED(jz_page)
COUNTED(jz_table)

/* The tasks of jz_text, and after them what else is made: a tree, a tree with HTML, one with places, one of pieces, a table. */
enum { ROOM = 1 << 16, TASKS = 5, TREE = 5, PAGE = 6, PLACED = 7, FED = 8, TABLE = 9, ALL = 10 };
static uint8_t input[ROOM];
static size_t piece = 1000;
static jz_options options = JZ_DEFAULTS;
static const uint8_t entities[] = "{\"&copy;\": {\"codepoints\": [169], \"characters\": \"\\u00a9\"}}";

static void check(int is_right, const char *what) {
    is_right ? passed++ : failed++;
    if (!is_right && failed < 20) printf("%s: FAILED\n", what);
}

/* What a task reads is in a div, but for tokens, which are those of a document. */
static void set_context(uint32_t task) { options.context = jz_lent((const uint8_t *)"div", task == JZ_TOKENS ? 0 : 3); }

/* What is made: a text, a table, or a tree and with it its words. */
typedef struct made {
    uint8_t *bytes, *html;
    jz_doc doc;
    jz_page_answer page;
    jz_answer answer;
} made;

/* A tree of an input that is fed in pieces. */
static uint32_t feed(const uint8_t *page, size_t length, made *it) {
    jz_feeder feeder;
    uint32_t taken = JZ_OK, status;
    memset(&feeder, 'x', sizeof feeder);
    jz_begin(&feeder);
    for (size_t at = 0; at < length; at += piece) taken = jz_feed(&feeder, page + at, piece < length - at ? piece : length - at);
    check(taken != JZ_OK || (feeder.length == length && (!length || !memcmp(feeder.bytes, page, length))), "what is gathered");
    status = jz_end(&feeder, &options, &it->doc, &it->answer);
    check(taken == JZ_OK || (taken == JZ_MEMORY && status == taken), "the status of pieces");
    check(!feeder.bytes && !feeder.length && !feeder.room && !feeder.status, "a feeder after the end");
    return status;
}

static uint32_t make(uint32_t task, const void *page, size_t length, made *it) {
    const uint8_t *bytes = (const uint8_t *)page;
    uint32_t status;
    memset(it, 'x', sizeof *it);
    if (task < TASKS) return jz_make_text(task, bytes, length, &options, &it->bytes, &it->answer);
    if (task == TABLE) return jz_make_table(entities, sizeof entities - 1, &it->bytes, &it->answer);
    it->html = NULL;
    if (task == FED) status = feed(bytes, length, it);
    else if (task == PAGE) {
        status = jz_make_page(bytes, length, &options, &it->doc, &it->html, &it->page);
        jz_answer told = { it->page.status, it->page.detail, it->page.at, it->page.words, it->page.nodes };
        it->answer = told;
    } else status = (task == TREE ? jz_parse : jz_parse_places)(bytes, length, &options, &it->doc, &it->answer);
    it->bytes = it->doc.words;
    return status;
}

static int is_tree(uint32_t task) { return task >= TASKS && task != TABLE; }

static void give_back(uint32_t task, made *it) {
    if (!is_tree(task)) free(it->bytes);
    else {
        jz_free(&it->doc);
        free(it->html);
    }
}

static int is_empty(const jz_doc *doc) {
    return !doc->nodes && !doc->words && !doc->places && !doc->errors && !doc->count && !doc->root && !doc->error_count;
}

static int is_nothing(uint32_t task, const made *it) { return is_tree(task) ? is_empty(&it->doc) && !it->html : !it->bytes; }

/* Whether these are the same bytes, or neither is there. */
static int are_equal(const void *some, const void *others, size_t length) {
    return some && others ? !memcmp(some, others, length) : some == others;
}

static int are_same_trees(const jz_doc *some, const jz_doc *others) {
    for (size_t i = 0; i < some->error_count && i < others->error_count; i++)
        if (some->errors[i].at != others->errors[i].at || some->errors[i].code != others->errors[i].code) return 0;
    return some->count == others->count && some->root == others->root && some->length == others->length
        && some->error_count == others->error_count && are_equal(some->nodes, others->nodes, some->count * sizeof *some->nodes)
        && are_equal(some->places, others->places, some->count * sizeof *some->places);
}

static int are_same(uint32_t task, const made *some, const made *others) {
    return !memcmp(&some->answer, &others->answer, sizeof some->answer) && are_equal(some->bytes, others->bytes, (size_t)some->answer.length)
        && (!is_tree(task) || are_same_trees(&some->doc, &others->doc))
        && (task != PAGE || (some->page.text == others->page.text && are_equal(some->html, others->html, (size_t)some->page.text)));
}

/* What is made where allocations are refused. One alone is told of where no further parse is tried, which needs less. */
static void check_refused(uint32_t task, const void *page, size_t length) {
    made whole, it;
    calls = parses = 0;
    check(make(task, page, length, &whole) == JZ_OK, "what is made of the input");
    long all = calls, refused = 0;
    int is_tried_again = parses == 1 && task != TABLE && task != FED;
    for (long at = 0; at < 2 * all; at++) {
        long before = alive;
        calls = 0;
        if (at < all) left = at;
        else only = at - all;
        uint32_t status = make(task, page, length, &it);
        left = only = -1;
        int is_made = status == JZ_OK && are_same(task, &it, &whole);
        int is_none = status == JZ_MEMORY && (at < all || !is_tried_again) && is_nothing(task, &it);
        refused += is_none;
        check(status == it.answer.status && (is_made || is_none), "what is made where memory is refused");
        give_back(task, &it);
        check(alive == before, "what is kept where memory is refused");
    }
    check(refused > 3, "memory that is refused");
    give_back(task, &whole);
}

/* The rooms that are asked for are those of what is made, and no more is kept. A refusal is answered to all. */
static void check_rooms(uint32_t task, const char *page, size_t length) {
    jz_answer asked;
    made it;
    uint32_t status = make(task, page, length, &it);
    uint32_t told = task < TASKS ? jz_text_room(task, (const uint8_t *)page, length, &options, &asked)
                                 : jz_tree_rooms((const uint8_t *)page, length, &options, &asked);
    check(status == it.answer.status && told == status && memcmp(&asked, &it.answer, sizeof asked) == 0, "the room that is asked for");
    check((status == JZ_OK) == !is_nothing(task, &it), "what is made, or refused");
    check(status != JZ_OUT_OF_PROFILE || (!strcmp(jz_detail_name(&it.answer), "svg") && (task != PAGE || !strcmp(jz_page_detail_name(&it.page), "svg"))),
          "the name of what is refused");
    check(task != PAGE || status || (malloc_usable_size(it.doc.errors) < it.page.errors * sizeof(jz_error) + 8192 && malloc_usable_size(it.html) < it.page.text + 8192),
          "the memory that is kept of a page");
    check(!it.bytes || malloc_usable_size(it.bytes) < it.answer.length + 8192, "the memory that is kept");
    give_back(task, &it);
}

/* Pieces of each size give the tree, or the refusal, of the whole. */
static void check_pieces(const void *page, size_t length) {
    made whole, it;
    make(TREE, page, length, &whole);
    for (size_t size = 1; size <= length + 1; size++) {
        piece = size;
        make(FED, page, length, &it);
        check(are_same(TREE, &it, &whole), "the tree of pieces");
        give_back(FED, &it);
    }
    piece = 1000;
    give_back(TREE, &whole);
}

/* An input that gets too long, one that is given up, and null pointers. (The bytes of a long one are not there: none is read.) */
static void check_feeders(void) {
    static const uint8_t *const page = (const uint8_t *)"<p>x";
    long before = alive;
    jz_feeder feeder;
    made it;
    for (size_t length = JZ_MOST - 1; length <= JZ_MOST; length++) {
        jz_begin(&feeder);
        check(jz_feed(&feeder, page, 4) == JZ_OK && jz_feed(&feeder, page, 0) == JZ_OK && jz_feed(&feeder, NULL, 0) == JZ_OK, "a piece, and none");
        feeder.length = feeder.room = length;
        check(jz_feed(&feeder, page, 0) == JZ_OK && jz_feed(&feeder, page, JZ_MOST - length + 1) == JZ_TOO_LARGE && !feeder.bytes, "a piece that is too long");
        check(jz_feed(&feeder, page, 1) == JZ_TOO_LARGE && !feeder.bytes && alive == before, "a piece after one that is too long");
        check(jz_end(&feeder, &options, &it.doc, &it.answer) == JZ_TOO_LARGE && it.answer.status == JZ_TOO_LARGE && it.answer.at == JZ_MOST
                  && is_empty(&it.doc), "the end of what is too long");
    }
    check(jz_feed(&feeder, page, 4) == JZ_OK && alive == before + 1, "a feeder that is used again");
    jz_drop(&feeder);
    jz_drop(&feeder);
    jz_drop(NULL);
    jz_begin(NULL);
    check(jz_feed(NULL, page, 1) == JZ_NULL && jz_feed(&feeder, NULL, 1) == JZ_NULL, "a piece with a null pointer");
    for (int which = 0; which < 4; which++) {
        memset(&it, 'x', sizeof it);
        check(jz_feed(&feeder, page, 4) == JZ_OK, "a piece");
        check(jz_end(which == 0 ? NULL : &feeder, which == 1 ? NULL : &options, which == 2 ? NULL : &it.doc, which == 3 ? NULL : &it.answer) == JZ_NULL
                  && (which == 2 || is_empty(&it.doc)) && (which == 3 || it.answer.status == JZ_NULL), "an end with a null pointer");
        jz_drop(&feeder);
    }
    check(alive == before, "what is kept of feeders");
}

/* The bytes at the end of a page of memory, after which none can be read. */
static uint8_t *last_bytes(size_t count) {
    size_t page = (size_t)sysconf(_SC_PAGESIZE);
    uint8_t *begin = (uint8_t *)mmap(NULL, 2 * page, PROT_READ | PROT_WRITE, MAP_PRIVATE | MAP_ANONYMOUS, -1, 0);
    check(begin != MAP_FAILED && !mprotect(begin + page, page, PROT_NONE), "memory that cannot be read");
    return begin + page - count;
}

/* Options of a size that the library does not know are refused before anything else of them is read. */
static void check_sizes(size_t length) {
    size_t *size = (size_t *)last_bytes(sizeof *size);
    jz_options *last = (jz_options *)last_bytes(sizeof options);
    jz_answer answer;
    uint8_t text[64];
    *size = sizeof options - 1;
    check(jz_text(9, input, length, (const jz_options *)size, text, 64, &answer) == JZ_BAD_SIZE && !answer.length, "a text by short options");
    check(!strcmp(jz_status_name(answer.status), "BadSize") && !strcmp(jz_error_name(JZ_ERROR_COUNT), "?"), "the name of a status, and of no error");
    *last = options;
    check(jz_text(JZ_TREE, input, length, last, text, 0, &answer) == JZ_TOO_SHORT, "options at the end of what can be read");
}

/* The places of the nodes of a page: their own, that of what they are made again of, and none. */
static void check_places(void) {
    static const uint64_t places[] = { 0, 0, 3, 6, 7, 3, 10, 11, JZ_NOWHERE, 18 };
    made it;
    size_t i = 0;
    check(make(PLACED, "<p><b>x<p>y<table><tr>", 22, &it) == JZ_OK, "a page with places");
    for (uint32_t node = it.doc.root; node != JZ_NONE; node = jz_after(&it.doc, node, it.doc.root), i++)
        check(i < 10 && (node == it.doc.root ? jz_place(&it.doc, node) == JZ_NOWHERE : jz_place(&it.doc, node) == places[i]), "the place of a node");
    check(i == 10 && jz_place(&it.doc, it.doc.count) == JZ_NOWHERE, "the place of no node");
    give_back(PLACED, &it);
}

/* A file is read whole, or where there is none, no file or no memory, not at all. */
static void check_file(const char *name, size_t length) {
    long before = alive;
    size_t got;
    uint8_t *bytes = jz_read_file(name, &got);
    check(bytes && got == length && !memcmp(bytes, input, length), "a file");
    free(bytes);
    check(!jz_read_file("no such file", &got) && !jz_read_file("/", &got), "a file that cannot be read");
    left = 0;
    check(!jz_read_file(name, &got), "a file where memory is refused");
    left = -1;
    check(alive == before, "what is kept of a file");
}

/* Nothing is left in a result that the caller then frees, whichever pointer is null: the input, the options, one of them, the answer, or the
 * result. */
static void check_nulls(void) {
    for (int which = 0; which < 7; which++) {
        jz_options given = options, *to = which == 1 ? NULL : &given;
        jz_bytes *lists[] = { &given.context, &given.entities, &given.quirks };
        const uint8_t *page = which == 0 ? NULL : input;
        jz_answer answers[4], *answer[4];
        jz_page_answer all;
        uint8_t *result = input, *html = input, **bytes = which == 6 ? NULL : &result;
        jz_doc docs[2], *doc[] = { which == 6 ? NULL : &docs[0], which == 6 ? NULL : &docs[1] };
        memset(answers, 'x', sizeof answers);
        memset(docs, 'x', sizeof docs);
        if (which > 1 && which < 5) lists[which - 2]->bytes = NULL;
        for (int i = 0; i < 4; i++) answer[i] = which == 5 ? NULL : &answers[i];
        uint32_t statuses[] = { jz_make_text(JZ_TREE, page, 1, to, bytes, answer[0]), jz_parse(page, 1, to, doc[0], answer[1]),
                                jz_make_page(page, 1, to, doc[1], &html, which == 5 ? NULL : &all),
                                which == 6 ? JZ_NULL : jz_text_room(JZ_TREE, page, 1, to, answer[2]),
                                which == 6 ? JZ_NULL : jz_tree_rooms(page, 1, to, answer[3]) };
        for (int i = 0; i < 5; i++) check(statuses[i] == JZ_NULL, "the status of a call with a null pointer");
        for (int i = 0; i < (which == 5 ? 0 : which == 6 ? 2 : 4); i++)
            check(answers[i].status == JZ_NULL && !answers[i].detail && !answers[i].at && !answers[i].length && !answers[i].nodes,
                  "the answer to a call with a null pointer");
        check(!html && (which == 6 || (!result && is_empty(&docs[0]) && is_empty(&docs[1]))), "the result of a call with a null pointer");
        check(which > 2 || jz_make_table(which == 0 ? NULL : entities, 1, which == 1 ? NULL : &result, which == 2 ? NULL : answers) == JZ_NULL,
              "a table with a null pointer");
    }
}

/* A page of nested lists, with the spaces that are written before each line. */
static size_t lists_page(char *page, int items) {
    char *end = page;
    for (int depth = 0; depth < 6; depth++) end += sprintf(end, "<div class=level>\n");
    for (int item = 0; item < items; item++)
        end += sprintf(end, "            <li><a href=\"/%d\">Section %d</a> of the <em>guide</em>, and what it is about.</li>\n", item, item);
    return (size_t)(end - page);
}

/* Something is made of a page, in so many parses at the most. */
static void check_parsed(uint32_t task, const void *page, size_t length, long most, const char *what) {
    made it;
    parses = 0;
    check(make(task, page, length, &it) == JZ_OK && parses <= most, what);
    give_back(task, &it);
}

/* How often an ordinary page is parsed, and one whose text or nodes are many for its length. */
static void check_parses(void) {
    static char page[ROOM];
    static const uint32_t tasks[] = { JZ_TREE, TREE, PAGE, PLACED };
    size_t length = lists_page(page, 200);
    for (uint32_t task = 0; task < ALL; task++) {
        set_context(task);
        check_parsed(task, page, length, 1, "the parses of an ordinary page");
    }
    memset(page, '\xff', 4096);
    options.bad_bytes = 1;
    check_parsed(JZ_ERRORS, page, 4096, 1, "the parses of a page of bad bytes for its errors");
    options.bad_bytes = 0;
    for (length = 0; length + 8 < 4096; length += 8) memcpy(page + length, "<b><div>", 8);
    for (int i = 0; i < 4; i++) {
        check_parsed(tasks[i], page, length, 2, "the parses of a page with long texts or many nodes");
        check_rooms(tasks[i], page, length);
    }
}

/* That going through attributes, and looking one up, look at each byte once. */
static void check_attributes(void) {
    enum { ATTRIBUTES = 20000 };
    static char page[24 * ATTRIBUTES];
    char *end = page + sprintf(page, "x<p");
    jz_bytes name, value;
    size_t place = 0, looked;
    made it;
    int is_right = 1;
    for (int i = 0; i < ATTRIBUTES; i++) end += sprintf(end, " a%d=%d", i, i);
    end += sprintf(end, ">");
    check(make(TREE, page, (size_t)(end - page), &it) == JZ_OK, "the parse of many attributes");
    uint32_t node = jz_next(&it.doc, jz_first_child(&it.doc, it.doc.root));
    looked_at = 0;
    check(jz_is(jz_attribute(&it.doc, node, "a19999"), "19999") && looked_at <= it.answer.length, "a look-up among many attributes");
    looked_at = 0;
    check(!jz_attribute(&it.doc, node, "none").bytes && looked_at <= it.answer.length, "a look-up in vain");
    looked_at = looked = 0;
    for (jz_words to_come = jz_attributes(&it.doc, node); jz_next_attribute(&to_come, &name, &value); place++) {
        looked = looked_at;
        if (place % 1000 > 1) continue;
        jz_bytes same_name = jz_attribute_name(&it.doc, node, place), same_value = jz_attribute_value(&it.doc, node, place);
        is_right &= same_name.bytes == name.bytes && same_name.length == name.length && same_value.bytes == value.bytes
            && same_value.length == value.length && name.length == value.length + 1;
        looked_at = looked;
    }
    check(is_right && place == ATTRIBUTES && looked_at <= it.answer.length, "each of many attributes");
    check(!name.bytes && !value.bytes, "what comes after the last attribute");
    give_back(TREE, &it);
}

/* What is answered where there is no such attribute, or no such word. */
static void check_none(void) {
    jz_bytes name, value;
    made it;
    check(make(TREE, "x<p a=0 b>", 10, &it) == JZ_OK, "the parse of two attributes");
    const jz_doc *doc = &it.doc;
    uint32_t first = jz_first_child(doc, doc->root), node = jz_next(doc, first), without[] = { doc->root, first, doc->count, JZ_NONE };
    for (size_t i = 0; i < sizeof without / sizeof *without; i++) {
        jz_words none = jz_attributes(doc, without[i]);
        check(!jz_next_attribute(&none, &name, &value) && !jz_attribute(doc, without[i], "a").bytes
                  && !jz_attribute_name(doc, without[i], 0).bytes, "the attributes of what has none");
    }
    check(jz_is(jz_attribute_name(doc, node, 1), "b") && jz_is(jz_attribute_value(doc, node, 1), ""), "the last attribute");
    for (int i = 0; i < 2; i++) {
        size_t place = i ? SIZE_MAX / 2 + 1 : 2;
        check(!jz_attribute_name(doc, node, place).bytes && !jz_attribute_value(doc, node, place).bytes, "a place after the last");
    }
    check(jz_is(jz_word(doc, node, 2), "0") && !jz_word(doc, node, 5).bytes && !jz_word(doc, node, SIZE_MAX).bytes, "a word by its place");
    give_back(TREE, &it);
}

static void check_keys(void) {
    jz_options one = JZ_STANDARD, other = JZ_STANDARD;
    check(jz_draw_keys(&one) == 1 && jz_draw_keys(&other) == 1 && memcmp(&one.key_low, &other.key_low, 16) != 0, "two draws of keys");
    check(one.entities.bytes == other.entities.bytes && one.entities.bytes[0] == 1 && one.nodes == options.nodes && one.open == options.open
              && one.piece == options.piece && one.escaping == options.escaping && !one.context.length, "the options to begin with");
    check(jz_draw_keys(NULL) == 0, "keys for no options");
}

/* Of the Standard's table a page needs so many bytes, with which each task gives the same as with all of it. */
static void check_needed(const char *page, size_t length, size_t wanted) {
    static uint8_t room[8192];
    jz_bytes none = JZ_NO_BYTES, whole = { jz_standard_entities, sizeof jz_standard_entities };
    jz_bytes needed = jz_entities_for((const uint8_t *)page, length, whole, jz_standard_parts, room, sizeof room);
    check(needed.length == wanted, "how much of the Standard's table a page needs");
    for (uint32_t task = 0; task < TABLE; task++) {
        made some, others;
        set_context(task);
        options.entities = needed;
        check(make(task, page, length, &some) == JZ_OK, "what is made with what a page needs of a table");
        options.entities = whole;
        check(make(task, page, length, &others) == JZ_OK && are_same(task, &some, &others), "what is made with all of a table");
        give_back(task, &some);
        give_back(task, &others);
    }
    options.entities = none;
}

/* Each part begins with its letters, and they are the whole table. */
static void check_entities(void) {
    static const struct { const char *page; size_t wanted; } pages[] = {
        { "", 0 }, { "&", 0 }, { "&amp;", 0 }, { "a & b&", 0 }, { "&#12;&#x", 0 }, { "&lt;&gt;&quot;&nbsp;", 0 }, { "&&", 0 }, { "&amp", 44 },
        { "&am", 44 }, { "x&c", 1 }, { "a&b", 1 }, { "&9", 1 }, { "&&copy", 218 }, { "&COPY&#99;&copy", 239 }, { "&#&#x&#y;&zz;&Copy", 142 },
        { "&amp;&nbs;", 98 }, { "<a b=&copyx c='&copy=&notit;&notin;' d=\"&not;&eacute\">", 430 }, { "<xmp>&copy;</xmp><title>&COPY", 239 } };
    enum { COUNT = sizeof jz_standard_parts / sizeof *jz_standard_parts };
    static char all[3 * COUNT];
    const uint8_t *at = jz_standard_entities + 1;
    for (size_t i = 0; i < sizeof pages / sizeof *pages; i++) check_needed(pages[i].page, strlen(pages[i].page), pages[i].wanted);
    check_needed("&amp;", 4, 44);
    check_needed("&\0copy;&c\0opy;&co\0py;&copy\0;", 28, 218);
    for (size_t i = 0; i < COUNT; at += jz_standard_parts[i++].length) {
        check(*at == '&' && jz_standard_parts[i].letters == (at[1] & 63) * 64 + (at[2] & 63), "the letters of a part");
        check_needed((char *)memcpy(all + 3 * i, at, 3), 3, 1u + jz_standard_parts[i].length);
    }
    check(at == jz_standard_entities + sizeof jz_standard_entities, "the parts of the Standard's table");
    check_needed(all, sizeof all, sizeof jz_standard_entities);
}

static void check_quirks(void) {
    static const char *const may[] = { "&#32;", "<!-- c --><!doctype html>", "</p>", "\xEF\xBB\xBF", "<", "<!doctyp", "\v",
                                       "<?x?>\r<!DocType html public '-//w3c//dtd html 3.2//EN'>", "<!doctype a\"HTML>", "<!doctype'htmL" };
    static const char *const cannot[] = { "", " \t\n\f\r", "x&", "0", "<p><!doctype html public 'html'>", "<p", "<?x \"html", "<!doctype html>'html'",
                                          "<!DOCTYPE html PUBLIC \"-//W3C//DTD XHTML 1.0 Strict//EN\" \"http://www.w3.org/\">", "<!doctype '-//w3c" };
    jz_options standard = JZ_STANDARD;
    for (int i = 0; i < 10; i++) {
        check(jz_quirks_matter((const uint8_t *)may[i], strlen(may[i]), standard.quirks) == 1, "an input for which the quirks list may matter");
        check(jz_quirks_matter((const uint8_t *)cannot[i], strlen(cannot[i]), standard.quirks) == 0, "an input for which the quirks list does not matter");
    }
    check(jz_quirks_matter((const uint8_t *)"<!doctype'htmL", 10, standard.quirks) == 0, "an identifier that is cut off");
}

/* That reading the Standard's lists costs little beside a small page, one of some 5 KB: two or three times that page where nothing else runs
 * on the machine (their JSON takes seventy). */
static void check_lists(void) {
    static char page[ROOM];
    const jz_options lists[] = { JZ_DEFAULTS, JZ_STANDARD };
    size_t length = lists_page(page, 50);
    clock_t best[] = { CLOCKS_PER_SEC, CLOCKS_PER_SEC };
    for (int i = 0; i < 400; i++) {
        made it;
        clock_t took = clock();
        check(jz_parse((const uint8_t *)page, length, &lists[i % 2], &it.doc, &it.answer) == JZ_OK, "a parse that is timed");
        took = clock() - took;
        jz_free(&it.doc);
        if (took < best[i % 2]) best[i % 2] = took;
    }
    printf("a page of %zu bytes: %.0f us, with the Standard's lists %.0f. ", length, best[0] * 1e6 / CLOCKS_PER_SEC, best[1] * 1e6 / CLOCKS_PER_SEC);
    check(best[1] <= 5 * best[0], "the time of a page with the Standard's lists");
}

/* Checks what a process of its own answers. */
static void check_alone(int (*is_right)(void), const char *what) {
    int status;
    fflush(stdout);
    if (fork() == 0) _exit(!is_right());
    check(wait(&status) > 0 && status == 0, what);
}

/* A text is measured, and not made, where it has no room, in 200 MB of memory: 100,000 nested elements, and of half of them the 2.5 GB of
 * indentation. */
static int is_measured(void) {
    enum { DEEP = 100000 };
    static uint8_t page[5 * DEEP];
    struct rlimit most = { 200000000, 200000000 };
    jz_answer answer;
    uint8_t none;
    for (size_t at = 0; at < sizeof page; at += 5) memcpy(page + at, "<div>", 5);
    setrlimit(RLIMIT_AS, &most);
    return jz_text(JZ_WRITE, page, sizeof page, &options, &none, 0, &answer) == JZ_TOO_SHORT && answer.length == 11 * DEEP + strlen("<html><head></head><body></body></html>")
        && jz_text(JZ_TREE, page, sizeof page / 2, &options, &none, 0, &answer) == JZ_TOO_SHORT && answer.length > 2500000000;
}

/* The kilobytes of memory that are resident (VmRSS), or the most that were (VmHWM). */
static long kilobytes(const char *what) {
    char line[128];
    long found = -1;
    FILE *file = fopen("/proc/self/status", "r");
    while (file && fgets(line, sizeof line, file))
        if (!strncmp(line, what, 5)) found = atol(line + 6);
    check(file && !fclose(file) && found >= 0, "the memory that is resident");
    return found;
}

/* Ten parses of 2 MB need no more than 1.5 times the memory of one, and leave little of it behind. (It wants an untried malloc.) */
static int is_given_back(void) {
    static char page[2200000];
    size_t length = lists_page(page, 18000);
    long before = kilobytes("VmRSS"), first = 0;
    for (int i = 0; i < 10; i++) {
        made it;
        if (make(PAGE, page, length, &it) != JZ_OK) return 0;
        give_back(PAGE, &it);
        if (i == 0) first = kilobytes("VmHWM") - before;
    }
    dprintf(1, "a page of %zu bytes: one parse takes %ld KB, ten take %ld and keep %ld. ", length, first, kilobytes("VmHWM") - before, kilobytes("VmRSS") - before);
    return kilobytes("VmRSS") - before <= first / 4 && kilobytes("VmHWM") - before <= first * 3 / 2;
}

/* The rooms of a tree are told in the memory of its parse, however long its words are: of 128 KB, in which each p has a b with the same long
 * attribute, 1 GB. */
static int is_counted(void) {
    static uint8_t page[131072];
    size_t at = 0, half = sizeof page / 2;
    at += (size_t)sprintf((char *)page, "<p><b id=%0*d>", (int)half, 0);
    for (; at + 4 <= sizeof page; at += 4) memcpy(page + at, "<p>x", 4);
    long before = kilobytes("VmRSS"), parse;
    jz_answer answer;
    uint8_t none;
    if (jz_text(JZ_ERRORS, page, at, &options, &none, 0, &answer) != JZ_TOO_SHORT) return 0;
    parse = kilobytes("VmHWM") - before;
    if (jz_tree_rooms(page, at, &options, &answer) != JZ_OK || answer.length <= half * (half / 4 - 64)) return 0;
    dprintf(1, "a tree with %ld MB of words: its parse takes %ld KB, its rooms %ld. ", (long)answer.length >> 20, parse, kilobytes("VmHWM") - before);
    return kilobytes("VmHWM") - before <= 3 * parse;
}

enum { NESTED = 100000, THREADS = 4 };
static uint8_t nested[5 * NESTED];

static void *make_nested(void *it) {
    made *its = (made *)it;
    jz_make_page(nested, sizeof nested, &options, &its->doc, &its->html, &its->page);
    return NULL;
}

/* Threads that share an input and options, each with 96 KB of stack, on deeply nested elements. */
static void check_threads(void) {
    pthread_t threads[THREADS];
    made its[THREADS];
    pthread_attr_t small;
    int is_right = pthread_attr_init(&small) == 0 && pthread_attr_setstacksize(&small, 98304) == 0;
    for (size_t at = 0; at < sizeof nested; at += 5) memcpy(nested + at, "<div>", 5);
    for (int i = 0; i < THREADS; i++) is_right &= !pthread_create(&threads[i], &small, make_nested, &its[i]);
    for (int i = 0; i < THREADS; i++) is_right &= !pthread_join(threads[i], NULL);
    for (int i = 0; i < THREADS; i++) {
        is_right &= its[i].page.status == JZ_OK && its[i].page.text == 11 * NESTED && !memcmp(its[i].html, its[0].html, 11 * NESTED)
            && its[i].doc.count == NESTED + its[i].doc.root + 1;
    }
    check(is_right, "threads that share an input and options");
    for (int i = 0; i < THREADS; i++) give_back(PAGE, &its[i]);
    pthread_attr_destroy(&small);
}

/* Each function once, for valgrind. */
static int call_once(size_t length) {
    for (uint32_t task = 0; task < ALL; task++) {
        set_context(task);
        check_parsed(task, input, length, 3, "a call");
    }
    check_feeders();
    check_sizes(length);
    return failed != 0;
}

int main(int count, char **words) {
    static char long_text[ROOM];
    FILE *file = count > 1 ? fopen(words[1], "rb") : NULL;
    if (!file) return 3;
    size_t length = fread(input, 1, ROOM, file);
    fclose(file);
    if (count > 2) return call_once(length);
    check_alone(is_given_back, "the memory of ten parses");
    check_alone(is_counted, "the memory of a tree whose rooms are told");
    check_alone(is_measured, "a text that is measured");
    memset(long_text, 'x', sizeof long_text);
    const char *pages[] = { (const char *)input, "", "a<svg>", "\xff", long_text };
    size_t lengths[] = { length, 0, 6, 1, sizeof long_text };
    for (uint32_t task = 0; task < ALL; task++) {
        set_context(task);
        check_refused(task, input, length);
        for (int i = 0; task != TABLE && i < 5; i++) check_rooms(task, pages[i], lengths[i]);
    }
    set_context(TREE);
    check_refused(FED, long_text, lists_page(long_text, 150));
    for (int i = 0; i < 4; i++) check_pieces(pages[i], lengths[i]);
    check_feeders();
    check_sizes(length);
    check_places();
    check_threads();
    check_file(words[1], length);
    check_nulls();
    check_keys();
    check_entities();
    check_quirks();
    check_lists();
    check_parses();
    check_attributes();
    check_none();
    printf("%ld passed, %ld failed\n", passed, failed);
    return failed != 0;
}
