/* A tree of etree's elements, made by the functions of xml.etree or of lxml, as html5lib makes it without namespaces: a document is its
 * html element, a fragment an element DOCUMENT_FRAGMENT. */
#include "module.h"

typedef struct {
    State *state;
    const jz_doc *doc;
    PyObject *element, *sub, *comment; /* what makes an element, one in another, a comment */
    PyObject *fix;                     /* makes of a name, a text or a comment one that is allowed; null: all are */
    PyObject **open;                   /* the elements that are open */
    size_t depth, room;
    PyObject *last; /* the element or comment before the next text, in the innermost that is open; null if none */
} Builder;

/* Opens an element, which it takes over. Returns 0 where memory runs out. */
static int open_element(Builder *it, PyObject *element) {
    if (it->depth == it->room) {
        size_t room = 2 * it->room + 64;
        PyObject **more = (PyObject **)realloc(it->open, room * sizeof *more);
        if (!more) {
            Py_DECREF(element);
            PyErr_NoMemory();
            return 0;
        }
        it->open = more;
        it->room = room;
    }
    it->open[it->depth++] = element;
    Py_CLEAR(it->last);
    return 1;
}

static void close_element(Builder *it) {
    Py_XDECREF(it->last);
    it->last = it->open[--it->depth];
}

/* The element of a node: in the innermost that is open, or by itself. */
static PyObject *element_of(Builder *it, uint32_t node) {
    jz_bytes bytes = jz_name(it->doc, node);
    PyObject *tag = bytes.bytes ? fixed(it->fix, "name", name(it->state, bytes)) : PyUnicode_FromString("DOCUMENT_FRAGMENT");
    PyObject *attributes = tag ? attributes_of(it->state, it->doc, node, it->fix) : NULL, *made = NULL;
    if (attributes && it->depth) made = PyObject_CallFunctionObjArgs(it->sub, it->open[it->depth - 1], tag, attributes, NULL);
    else if (attributes) made = PyObject_CallFunctionObjArgs(it->element, tag, attributes, NULL);
    Py_XDECREF(tag);
    Py_XDECREF(attributes);
    return made;
}

static int put_comment(Builder *it, uint32_t node) {
    PyObject *data = fixed(it->fix, "comment", string(jz_data(it->doc, node)));
    PyObject *made = data ? PyObject_CallFunctionObjArgs(it->comment, data, NULL) : NULL, *done = NULL;
    if (made) done = PyObject_CallMethodObjArgs(it->open[it->depth - 1], it->state->append, made, NULL);
    Py_XDECREF(data);
    Py_XDECREF(done);
    Py_XDECREF(it->last);
    it->last = made;
    return done != NULL;
}

static int put_text(Builder *it, uint32_t node) {
    PyObject *data = fixed(it->fix, "text", string(jz_data(it->doc, node))), *at = it->last ? it->last : it->open[it->depth - 1];
    int status = data ? PyObject_SetAttr(at, it->last ? it->state->tail : it->state->text, data) : -1;
    Py_XDECREF(data);
    return status == 0;
}

/* A node is entered; 0 and an exception where that fails. An element stays open until it is left. */
static int enter(Builder *it, uint32_t node) {
    PyObject *made;
    switch (jz_kind(it->doc, node)) {
    case JZ_ELEMENT:
        made = element_of(it, node);
        return made && open_element(it, made);
    case JZ_COMMENT:
        return put_comment(it, node);
    case JZ_TEXT_NODE:
        return put_text(it, node);
    default:
        return 1;
    }
}

/* Makes the tree of a node and all inside it, and leaves it in `last`. */
static int build(Builder *it, uint32_t top) {
    uint32_t node = top, next;
    while (node != JZ_NONE) {
        if (!enter(it, node)) return 0;
        next = jz_first_child(it->doc, node);
        while (next == JZ_NONE && node != JZ_NONE) {
            if (jz_kind(it->doc, node) == JZ_ELEMENT) close_element(it);
            if (node == top) return 1;
            next = jz_next(it->doc, node);
            if (next == JZ_NONE) node = jz_parent(it->doc, node);
        }
        node = next;
    }
    return 1;
}

/* The html element of a document, or a fragment's root. */
static uint32_t top_of(const jz_doc *doc) {
    uint32_t node = doc->root;
    if (jz_kind(doc, node) != JZ_DOCUMENT) return node;
    for (node = jz_first_child(doc, node); node != JZ_NONE; node = jz_next(doc, node))
        if (jz_kind(doc, node) == JZ_ELEMENT) break;
    return node;
}

PyObject *page_etree(PyObject *self, PyObject *args) {
    Builder it;
    int is_built;
    memset(&it, 0, sizeof it);
    it.state = state_of(self);
    it.doc = &((Page *)self)->doc;
    if (!PyArg_ParseTuple(args, "OOOO:_etree", &it.element, &it.sub, &it.comment, &it.fix)) return NULL;
    if (it.fix == Py_None) it.fix = NULL;
    is_built = build(&it, top_of(it.doc));
    while (it.depth) Py_DECREF(it.open[--it.depth]);
    free(it.open);
    if (!is_built) Py_CLEAR(it.last);
    else if (!it.last) PyErr_SetString(PyExc_ValueError, "the page has no element");
    return it.last;
}
