/* A node, which is a page and a number, and a walk over nodes. Both hold the page. */
#include "module.h"

#define DOC(self) (&((Node *)(self))->page->doc)
#define NUMBER(self) (((Node *)(self))->number)

/* A node of a page, or None where it has none of this number. */
PyObject *new_node(State *state, Page *page, uint32_t number) {
    Node *node;
    if (jz_kind(&page->doc, number) == JZ_NONE) return Py_NewRef(Py_None);
    if (!(node = PyObject_GC_New(Node, state->node))) return NULL;
    node->page = (Page *)Py_NewRef((PyObject *)page);
    node->number = number;
    return (PyObject *)node;
}

/* As in page.c. */
static int node_traverse(PyObject *self, visitproc visit, void *arg) {
    Py_VISIT(Py_TYPE(self));
    Py_VISIT((PyObject *)((Node *)self)->page);
    return 0;
}

static void node_free(PyObject *self) {
    PyTypeObject *type = Py_TYPE(self);
    Py_DECREF(((Node *)self)->page);
    PyObject_GC_Del(self);
    Py_DECREF(type);
}

static PyObject *node_page(PyObject *self, void *none) {
    (void)none;
    return Py_NewRef((PyObject *)((Node *)self)->page);
}

static PyObject *node_number(PyObject *self, void *none) {
    (void)none;
    return PyLong_FromUnsignedLong(NUMBER(self));
}

static PyObject *node_kind(PyObject *self, void *none) {
    (void)none;
    return kind_of(state_of(self), DOC(self), NUMBER(self));
}

static PyObject *node_name(PyObject *self, void *none) {
    jz_bytes it = jz_name(DOC(self), NUMBER(self));
    (void)none;
    return it.bytes ? name(state_of(self), it) : Py_NewRef(Py_None);
}

static PyObject *node_data(PyObject *self, void *none) {
    jz_bytes it = jz_data(DOC(self), NUMBER(self));
    (void)none;
    return it.bytes ? string(it) : Py_NewRef(Py_None);
}

static PyObject *node_place(PyObject *self, void *none) {
    uint64_t place;
    (void)none;
    if (!DOC(self)->places && !find_places(state_of(self), ((Node *)self)->page)) return NULL;
    place = jz_place(DOC(self), NUMBER(self));
    return place == JZ_NOWHERE ? Py_NewRef(Py_None) : PyLong_FromUnsignedLongLong(place);
}

static PyObject *node_parent(PyObject *self, void *none) {
    (void)none;
    return new_node(state_of(self), ((Node *)self)->page, jz_parent(DOC(self), NUMBER(self)));
}

static PyObject *node_next(PyObject *self, void *none) {
    (void)none;
    return new_node(state_of(self), ((Node *)self)->page, jz_next(DOC(self), NUMBER(self)));
}

/* Puts what was made at the end of a list. Where there is nothing, or no room, the list is freed, and null. */
static void put(PyObject **list, PyObject *made) {
    if (!made || PyList_Append(*list, made) < 0) Py_CLEAR(*list);
    Py_XDECREF(made);
}

static PyObject *node_children(PyObject *self, void *none) {
    const jz_doc *doc = DOC(self);
    State *state = state_of(self);
    PyObject *list = PyList_New(0);
    uint32_t child;
    (void)none;
    for (child = jz_first_child(doc, NUMBER(self)); list && child != JZ_NONE; child = jz_next(doc, child))
        put(&list, new_node(state, ((Node *)self)->page, child));
    return list;
}

static PyObject *node_words(PyObject *self, void *none) {
    jz_words left = jz_words_of(DOC(self), NUMBER(self));
    PyObject *list = PyList_New(0);
    jz_bytes it;
    (void)none;
    while (list && (it = jz_next_word(&left)).bytes) put(&list, string(it));
    return list;
}

static PyObject *node_row(PyObject *self, void *none) {
    const jz_node *it = &DOC(self)->nodes[NUMBER(self)];
    (void)none;
    return PyObject_CallFunction(state_of(self)->row, "IIIII", NUMBER(self), it->kind, it->parent, it->first_child, it->next);
}

/* What `fix` makes of a text of this kind; the text itself where it is null. It takes the text over. */
PyObject *fixed(PyObject *fix, const char *what, PyObject *text) {
    PyObject *made;
    if (!fix || !text) return text;
    made = PyObject_CallFunction(fix, "sO", what, text);
    Py_DECREF(text);
    return made;
}

/* The attributes of an element, each name and value as `fix` gives it. */
PyObject *attributes_of(State *state, const jz_doc *doc, uint32_t number, PyObject *fix) {
    jz_words left = jz_attributes(doc, number);
    PyObject *dict = PyDict_New();
    jz_bytes key, value;
    while (dict && jz_next_attribute(&left, &key, &value)) {
        PyObject *one = fixed(fix, "name", name(state, key)), *other = fixed(fix, "text", one ? string(value) : NULL);
        if (!one || !other || PyDict_SetItem(dict, one, other) < 0) Py_CLEAR(dict);
        Py_XDECREF(one);
        Py_XDECREF(other);
    }
    return dict;
}

static PyObject *node_attributes(PyObject *self, void *none) {
    (void)none;
    return attributes_of(state_of(self), DOC(self), NUMBER(self), NULL);
}

static PyObject *node_get(PyObject *self, PyObject *args) {
    PyObject *wanted, *other = Py_None;
    const char *key;
    Py_ssize_t length;
    jz_words left = jz_attributes(DOC(self), NUMBER(self));
    jz_bytes found, value;
    if (!PyArg_ParseTuple(args, "U|O:get", &wanted, &other) || !(key = PyUnicode_AsUTF8AndSize(wanted, &length))) return NULL;
    while (jz_next_attribute(&left, &found, &value))
        if (found.length == (size_t)length && memcmp(found.bytes, key, found.length) == 0) return string(value);
    return Py_NewRef(other);
}

/* The texts at or inside a node one after another, written to `to` where it is not null. Returns their bytes. */
static size_t join_texts(const jz_doc *doc, uint32_t top, uint8_t *to) {
    size_t length = 0;
    uint32_t node;
    for (node = top; node != JZ_NONE; node = jz_after(doc, node, top)) {
        jz_bytes it;
        if (jz_kind(doc, node) != JZ_TEXT_NODE) continue;
        it = jz_data(doc, node);
        if (to) memcpy(to + length, it.bytes, it.length);
        length += it.length;
    }
    return length;
}

static PyObject *node_text(PyObject *self, PyObject *none) {
    const jz_doc *doc = DOC(self);
    size_t length = join_texts(doc, NUMBER(self), NULL);
    uint8_t *all = (uint8_t *)malloc(length + 1);
    PyObject *text;
    (void)none;
    if (!all) return PyErr_NoMemory();
    join_texts(doc, NUMBER(self), all);
    text = string(jz_lent(all, length));
    free(all);
    return text;
}

static PyObject *node_compare(PyObject *self, PyObject *other, int how) {
    int is_same;
    if ((how != Py_EQ && how != Py_NE) || Py_TYPE(other) != Py_TYPE(self)) return Py_NewRef(Py_NotImplemented);
    is_same = ((Node *)self)->page == ((Node *)other)->page && NUMBER(self) == NUMBER(other);
    return PyBool_FromLong(is_same == (how == Py_EQ));
}

static Py_hash_t node_hash(PyObject *self) {
    Py_hash_t hash = (Py_hash_t)(((size_t)((Node *)self)->page >> 4) ^ (size_t)NUMBER(self) * 1000003u);
    return hash == -1 ? -2 : hash;
}

/* --- A walk: the nodes inside `top` in tree order, or of these the elements of a name. */
typedef struct {
    PyObject_HEAD
    Page *page;
    uint32_t next, top;
    PyObject *name; /* bytes, or null */
} Walk;

/* A walk; `args` are those of iter, or null. */
PyObject *new_walk(State *state, Page *page, uint32_t top, PyObject *args) {
    PyObject *wanted = Py_None, *bytes = NULL;
    Walk *walk;
    if (args && !PyArg_ParseTuple(args, "|O:iter", &wanted)) return NULL;
    if (wanted != Py_None && !PyUnicode_Check(wanted)) return PyErr_Format(PyExc_TypeError, "the name of elements is a str");
    if (wanted != Py_None && !(bytes = PyUnicode_AsUTF8String(wanted))) return NULL;
    if (!(walk = PyObject_New(Walk, state->walk))) {
        Py_XDECREF(bytes);
        return NULL;
    }
    walk->page = (Page *)Py_NewRef((PyObject *)page);
    walk->top = top;
    walk->next = jz_after(&page->doc, top, top);
    walk->name = bytes;
    return (PyObject *)walk;
}

static int is_wanted(const Walk *walk, uint32_t number) {
    jz_bytes it;
    if (!walk->name) return 1;
    if (jz_kind(&walk->page->doc, number) != JZ_ELEMENT) return 0;
    it = jz_name(&walk->page->doc, number);
    return it.bytes && it.length == (size_t)PyBytes_Size(walk->name) && memcmp(it.bytes, PyBytes_AsString(walk->name), it.length) == 0;
}

static PyObject *walk_next(PyObject *self) {
    Walk *walk = (Walk *)self;
    while (walk->next != JZ_NONE) {
        uint32_t number = walk->next;
        walk->next = jz_after(&walk->page->doc, number, walk->top);
        if (is_wanted(walk, number)) return new_node(state_of(self), walk->page, number);
    }
    return NULL;
}

static void walk_free(PyObject *self) {
    PyTypeObject *type = Py_TYPE(self);
    Py_DECREF(((Walk *)self)->page);
    Py_XDECREF(((Walk *)self)->name);
    PyObject_Free(self);
    Py_DECREF(type);
}

static PyObject *node_iter(PyObject *self) { return new_walk(state_of(self), ((Node *)self)->page, NUMBER(self), NULL); }
static PyObject *node_iter_by(PyObject *self, PyObject *args) { return new_walk(state_of(self), ((Node *)self)->page, NUMBER(self), args); }

static PyMethodDef methods[] = { { "get", node_get, METH_VARARGS, NULL },
                                 { "iter", node_iter_by, METH_VARARGS, NULL },
                                 { "text", node_text, METH_NOARGS, NULL },
                                 { NULL, NULL, 0, NULL } };
static PyGetSetDef gets[] = { { "page", node_page, NULL, NULL, NULL },
                              { "number", node_number, NULL, NULL, NULL },
                              { "kind", node_kind, NULL, NULL, NULL },
                              { "name", node_name, NULL, NULL, NULL },
                              { "data", node_data, NULL, NULL, NULL },
                              { "place", node_place, NULL, NULL, NULL },
                              { "attributes", node_attributes, NULL, NULL, NULL },
                              { "parent", node_parent, NULL, NULL, NULL },
                              { "next", node_next, NULL, NULL, NULL },
                              { "children", node_children, NULL, NULL, NULL },
                              { "words", node_words, NULL, NULL, NULL },
                              { "row", node_row, NULL, NULL, NULL },
                              { NULL, NULL, NULL, NULL, NULL } };
static PyType_Slot slots[] = { { Py_tp_dealloc, (void *)node_free },
                               { Py_tp_traverse, (void *)node_traverse },
                               { Py_tp_iter, (void *)node_iter },
                               { Py_tp_richcompare, (void *)node_compare },
                               { Py_tp_hash, (void *)node_hash },
                               { Py_tp_methods, methods },
                               { Py_tp_getset, gets },
                               { 0, NULL } };
static PyType_Slot walk_slots[] = { { Py_tp_dealloc, (void *)walk_free },
                                    { Py_tp_iter, (void *)PyObject_SelfIter },
                                    { Py_tp_iternext, (void *)walk_next },
                                    { 0, NULL } };
#define FLAGS (Py_TPFLAGS_DEFAULT | Py_TPFLAGS_DISALLOW_INSTANTIATION)
PyType_Spec node_spec = { "jeanzircon._c.Node", sizeof(Node), 0, FLAGS | Py_TPFLAGS_HAVE_GC, slots };
PyType_Spec walk_spec = { "jeanzircon._c.Walk", sizeof(Walk), 0, FLAGS, walk_slots };
