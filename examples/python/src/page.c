/* A page: it owns its tree, and keeps what it was parsed from. */
#include "module.h"

/* A page of a tree, which it owns from then on; where there is none the tree is freed. */
PyObject *new_page(State *state, PyObject *input, PyObject *given, jz_doc *doc) {
    Page *page = PyObject_GC_New(Page, state->page);
    if (!page) {
        jz_free(doc);
        return NULL;
    }
    page->input = Py_NewRef(input);
    page->given = Py_NewRef(given);
    page->doc = *doc;
    return (PyObject *)page;
}

/* The classes of jeanzircon/_base.py are such that Python's collector may visit an object. It need not: no page or node leads back to itself,
 * so none is tracked. */
static int page_traverse(PyObject *self, visitproc visit, void *arg) {
    Py_VISIT(Py_TYPE(self));
    Py_VISIT(((Page *)self)->given);
    return 0;
}

static void page_free(PyObject *self) {
    PyTypeObject *type = Py_TYPE(self);
    Page *page = (Page *)self;
    jz_free(&page->doc);
    Py_DECREF(page->input);
    Py_DECREF(page->given);
    PyObject_GC_Del(self);
    Py_DECREF(type);
}

static PyObject *page_input(PyObject *self, void *none) {
    (void)none;
    return Py_NewRef(((Page *)self)->input);
}

static PyObject *page_given(PyObject *self, void *none) {
    (void)none;
    return Py_NewRef(((Page *)self)->given);
}

static PyObject *page_root(PyObject *self, void *none) {
    (void)none;
    return new_node(state_of(self), (Page *)self, ((Page *)self)->doc.root);
}

static PyObject *page_errors(PyObject *self, void *none) {
    const jz_doc *doc = &((Page *)self)->doc;
    const State *state = state_of(self);
    PyObject *list = PyList_New((Py_ssize_t)doc->error_count);
    size_t i;
    (void)none;
    for (i = 0; list && i < doc->error_count; i++) {
        const jz_error *error = &doc->errors[i];
        PyObject *it = PyObject_CallFunction(state->parse_error, "Ks", (unsigned long long)error->at, jz_error_name(error->code));
        if (!it || PyList_SetItem(list, (Py_ssize_t)i, it) < 0) Py_CLEAR(list);
    }
    return list;
}

static PyObject *page_error_counts(PyObject *self, void *none) {
    const jz_doc *doc = &((Page *)self)->doc;
    size_t counts[JZ_ERROR_COUNT] = { 0 }, i;
    PyObject *found = PyDict_New();
    (void)none;
    for (i = 0; i < doc->error_count; i++) counts[doc->errors[i].code]++;
    for (i = 0; found && i < JZ_ERROR_COUNT; i++) {
        PyObject *count = counts[i] ? PyLong_FromSize_t(counts[i]) : NULL;
        if (counts[i] && (!count || PyDict_SetItemString(found, jz_error_name((uint32_t)i), count) < 0)) Py_CLEAR(found);
        Py_XDECREF(count);
    }
    return found;
}

static PyObject *page_node(PyObject *self, PyObject *number) {
    unsigned long it = PyLong_AsUnsignedLong(number);
    PyObject *node;
    if (it == (unsigned long)-1 && PyErr_Occurred()) PyErr_Clear();
    node = it < JZ_NONE ? new_node(state_of(self), (Page *)self, (uint32_t)it) : Py_NewRef(Py_None);
    if (node != Py_None) return node;
    Py_DECREF(node);
    return PyErr_Format(PyExc_KeyError, "%R", number);
}

static PyObject *page_links(PyObject *self, PyObject *none) {
    const Page *page = (Page *)self;
    PyObject *list;
    Links found;
    int is_found;
    (void)none;
    Py_BEGIN_ALLOW_THREADS
    is_found = find_links(&page->doc, &found);
    Py_END_ALLOW_THREADS
    list = give_links(&found, is_found);
    free_links(&found);
    return list;
}

static PyObject *page_iter(PyObject *self) { return new_walk(state_of(self), (Page *)self, ((Page *)self)->doc.root, NULL); }
static PyObject *page_iter_by(PyObject *self, PyObject *args) {
    return new_walk(state_of(self), (Page *)self, ((Page *)self)->doc.root, args);
}

/* Whether two pages have the same nodes, words and errors. (No struct of a node has room between its fields.) */
static int is_same(const Page *one, const Page *other) {
    const jz_doc *a = &one->doc, *b = &other->doc;
    size_t i;
    if (a->count != b->count || a->root != b->root || a->words_length != b->words_length || a->error_count != b->error_count) return 0;
    if (memcmp(a->nodes, b->nodes, a->count * sizeof *a->nodes) != 0 || memcmp(a->words, b->words, a->words_length) != 0) return 0;
    for (i = 0; i < a->error_count; i++)
        if (a->errors[i].at != b->errors[i].at || a->errors[i].code != b->errors[i].code) return 0;
    return 1;
}

static PyObject *page_compare(PyObject *self, PyObject *other, int how) {
    if ((how != Py_EQ && how != Py_NE) || Py_TYPE(other) != Py_TYPE(self)) return Py_NewRef(Py_NotImplemented);
    return PyBool_FromLong((self == other || is_same((Page *)self, (Page *)other)) == (how == Py_EQ));
}

static PyMethodDef methods[] = { { "links", page_links, METH_NOARGS, NULL },
                                 { "iter", page_iter_by, METH_VARARGS, NULL },
                                 { "node", page_node, METH_O, NULL },
                                 { "_etree", page_etree, METH_VARARGS, NULL },
                                 { NULL, NULL, 0, NULL } };
static PyGetSetDef gets[] = { { "root", page_root, NULL, NULL, NULL },
                              { "errors", page_errors, NULL, NULL, NULL },
                              { "error_counts", page_error_counts, NULL, NULL, NULL },
                              { "_input", page_input, NULL, NULL, NULL },
                              { "_given", page_given, NULL, NULL, NULL },
                              { NULL, NULL, NULL, NULL, NULL } };
static PyType_Slot slots[] = { { Py_tp_dealloc, (void *)page_free },
                               { Py_tp_traverse, (void *)page_traverse },
                               { Py_tp_iter, (void *)page_iter },
                               { Py_tp_richcompare, (void *)page_compare },
                               { Py_tp_methods, methods },
                               { Py_tp_getset, gets },
                               { 0, NULL } };
#define FLAGS (Py_TPFLAGS_DEFAULT | Py_TPFLAGS_HAVE_GC | Py_TPFLAGS_DISALLOW_INSTANTIATION)
PyType_Spec page_spec = { "jeanzircon._c.Page", sizeof(Page), 0, FLAGS, slots };
