/* What the files of the module share: its state, a page, a node, and strings. Python's stable interface of 3.10 is used, and the header of
 * the library. A page never changes once it is made, but that its places are put into it, once and under Python's lock, so threads may
 * share it. */
#ifndef JEANZIRCON_MODULE_H
#define JEANZIRCON_MODULE_H

#define PY_SSIZE_T_CLEAN
#define Py_LIMITED_API 0x030A0000
#include <Python.h>

#include "found.h"
#include "jeanzircon_data.h"

enum { FRAGMENT = 5, KIND_COUNT = 6, NAME_COUNT = 1024 };

/* A name that came already: most names of a page come again and again, and are looked up here in place of being made. */
typedef struct {
    PyObject *text;
    uint8_t length, bytes[31];
} Name;

typedef struct {
    PyTypeObject *page, *node, *walk;
    PyObject *refused, *row, *parse_error; /* classes of jeanzircon/_base.py */
    PyObject *kinds[KIND_COUNT];           /* the texts of a node's kind, by JZ_DOCUMENT to JZ_TEXT_NODE, and that of a fragment's root */
    PyObject *text, *tail, *append;        /* names of attributes and a method of etree's elements */
    jz_options standard;                   /* with the Standard's lists, and keys drawn once */
    Name names[NAME_COUNT];
} State;

typedef struct {
    PyObject_HEAD
    PyObject *input, *given; /* what was parsed, and what was given with it: bytes, and None or a tuple */
    jz_doc doc;
} Page;

typedef struct {
    PyObject_HEAD
    Page *page;
    uint32_t number;
} Node;

/* The types of the module have no subtypes, so the type of an object is one that the module made. */
static inline State *state_of(PyObject *self) { return (State *)PyType_GetModuleState(Py_TYPE(self)); }

/* --- module.c */
PyObject *string(jz_bytes bytes);
PyObject *name(State *state, jz_bytes bytes);
PyObject *kind_of(const State *state, const jz_doc *doc, uint32_t number);
int find_places(State *state, Page *page);

PyObject *give_links(const Links *found, int is_found);

/* --- page.c */
extern PyType_Spec page_spec;
PyObject *new_page(State *state, PyObject *input, PyObject *given, jz_doc *doc);

/* --- node.c */
extern PyType_Spec node_spec, walk_spec;
PyObject *new_node(State *state, Page *page, uint32_t number);
PyObject *new_walk(State *state, Page *page, uint32_t top, PyObject *args);
PyObject *attributes_of(State *state, const jz_doc *doc, uint32_t number, PyObject *fix);
PyObject *fixed(PyObject *fix, const char *what, PyObject *text);

/* --- etree.c */
PyObject *page_etree(PyObject *self, PyObject *args);

#endif
