/* The module jeanzircon._c: pages, links, texts and tables, over the library that is linked in. The lock of Python is given up while the
 * library works. What is called here is called by jeanzircon/__init__.py alone, which has prepared what it hands in. */
#include "module.h"

static State *state_in(PyObject *module) { return (State *)PyModule_GetState(module); }

PyObject *string(jz_bytes bytes) { return PyUnicode_DecodeUTF8((const char *)bytes.bytes, (Py_ssize_t)bytes.length, "strict"); }

/* Puts a name in the place of another. */
static PyObject *kept(Name *place, jz_bytes bytes) {
    PyObject *text = string(bytes), *old = place->text;
    if (!text) return NULL;
    place->text = text;
    place->length = (uint8_t)bytes.length;
    memcpy(place->bytes, bytes.bytes, bytes.length);
    Py_XDECREF(old);
    return Py_NewRef(text);
}

/* A text that has often come already. */
PyObject *name(State *state, jz_bytes bytes) {
    uint32_t hash = 2166136261u;
    Name *place;
    size_t i;
    if (bytes.length > sizeof place->bytes) return string(bytes);
    for (i = 0; i < bytes.length; i++) hash = (hash ^ bytes.bytes[i]) * 16777619u;
    place = &state->names[(hash ^ hash >> 15) % NAME_COUNT];
    if (place->text && place->length == bytes.length && memcmp(place->bytes, bytes.bytes, bytes.length) == 0) return Py_NewRef(place->text);
    return kept(place, bytes);
}

PyObject *kind_of(const State *state, const jz_doc *doc, uint32_t number) {
    uint32_t kind = jz_kind(doc, number);
    return Py_NewRef(state->kinds[number == doc->root && kind == JZ_ELEMENT ? FRAGMENT : kind]);
}

/* The bytes of an object; 0 and an exception where it is none of bytes. */
static int lent(PyObject *from, jz_bytes *bytes) {
    char *start;
    Py_ssize_t length;
    if (PyBytes_AsStringAndSize(from, &start, &length) < 0) return 0;
    *bytes = jz_lent((const uint8_t *)start, (size_t)length);
    return 1;
}

static int is_tuple(PyObject *it) {
    if (!PyTuple_Check(it)) PyErr_SetString(PyExc_TypeError, "a tuple is wanted");
    return PyTuple_Check(it);
}

/* Reads what is given with an input, a tuple as `given` of jeanzircon/_base.py makes it. None stands for what is the Standard's, or drawn. */
static int read_given(PyObject *given, jz_options *options) {
    PyObject *context, *entities, *quirks, *keys;
    unsigned long long nodes, open, piece, key_high, key_low;
    unsigned int escaping, bad_bytes;
    if (!is_tuple(given) || !PyArg_ParseTuple(given, "OOOKKKOII", &context, &entities, &quirks, &nodes, &open, &piece, &keys, &escaping, &bad_bytes))
        return 0;
    if (!lent(context, &options->context)) return 0;
    if (entities != Py_None && !lent(entities, &options->entities)) return 0;
    if (quirks != Py_None && !lent(quirks, &options->quirks)) return 0;
    if (keys != Py_None) {
        if (!is_tuple(keys) || !PyArg_ParseTuple(keys, "KK", &key_high, &key_low)) return 0;
        options->key_high = key_high;
        options->key_low = key_low;
    }
    options->nodes = nodes;
    options->open = open;
    options->piece = piece;
    options->escaping = escaping;
    options->bad_bytes = bad_bytes;
    return 1;
}

/* Raises Refused. */
static PyObject *refuse(const State *state, const jz_answer *answer) {
    PyObject *value = PyObject_CallFunction(state->refused, "IIK", answer->status, answer->detail, (unsigned long long)answer->at);
    if (value) PyErr_SetObject(state->refused, value);
    Py_XDECREF(value);
    return NULL;
}

/* What each call on an input has. */
typedef struct {
    State *state;
    PyObject *input, *given;
    jz_bytes bytes;
    jz_options options;
    jz_answer answer;
    uint8_t entities[8192];
} Call;

/* Of the Standard's lists a call has what its input needs. */
static int read_call(State *state, PyObject *input, PyObject *given, Call *call) {
    static const jz_options core = JZ_DEFAULTS;
    jz_options *options = &call->options;
    call->state = state;
    call->input = input;
    call->given = given;
    *options = state->standard;
    if (!lent(input, &call->bytes) || (given != Py_None && !read_given(given, options))) return 0;
    if (options->entities.bytes == state->standard.entities.bytes)
        options->entities = jz_entities_for(call->bytes.bytes, call->bytes.length, options->entities, jz_standard_parts, call->entities, sizeof call->entities);
    if (options->quirks.bytes == state->standard.quirks.bytes && !jz_quirks_matter(call->bytes.bytes, call->bytes.length, options->quirks))
        options->quirks = core.quirks;
    return 1;
}

/* Finds the places of a page's nodes, by another parse of its input. Those that another thread has found meanwhile are kept. */
int find_places(State *state, Page *page) {
    Call call;
    jz_doc doc;
    if (!read_call(state, page->input, page->given, &call)) return 0;
    Py_BEGIN_ALLOW_THREADS
    jz_parse_places(call.bytes.bytes, call.bytes.length, &call.options, &doc, &call.answer);
    Py_END_ALLOW_THREADS
    if (call.answer.status != JZ_OK) return refuse(state, &call.answer) != NULL;
    if (!page->doc.places) {
        page->doc.places = doc.places;
        doc.places = NULL;
    }
    jz_free(&doc);
    return 1;
}

static PyObject *module_parse(PyObject *module, PyObject *args) {
    PyObject *input, *given;
    Call call;
    jz_doc doc;
    if (!PyArg_ParseTuple(args, "OO", &input, &given) || !read_call(state_in(module), input, given, &call)) return NULL;
    Py_BEGIN_ALLOW_THREADS
    jz_parse(call.bytes.bytes, call.bytes.length, &call.options, &doc, &call.answer);
    Py_END_ALLOW_THREADS
    if (call.answer.status != JZ_OK) return refuse(call.state, &call.answer);
    return new_page(call.state, call.input, call.given, &doc);
}

static PyObject *pair(PyObject *one, PyObject *other) {
    PyObject *both = one && other ? PyTuple_Pack(2, one, other) : NULL;
    Py_XDECREF(one);
    Py_XDECREF(other);
    return both;
}

/* A list of each link's href and text. */
PyObject *give_links(const Links *found, int is_found) {
    PyObject *list = is_found ? PyList_New((Py_ssize_t)found->count) : PyErr_NoMemory();
    size_t i;
    for (i = 0; list && i < found->count; i++) {
        const Link *link = &found->links[i];
        PyObject *it = pair(string(link->href), string(jz_lent(found->text + link->begin, link->end - link->begin)));
        if (!it || PyList_SetItem(list, (Py_ssize_t)i, it) < 0) Py_CLEAR(list);
    }
    return list;
}

static PyObject *module_links(PyObject *module, PyObject *args) {
    PyObject *input, *given;
    Call call;
    Links found;
    PyObject *list;
    jz_doc doc;
    int is_found = 0;
    if (!PyArg_ParseTuple(args, "OO", &input, &given) || !read_call(state_in(module), input, given, &call)) return NULL;
    Py_BEGIN_ALLOW_THREADS
    if (jz_parse(call.bytes.bytes, call.bytes.length, &call.options, &doc, &call.answer) == JZ_OK)
        is_found = find_links(&doc, &found);
    Py_END_ALLOW_THREADS
    if (call.answer.status != JZ_OK) return refuse(call.state, &call.answer);
    list = give_links(&found, is_found);
    free_links(&found);
    jz_free(&doc);
    return list;
}

/* What jeanzircon.crawl says of a page, or None where there are too many links. */
static PyObject *module_said(PyObject *module, PyObject *args) {
    PyObject *input, *given, *bytes;
    Py_ssize_t room;
    Text said = { NULL, 0, 0 };
    Call call;
    jz_doc doc;
    if (!PyArg_ParseTuple(args, "OOn", &input, &given, &room) || !read_call(state_in(module), input, given, &call)) return NULL;
    Py_BEGIN_ALLOW_THREADS
    if (jz_parse(call.bytes.bytes, call.bytes.length, &call.options, &doc, &call.answer) == JZ_OK)
        said = said_of(&doc, room < 0 ? 0 : (size_t)room);
    jz_free(&doc);
    Py_END_ALLOW_THREADS
    if (call.answer.status != JZ_OK) return refuse(call.state, &call.answer);
    if (!said.text) return PyErr_NoMemory();
    bytes = said.length ? PyBytes_FromStringAndSize(said.text, (Py_ssize_t)said.length) : Py_NewRef(Py_None);
    free(said.text);
    return bytes;
}

/* Bytes of a block, which is freed; a refusal where there is none. */
static PyObject *written(const State *state, uint8_t *block, const jz_answer *answer) {
    PyObject *bytes;
    if (answer->status != JZ_OK) return refuse(state, answer);
    bytes = PyBytes_FromStringAndSize((const char *)block, (Py_ssize_t)answer->length);
    free(block);
    return bytes;
}

static PyObject *module_text(PyObject *module, PyObject *args) {
    PyObject *input, *given;
    unsigned int task;
    uint8_t *text;
    Call call;
    if (!PyArg_ParseTuple(args, "IOO", &task, &input, &given) || !read_call(state_in(module), input, given, &call)) return NULL;
    Py_BEGIN_ALLOW_THREADS
    jz_make_text(task, call.bytes.bytes, call.bytes.length, &call.options, &text, &call.answer);
    Py_END_ALLOW_THREADS
    return written(call.state, text, &call.answer);
}

static PyObject *module_table(PyObject *module, PyObject *entities) {
    jz_answer answer;
    jz_bytes bytes;
    uint8_t *table;
    if (!lent(entities, &bytes)) return NULL;
    Py_BEGIN_ALLOW_THREADS
    jz_make_table(bytes.bytes, bytes.length, &table, &answer);
    Py_END_ALLOW_THREADS
    return written(state_in(module), table, &answer);
}

static PyObject *module_standard(PyObject *module, PyObject *none) {
    const jz_options *it = &state_in(module)->standard;
    (void)none;
    return Py_BuildValue("(y#y#)", it->entities.bytes, (Py_ssize_t)it->entities.length, it->quirks.bytes, (Py_ssize_t)it->quirks.length);
}

static PyObject *module_version(PyObject *module, PyObject *none) {
    (void)module;
    (void)none;
    return PyLong_FromUnsignedLong(jz_version());
}

/* --- The module. */
static PyTypeObject *new_type(PyObject *module, PyType_Spec *spec, PyObject *base) {
    PyObject *bases = base ? PyTuple_Pack(1, base) : NULL;
    PyTypeObject *type = base && !bases ? NULL : (PyTypeObject *)PyType_FromModuleAndSpec(module, spec, bases);
    Py_XDECREF(bases);
    return type && PyModule_AddType(module, type) == 0 ? type : NULL;
}

/* The types are those of jeanzircon/_base.py with what is done in C. */
static int make_types(PyObject *module, State *state, PyObject *base) {
    PyObject *page = PyObject_GetAttrString(base, "Page"), *node = PyObject_GetAttrString(base, "Node");
    if (page && node) {
        state->page = new_type(module, &page_spec, page);
        state->node = new_type(module, &node_spec, node);
        state->walk = new_type(module, &walk_spec, NULL);
    }
    Py_XDECREF(page);
    Py_XDECREF(node);
    state->refused = PyObject_GetAttrString(base, "Refused");
    state->row = PyObject_GetAttrString(base, "Row");
    state->parse_error = PyObject_GetAttrString(base, "ParseError");
    return state->page && state->node && state->walk && state->refused && state->row && state->parse_error;
}

static int make_texts(State *state) {
    static const char *const kinds[KIND_COUNT] = { "document", "doctype", "element", "comment", "text", "fragment" };
    int i;
    for (i = 0; i < KIND_COUNT; i++)
        if (!(state->kinds[i] = PyUnicode_InternFromString(kinds[i]))) return 0;
    state->text = PyUnicode_InternFromString("text");
    state->tail = PyUnicode_InternFromString("tail");
    state->append = PyUnicode_InternFromString("append");
    return state->text && state->tail && state->append;
}

static int module_exec(PyObject *module) {
    static const jz_options standard = JZ_STANDARD;
    State *state = state_in(module);
    PyObject *base = PyImport_ImportModule("jeanzircon._base");
    int is_made = base && make_types(module, state, base) && make_texts(state);
    Py_XDECREF(base);
    state->standard = standard;
    if (is_made && !jz_draw_keys(&state->standard)) {
        PyErr_SetString(PyExc_OSError, "no random bytes");
        return -1;
    }
    return is_made ? 0 : -1;
}

static int module_traverse(PyObject *module, visitproc visit, void *arg) {
    State *state = state_in(module);
    Py_VISIT(state->page);
    Py_VISIT(state->node);
    Py_VISIT(state->walk);
    Py_VISIT(state->refused);
    Py_VISIT(state->row);
    Py_VISIT(state->parse_error);
    return 0;
}

static int module_clear(PyObject *module) {
    State *state = state_in(module);
    int i;
    Py_CLEAR(state->page);
    Py_CLEAR(state->node);
    Py_CLEAR(state->walk);
    Py_CLEAR(state->refused);
    Py_CLEAR(state->row);
    Py_CLEAR(state->parse_error);
    Py_CLEAR(state->text);
    Py_CLEAR(state->tail);
    Py_CLEAR(state->append);
    for (i = 0; i < KIND_COUNT; i++) Py_CLEAR(state->kinds[i]);
    for (i = 0; i < NAME_COUNT; i++) Py_CLEAR(state->names[i].text);
    return 0;
}

static void module_free(void *module) { module_clear((PyObject *)module); }

static PyMethodDef functions[] = { { "parse", module_parse, METH_VARARGS, NULL },
                                   { "links", module_links, METH_VARARGS, NULL },
                                   { "said", module_said, METH_VARARGS, NULL },
                                   { "text", module_text, METH_VARARGS, NULL },
                                   { "table", module_table, METH_O, NULL },
                                   { "standard", module_standard, METH_NOARGS, NULL },
                                   { "version", module_version, METH_NOARGS, NULL },
                                   { NULL, NULL, 0, NULL } };
static PyModuleDef_Slot slots[] = { { Py_mod_exec, (void *)module_exec }, { 0, NULL } };
static struct PyModuleDef definition = { PyModuleDef_HEAD_INIT, "jeanzircon._c", NULL, sizeof(State), functions, slots,
                                         module_traverse, module_clear, module_free };

PyMODINIT_FUNC PyInit__c(void) { return PyModuleDef_Init(&definition); }
