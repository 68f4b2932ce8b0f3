/* The module `_records`: makes nodes of Docutils from the records of a document (rst_records in include/rst2pseudoxml.h). _nodes.py makes the
   same nodes from JSON where this module isn't there.

   The bytes may be any: those that aren't records are a ValueError. What was made before this is found is left to the collector. No code in
   Python runs during a call, and the lock of the interpreter is held.

   References are counted by functions: the macros of Python before 3.12 would also count those of objects that have no count later.

   The collector isn't shown the attributes of elements, which refer to texts and numbers alone; so it has less than half as many objects to look at.
   It is shown the dict again, up to Python 3.13, when something is put into it that may refer to others; in later ones it sees the dict always. */
#define Py_LIMITED_API 0x03090000 /* one file serves Python 3.9 and later */
#define PY_SSIZE_T_CLEAN
#include <Python.h>
#include <rst2pseudoxml.h>
#include <string.h>

/* The names of what is set in a node, and of attributes. The lists that each element has follow one another, in Docutils' order. */
enum name { RAWSOURCE, CHILDREN, ATTRIBUTES, TAGNAME, SOURCE, LINE, PARENT, IDS, CLASSES, NAMES, DUPNAMES, BACKREFS, REFID, LEVEL, NAME_COUNT };
static const char *const SPELLED[NAME_COUNT] = {"rawsource", "children", "attributes", "tagname",  "source",   "line",  "parent",
                                                "ids",       "classes",  "names",      "dupnames", "backrefs", "refid", "level"};
enum { FIRST_LIST = IDS, LAST_LIST = BACKREFS };
static const enum name NOTED[] = {IDS, NAMES, DUPNAMES, REFID, LEVEL}; /* what an element is noted for */

/* Made once, when the module is loaded. */
static PyObject *names[NAME_COUNT];
static PyObject *no_source; /* the `rawsource` of all elements, "" */
static PyObject *without;   /* the attributes of an element, with None in the place of its lists */
static newfunc new_element; /* object.__new__ */
static newfunc new_text;    /* str.__new__ */
static PyObject *no_arguments;
static int dicts_return; /* whether a dict is shown to the collector again when it has to be */

/* Bytes of the records, from one place to another. */
struct part {
    const uint8_t *at, *end;
};

/* What the nodes of a call have in common. Nothing of it is owned. */
struct call {
    PyObject *classes;     /* a dict: those of elements, by their tags */
    PyTypeObject *element; /* the one that they are derived from */
    PyTypeObject *text;    /* that of texts */
    PyObject *source;      /* what elements have as their source */
    PyObject *noted;       /* a list, to which elements are added that have an attribute in NOTED */
};

static int malformed(void)
{
    PyErr_SetString(PyExc_ValueError, "these bytes are no records");
    return -1;
}

static size_t length_of(struct part part) { return (size_t)(part.end - part.at); }

/* Takes a number away from the front of a part. -1 if there is none. */
static int take_number(struct part *part, uint64_t *number)
{
    if (length_of(*part) < sizeof *number)
        return malformed();
    memcpy(number, part->at, sizeof *number);
    part->at += sizeof *number;
    return 0;
}

/* Takes bytes, which stand after their number, away from the front of a part. -1 if there are fewer. */
static int take(struct part *part, struct part *taken)
{
    uint64_t length;
    if (take_number(part, &length))
        return -1;
    if (length > length_of(*part))
        return malformed();
    taken->at = part->at;
    taken->end = part->at += length;
    return 0;
}

/* Takes the kind of a node or of a value away from its front. -1 if there is nothing. */
static int take_kind(struct part *part)
{
    return part->at < part->end ? *part->at++ : malformed();
}

static PyObject *text_of(struct part part)
{
    return PyUnicode_DecodeUTF8((const char *)part.at, (Py_ssize_t)length_of(part), NULL);
}

/* A tag or the name of an attribute, interned. These are few, so they are kept, each at a place that a hash of its bytes gives. */
static PyObject *word_of(struct part part)
{
    static struct {
        PyObject *text;
        size_t length;
        uint8_t bytes[24];
    } kept[256], *word;
    size_t length = length_of(part);
    unsigned hash = 0;
    for (size_t i = 0; i < length; i++)
        hash = hash * 31 + part.at[i];
    word = &kept[hash % 256];
    if (word->text && word->length == length && !memcmp(word->bytes, part.at, length)) {
        Py_IncRef(word->text);
        return word->text;
    }
    PyObject *text = text_of(part);
    if (text)
        PyUnicode_InternInPlace(&text);
    if (text && length <= sizeof word->bytes) {
        PyObject *last = word->text;
        Py_IncRef(text);
        word->text = text;
        word->length = length;
        memcpy(word->bytes, part.at, length);
        Py_DecRef(last);
    }
    return text;
}

/* An empty list for texts, which the collector isn't shown. */
static PyObject *list_for_texts(void)
{
    PyObject *list = PyList_New(0);
    if (list)
        PyObject_GC_UnTrack(list);
    return list;
}

static PyObject *texts_of(struct part part)
{
    PyObject *list = list_for_texts();
    while (list && part.at < part.end) {
        struct part member;
        PyObject *text = take(&part, &member) ? NULL : text_of(member);
        if (!text || PyList_Append(list, text))
            Py_CLEAR(list);
        Py_DecRef(text);
    }
    return list;
}

/* What an attribute says. */
static PyObject *value_of(struct part part)
{
    uint64_t number;
    switch (take_kind(&part)) {
    case RST_TEXT:
        return text_of(part);
    case RST_NUMBER:
        return take_number(&part, &number) ? NULL : PyLong_FromUnsignedLongLong(number);
    case RST_TEXTS:
        return texts_of(part);
    }
    malformed();
    return NULL;
}

static int is_noted(const PyObject *name)
{
    for (size_t i = 0; i < sizeof NOTED / sizeof *NOTED; i++)
        if (name == names[NOTED[i]])
            return 1;
    return 0;
}

/* Puts attributes into a dict. 1 if one of them is in NOTED, else 0; -1 if it fails. */
static int put_attributes(PyObject *attributes, struct part part)
{
    int noted = 0;
    while (part.at < part.end) {
        struct part attribute, name;
        if (take(&part, &attribute) || take(&attribute, &name))
            return -1;
        PyObject *key = word_of(name), *value = key ? value_of(attribute) : NULL;
        int failed = !value || PyDict_SetItem(attributes, key, value);
        noted |= is_noted(key);
        Py_DecRef(key);
        Py_DecRef(value);
        if (failed)
            return -1;
    }
    return noted;
}

/* The attributes of an element that has none: its lists, which are empty. */
static PyObject *own_attributes(void)
{
    PyObject *attributes = PyDict_Copy(without);
    for (int name = FIRST_LIST; attributes && name <= LAST_LIST; name++) {
        PyObject *list = list_for_texts();
        if (!list || PyDict_SetItem(attributes, names[name], list))
            Py_CLEAR(attributes);
        Py_DecRef(list);
    }
    return attributes;
}

static int set(PyObject *node, enum name name, PyObject *value) { return PyObject_GenericSetAttr(node, names[name], value); }

/* Sets what an element has, in the order in which Docutils does. 1 if it is to be noted, else 0; -1 if it fails. */
static int set_all(const struct call *call, PyObject *node, PyObject *tag, uint64_t line, struct part given, PyObject *children, PyObject *parent)
{
    PyObject *attributes = own_attributes(), *number = NULL;
    int noted = attributes ? put_attributes(attributes, given) : -1;
    if (noted >= 0 && dicts_return)
        PyObject_GC_UnTrack(attributes);
    if (noted >= 0 && line)
        number = PyLong_FromUnsignedLongLong(line);
    else if (noted >= 0)
        Py_IncRef(number = Py_None);
    if (!number || set(node, RAWSOURCE, no_source) || set(node, CHILDREN, children) || set(node, ATTRIBUTES, attributes) ||
        set(node, TAGNAME, tag) || set(node, SOURCE, call->source) || set(node, LINE, number) || set(node, PARENT, parent))
        noted = -1;
    Py_DecRef(attributes);
    Py_DecRef(number);
    return noted;
}

/* A list with a place for each node of a part. None is in the places, so that the list is a whole one if a node can't be made. */
static PyObject *places_for(struct part part)
{
    struct part node;
    Py_ssize_t count = 0;
    for (; part.at < part.end; count++)
        if (take(&part, &node))
            return NULL;
    PyObject *list = PyList_New(count);
    while (list && count-- > 0) {
        Py_IncRef(Py_None);
        if (PyList_SetItem(list, count, Py_None))
            Py_CLEAR(list);
    }
    return list;
}

static PyObject *node_of(const struct call *call, struct part part, PyObject *parent);

/* Makes the nodes of a part, for a list with their places. */
static int put_nodes(const struct call *call, PyObject *list, struct part part, PyObject *parent)
{
    for (Py_ssize_t place = 0; part.at < part.end; place++) {
        struct part node;
        PyObject *made = take(&part, &node) ? NULL : node_of(call, node, parent);
        if (!made || PyList_SetItem(list, place, made))
            return -1;
    }
    return 0;
}

/* A new element of the class that has this name, in which nothing is set. object.__new__ prepares it for what is set, as tp_alloc doesn't. */
static PyObject *element_of(const struct call *call, PyObject *tag)
{
    PyObject *class = PyDict_GetItemWithError(call->classes, tag);
    if (class && PyType_Check(class) && PyType_IsSubtype((PyTypeObject *)class, call->element))
        return new_element((PyTypeObject *)class, no_arguments, NULL);
    if (!PyErr_Occurred())
        PyErr_SetObject(PyExc_KeyError, tag);
    return NULL;
}

/* An element with all that is in it. It is noted before what is in it. */
static PyObject *whole_element_of(const struct call *call, struct part part, PyObject *parent)
{
    uint64_t line;
    struct part name, given;
    if (take_number(&part, &line) || take(&part, &name) || take(&part, &given) || Py_EnterRecursiveCall(" while nodes are made"))
        return NULL;
    PyObject *tag = word_of(name), *node = tag ? element_of(call, tag) : NULL, *list = node ? places_for(part) : NULL;
    int noted = list ? set_all(call, node, tag, line, given, list, parent) : -1;
    if (noted < 0 || (noted && PyList_Append(call->noted, node)) || put_nodes(call, list, part, node))
        Py_CLEAR(node);
    Py_LeaveRecursiveCall();
    Py_DecRef(list);
    Py_DecRef(tag);
    return node;
}

static PyObject *text_node_of(const struct call *call, struct part part, PyObject *parent)
{
    PyObject *text = text_of(part), *given = text ? PyTuple_Pack(1, text) : NULL, *node = given ? new_text(call->text, given, NULL) : NULL;
    Py_DecRef(text);
    Py_DecRef(given);
    if (node && set(node, PARENT, parent))
        Py_CLEAR(node);
    return node;
}

static PyObject *node_of(const struct call *call, struct part part, PyObject *parent)
{
    switch (take_kind(&part)) {
    case RST_TEXT:
        return text_node_of(call, part, parent);
    case RST_ELEMENT:
        return whole_element_of(call, part, parent);
    }
    malformed();
    return NULL;
}

/* Reads the head of a document: puts its attributes into a dict, and leaves the nodes in it. */
static int open_document(struct part *records, PyObject *attributes)
{
    uint64_t line;
    struct part document, tag, given;
    if (take(records, &document))
        return -1;
    if (take_kind(&document) != RST_ELEMENT || records->at < records->end)
        return PyErr_Occurred() ? -1 : malformed();
    if (take_number(&document, &line) || take(&document, &tag) || take(&document, &given) || put_attributes(attributes, given) < 0)
        return -1;
    *records = document;
    return 0;
}

static PyObject *nodes(PyObject *module, PyObject *given)
{
    struct call call;
    const char *bytes;
    Py_ssize_t length;
    PyObject *document, *attributes;
    (void)module;
    if (!PyArg_ParseTuple(given, "y#OO!O!O!O!OO!:nodes", &bytes, &length, &document, &PyDict_Type, &attributes, &PyDict_Type, &call.classes,
                          &PyType_Type, &call.element, &PyType_Type, &call.text, &call.source, &PyList_Type, &call.noted))
        return NULL;
    if (!PyType_IsSubtype(call.text, &PyUnicode_Type)) {
        PyErr_SetString(PyExc_TypeError, "the class of texts has to be one of str");
        return NULL;
    }
    struct part records = {(const uint8_t *)bytes, (const uint8_t *)bytes + length};
    PyObject *list = open_document(&records, attributes) ? NULL : places_for(records);
    if (list && put_nodes(&call, list, records, document))
        Py_CLEAR(list);
    return list;
}

static PyMethodDef functions[] = {
    {"nodes", nodes, METH_VARARGS,
     "nodes(records, document, attributes, classes, element, text, source, noted)\n--\n\n"
     "The nodes in a document, as a list; its attributes are put into a dict. See _records.pyi."},
    {NULL, NULL, 0, NULL}};

static struct PyModuleDef definition = {PyModuleDef_HEAD_INIT, "_records", "Nodes of Docutils from records of the library.", -1, functions, NULL,
                                        NULL, NULL, NULL};

/* The method __new__ of a class, as a function in C. Python 3.9 gives it only for classes that are made while it runs, so one is made. */
static newfunc new_of(PyTypeObject *class)
{
    static PyType_Slot none[] = {{0, NULL}};
    static PyType_Spec spec = {"rst2pseudoxml._records.Derived", 0, 0, Py_TPFLAGS_DEFAULT, none};
    PyObject *bases = PyTuple_Pack(1, class), *derived = bases ? PyType_FromSpecWithBases(&spec, bases) : NULL;
    newfunc found = derived ? (newfunc)PyType_GetSlot((PyTypeObject *)derived, Py_tp_new) : NULL;
    Py_DecRef(bases);
    Py_DecRef(derived);
    return found;
}

static int prepare(void)
{
    for (int name = 0; name < NAME_COUNT; name++)
        if (!(names[name] = PyUnicode_InternFromString(SPELLED[name])))
            return -1;
    no_source = PyUnicode_FromString("");
    without = PyDict_New();
    for (int name = FIRST_LIST; without && name <= LAST_LIST; name++)
        if (PyDict_SetItem(without, names[name], Py_None))
            return -1;
    no_arguments = PyTuple_New(0);
    dicts_return = without && !PyObject_GC_IsTracked(without);
    return no_source && without && no_arguments && (new_element = new_of(&PyBaseObject_Type)) && (new_text = new_of(&PyUnicode_Type)) ? 0 : -1;
}

PyMODINIT_FUNC PyInit__records(void) { return prepare() ? NULL : PyModule_Create(&definition); }
