#define PY_SSIZE_T_CLEAN
#include "_values.h"

#include <string.h>

enum { DEEPEST = 8 };      /* how deep arrays may be in arrays */
enum { MOST_DIGITS = 18 }; /* how many digits a number may have */

/* The bytes of a word of a request, or NULL if it has others than these. */
static const char *text_of(PyObject *word, size_t *len) {
    Py_ssize_t size = 0;
    const char *text = NULL;
    if (PyUnicode_CheckExact(word)) {
        text = PyUnicode_AsUTF8AndSize(word, &size);
    } else if (PyBytes_CheckExact(word)) {
        text = PyBytes_AsString(word);
        size = PyBytes_Size(word);
    }
    *len = (size_t)size;
    return text;
}

/* The length of a line that has a mark and a number. */
static size_t line_len(size_t number) {
    size_t len = sizeof "*0\r\n" - 1;
    for (; number >= 10; number /= 10)
        len++;
    return len;
}

/* Writes such a line. Returns where it ends. */
static char *put_line(char *to, char mark, size_t number) {
    char *end = to + line_len(number), *at = end - 2;
    memcpy(at, "\r\n", 2);
    for (*to = mark; --at > to; number /= 10)
        *at = (char)('0' + number % 10);
    return end;
}

/* The length of the request of words, or 0 if one of them has no text. */
static size_t request_len(PyObject *words, size_t count) {
    size_t whole = line_len(count), len;
    for (size_t at = 0; at < count; at++) {
        if (text_of(PyTuple_GetItem(words, (Py_ssize_t)at), &len) == NULL)
            return 0;
        whole += line_len(len) + len + 2;
    }
    return whole;
}

PyObject *values_request(PyObject *Py_UNUSED(module), PyObject *words) {
    size_t count = (size_t)PyTuple_Size(words), whole = request_len(words, count), len;
    if (whole == 0) {
        PyErr_Clear();
        Py_RETURN_NONE;
    }
    PyObject *request = PyBytes_FromStringAndSize(NULL, (Py_ssize_t)whole);
    if (request == NULL)
        return NULL;
    char *to = put_line(PyBytes_AsString(request), '*', count);
    for (size_t at = 0; at < count; at++) {
        const char *text = text_of(PyTuple_GetItem(words, (Py_ssize_t)at), &len);
        to = put_line(to, '$', len);
        memcpy(to, text, len);
        memcpy(to + len, "\r\n", 2);
        to += len + 2;
    }
    return request;
}

/* Bytes of a reply that are not read yet. */
typedef struct {
    const char *at, *end;
} unread;

/* Reads a line. Returns its first byte, and its length without its end, or NULL if it has no end. */
static const char *read_line(unread *it, size_t *len) {
    const char *start = it->at, *end = memchr(start, '\r', (size_t)(it->end - start));
    if (end == NULL || it->end - end < 2 || end[1] != '\n')
        return NULL;
    *len = (size_t)(end - start);
    it->at = end + 2;
    return start;
}

/* The number in a line after its mark, or -1 if there is none, or a long one. */
static Py_ssize_t number_of(const char *digits, size_t len) {
    Py_ssize_t number = 0;
    if (len == 0 || len > MOST_DIGITS)
        return -1;
    for (size_t at = 0; at < len; at++) {
        if (digits[at] < '0' || digits[at] > '9')
            return -1;
        number = 10 * number + (digits[at] - '0');
    }
    return number;
}

static PyObject *read_value(unread *it, int depth);

static PyObject *read_array(unread *it, Py_ssize_t count, int depth) {
    PyObject *values = PyList_New(0);
    for (; values != NULL && count > 0; count--) {
        PyObject *value = read_value(it, depth);
        if (value == NULL || PyList_Append(values, value) != 0)
            Py_CLEAR(values);
        Py_XDECREF(value);
    }
    return values;
}

static PyObject *read_bulk(unread *it, Py_ssize_t len) {
    const char *text = it->at;
    if (it->end - text - 2 < len)
        return NULL;
    it->at += len + 2;
    return PyBytes_FromStringAndSize(text, len);
}

/* The value of the next reply, or NULL. */
static PyObject *read_value(unread *it, int depth) {
    size_t len;
    const char *line = read_line(it, &len);
    if (line == NULL || len == 0)
        return NULL;
    char mark = line[0];
    Py_ssize_t number = number_of(line + 1, len - 1);
    if (mark == '+')
        return PyBytes_FromStringAndSize(line + 1, (Py_ssize_t)len - 1);
    if (len == 3 && (memcmp(line, "$-1", 3) == 0 || memcmp(line, "*-1", 3) == 0))
        Py_RETURN_NONE;
    if (mark == '$' && number >= 0)
        return read_bulk(it, number);
    if (mark == ':' && number >= 0)
        return PyLong_FromSsize_t(number);
    if (mark == '*' && number >= 0 && depth > 0)
        return read_array(it, number, depth - 1);
    return NULL;
}

PyObject *values_find(PyObject *Py_UNUSED(module), PyObject *reply) {
    unread rest = {.at = PyBytes_AsString(reply)};
    if (rest.at == NULL)
        return NULL;
    rest.end = rest.at + PyBytes_Size(reply);
    PyObject *value = read_value(&rest, DEEPEST);
    if (value != NULL && rest.at == rest.end)
        return value;
    Py_XDECREF(value);
    PyErr_Clear();
    Py_RETURN_NOTIMPLEMENTED;
}
