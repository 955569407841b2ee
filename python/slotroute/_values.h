/* Requests and values as most are. Python has the others, and says what is wrong with them. */
#ifndef SLOTROUTE_VALUES_H
#define SLOTROUTE_VALUES_H

#include <Python.h>

#pragma GCC visibility push(hidden)

/* The request of a tuple of words, or None if one of them is neither bytes nor text. */
PyObject *values_request(PyObject *module, PyObject *words);

/* The value of a whole reply, or NotImplemented: of an error, a number below 0, arrays that are deep in
 * others, and of what is no reply. */
PyObject *values_find(PyObject *module, PyObject *reply);

#pragma GCC visibility pop

#endif
