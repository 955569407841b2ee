/* Ordinary turns of a client, without ctypes. A Turn has the calls of a session that each command needs,
 * by the names of _calls.py, which says what they do. On a link whose socket it knows it also writes what
 * is to be written, and reads the replies that came. What is out of the ordinary is left to Python: a socket
 * that takes no more, the end of a connection, and a lack of memory. Python tries again, and finds it.
 *
 * Who calls has the client's lock. Only turn_wait lets it go. No code of Python runs in a call, except that
 * of a refusal and, as the lock is taken again, the handlers of signals. */
#define PY_SSIZE_T_CLEAN
#include <Python.h>

#include "_values.h"
#include "slotroute.h"

#include <stdbool.h>
#include <string.h>
#include <sys/epoll.h>
#include <sys/socket.h>
#include <time.h>

enum { WRITE, CLOSE, CONNECT }; /* what a session may want */
enum { ROOM = 65536 };          /* how many bytes are read or written at once */
enum { EVENTS = 64 };           /* how many events are taken at once */

/* Calls of the library, in the order in which Python passes their addresses. */
typedef struct {
    __typeof__(slotroute_session_advance) *advance;
    __typeof__(slotroute_session_begin) *begin;
    __typeof__(slotroute_session_link_to_write) *link_to_write;
    __typeof__(slotroute_session_unwritten) *unwritten;
    __typeof__(slotroute_session_wrote) *wrote;
    __typeof__(slotroute_session_next_time) *next_time;
    __typeof__(slotroute_session_read) *read;
    __typeof__(slotroute_session_ended) *ended;
    __typeof__(slotroute_session_next_reply) *next_reply;
    __typeof__(slotroute_session_reply) *reply;
    __typeof__(slotroute_session_link_to_close) *link_to_close;
    __typeof__(slotroute_session_wanted_node) *wanted_node;
} library;

typedef struct {
    PyObject_HEAD
    library calls;
    slotroute_session *session;
    PyObject *handle;            /* keeps the session where it is */
    PyObject *refused;           /* makes the error of a code */
    PyObject *release, *acquire; /* the names of these methods */
    int *sockets;                /* by the number of the link; -1: not known, so Python reads and writes */
    size_t links;                /* how many numbers sockets has */
    uint8_t bytes[ROOM];
} turn;

static uint64_t now(void) {
    struct timespec time;
    clock_gettime(CLOCK_MONOTONIC, &time);
    return (uint64_t)time.tv_sec * 1000 + (uint64_t)time.tv_nsec / 1000000;
}

/* What a call gives that names no number: None, or the error of its answer. */
static PyObject *unnamed(turn *it, uint32_t answer) {
    if (answer == SLOTROUTE_NOT_THERE)
        Py_RETURN_NONE;
    PyObject *error = PyObject_CallFunction(it->refused, "I", answer);
    if (error != NULL)
        PyErr_SetObject((PyObject *)Py_TYPE(error), error);
    Py_XDECREF(error);
    return NULL;
}

/* The number of the call that a request begins, or the error of its refusal. */
static PyObject *begun(turn *it, uint64_t caller, PyObject *request, uint64_t deadline) {
    char *bytes;
    Py_ssize_t len;
    uint64_t call;
    if (PyBytes_AsStringAndSize(request, &bytes, &len) != 0)
        return NULL;
    uint32_t answer = it->calls.begin(it->session, caller, (uint8_t *)bytes, (size_t)len, deadline, &call);
    return answer == SLOTROUTE_DONE ? PyLong_FromUnsignedLongLong(call)
                                    : PyObject_CallFunction(it->refused, "I", answer);
}

static PyObject *turn_begin_each(turn *it, PyObject *words) {
    unsigned long long caller, deadline;
    PyObject *requests;
    if (!PyArg_ParseTuple(words, "KO!K", &caller, &PyList_Type, &requests, &deadline))
        return NULL;
    Py_ssize_t count = PyList_Size(requests);
    PyObject *calls = PyList_New(count);
    for (Py_ssize_t at = 0; calls != NULL && at < count; at++) {
        PyObject *call = begun(it, caller, PyList_GetItem(requests, at), deadline);
        if (call == NULL || PyList_SetItem(calls, at, call) != 0)
            Py_CLEAR(calls);
    }
    return calls;
}

/* Writes what a link has to be written. Returns whether its socket is known and took all. */
static bool is_written(turn *it, size_t link) {
    int to = link < it->links ? it->sockets[link] : -1;
    size_t count;
    if (to < 0)
        return false;
    while ((count = it->calls.unwritten(it->session, link, it->bytes, ROOM)) > 0) {
        ssize_t written = send(to, it->bytes, count < ROOM ? count : ROOM, MSG_NOSIGNAL);
        if (written < 0)
            return false;
        it->calls.wrote(it->session, link, (size_t)written);
    }
    return true;
}

static PyObject *want(int what, size_t number) { return Py_BuildValue("iK", what, (unsigned long long)number); }

static PyObject *turn_wanted(turn *it, PyObject *Py_UNUSED(none)) {
    size_t number = 0;
    bool has_written = false;
    uint32_t told = it->calls.advance(it->session, now());
    while (it->calls.link_to_write(it->session, &number) == SLOTROUTE_DONE) {
        if (!is_written(it, number))
            return want(WRITE, number);
        has_written = true;
    }
    if (has_written) /* the silence of a link begins at the time that is told next */
        told = it->calls.advance(it->session, now());
    if (it->calls.link_to_close(it->session, &number) == SLOTROUTE_DONE)
        return want(CLOSE, number);
    if (it->calls.wanted_node(it->session, &number) == SLOTROUTE_DONE)
        return want(CONNECT, number);
    return unnamed(it, told == SLOTROUTE_DONE ? SLOTROUTE_NOT_THERE : told);
}

/* Whether an event was that bytes came on a link, and the session took them. */
static bool is_taken(turn *it, const struct epoll_event *event) {
    size_t link = 0;
    while (link < it->links && it->sockets[link] != event->data.fd)
        link++;
    if (link == it->links || event->events != EPOLLIN)
        return false;
    ssize_t count = recv(event->data.fd, it->bytes, ROOM, 0);
    return count > 0 && it->calls.read(it->session, link, it->bytes, (size_t)count) == SLOTROUTE_DONE;
}

/* Takes a lock. If handlers of signals raise meanwhile, the last error is raised then. */
static void acquire(turn *it, PyObject *lock) {
    PyObject *type = NULL, *value = NULL, *trace = NULL, *done;
    while ((done = PyObject_CallMethodObjArgs(lock, it->acquire, NULL)) == NULL) {
        Py_XDECREF(type);
        Py_XDECREF(value);
        Py_XDECREF(trace);
        PyErr_Fetch(&type, &value, &trace);
    }
    Py_DECREF(done);
    PyErr_Restore(type, value, trace);
}

/* Waits for events without Python's lock and without this one, up to so many milliseconds. */
static int wait_without(turn *it, PyObject *lock, int poll, struct epoll_event *events, int longest) {
    PyObject *done = PyObject_CallMethodObjArgs(lock, it->release, NULL);
    int count;
    if (done == NULL)
        return 0;
    Py_DECREF(done);
    Py_BEGIN_ALLOW_THREADS
    count = epoll_wait(poll, events, EVENTS, longest);
    Py_END_ALLOW_THREADS
    acquire(it, lock);
    return count;
}

/* In how many milliseconds the session has to be told the time, but at most so many. */
static int time_left(turn *it, int longest) {
    uint64_t start = now(), time = 0;
    if (it->calls.next_time(it->session, &time) != SLOTROUTE_DONE || time >= start + (uint64_t)longest)
        return longest;
    return time > start ? (int)(time - start) : 0;
}

/* Takes the events of replies that came. Returns the others, or None if no event came at all. */
static PyObject *take(turn *it, const struct epoll_event *events, int count) {
    if (count <= 0)
        Py_RETURN_NONE;
    PyObject *left = PyList_New(0);
    for (int at = 0; left != NULL && at < count; at++) {
        if (is_taken(it, &events[at]))
            continue;
        PyObject *event = Py_BuildValue("iI", events[at].data.fd, events[at].events);
        if (event == NULL || PyList_Append(left, event) != 0)
            Py_CLEAR(left);
        Py_XDECREF(event);
    }
    return left;
}

static PyObject *turn_poll(turn *it, PyObject *poll) {
    struct epoll_event events[EVENTS];
    int fd = PyObject_AsFileDescriptor(poll);
    return fd < 0 ? NULL : take(it, events, epoll_wait(fd, events, EVENTS, 0));
}

static PyObject *turn_wait(turn *it, PyObject *words) {
    struct epoll_event events[EVENTS];
    PyObject *poll, *lock;
    double seconds;
    int fd;
    if (!PyArg_ParseTuple(words, "OOd", &poll, &lock, &seconds) || (fd = PyObject_AsFileDescriptor(poll)) < 0)
        return NULL;
    int longest = time_left(it, (int)(seconds * 1000) + 1);
    int count = wait_without(it, lock, fd, events, longest);
    if (PyErr_Occurred())
        return NULL;
    return take(it, events, it->session->at != NULL ? count : 0); /* another thread may have closed it */
}

static PyObject *turn_next_reply(turn *it, PyObject *Py_UNUSED(none)) {
    slotroute_due_reply due;
    uint32_t answer = it->calls.next_reply(it->session, &due);
    if (answer != SLOTROUTE_DONE)
        return unnamed(it, answer);
    PyObject *reply = PyBytes_FromStringAndSize(NULL, (Py_ssize_t)due.bytes);
    if (reply == NULL)
        return NULL;
    it->calls.reply(it->session, (uint8_t *)PyBytes_AsString(reply), due.bytes);
    return Py_BuildValue("KKN", due.caller, due.call, reply);
}

static PyObject *turn_set_socket(turn *it, PyObject *words) {
    Py_ssize_t link;
    int socket;
    if (!PyArg_ParseTuple(words, "ni", &link, &socket))
        return NULL;
    size_t links = (size_t)link + 1;
    if (links > it->links) {
        int *sockets = PyMem_Realloc(it->sockets, links * sizeof *sockets);
        if (sockets == NULL)
            return PyErr_NoMemory();
        memset(sockets + it->links, -1, (links - it->links) * sizeof *sockets);
        it->sockets = sockets;
        it->links = links;
    }
    it->sockets[link] = socket;
    Py_RETURN_NONE;
}

/* Turn(handle, address of the handle, addresses of the calls as bytes, what makes the error of a code) */
static PyObject *turn_new(PyTypeObject *type, PyObject *words, PyObject *Py_UNUSED(named)) {
    PyObject *handle, *refused;
    const char *addresses;
    Py_ssize_t len;
    unsigned long long session;
    if (!PyArg_ParseTuple(words, "OKy#O", &handle, &session, &addresses, &len, &refused))
        return NULL;
    if (len != sizeof(library))
        return PyErr_Format(PyExc_ValueError, "not the addresses of %zu calls", sizeof(library) / sizeof(void *));
    turn *it = (turn *)PyType_GenericAlloc(type, 0);
    if (it == NULL)
        return NULL;
    memcpy(&it->calls, addresses, sizeof it->calls);
    it->session = (slotroute_session *)(uintptr_t)session;
    it->handle = Py_NewRef(handle);
    it->refused = Py_NewRef(refused);
    it->release = PyUnicode_InternFromString("release");
    it->acquire = PyUnicode_InternFromString("acquire");
    if (it->release == NULL || it->acquire == NULL)
        Py_CLEAR(it);
    return (PyObject *)it;
}

static void turn_free(turn *it) {
    PyTypeObject *type = Py_TYPE(it);
    Py_XDECREF(it->handle);
    Py_XDECREF(it->refused);
    Py_XDECREF(it->release);
    Py_XDECREF(it->acquire);
    PyMem_Free(it->sockets);
    PyObject_Free(it);
    Py_DECREF(type);
}

#define CALL(name, takes) {#name, (PyCFunction)(void (*)(void))turn_##name, takes, NULL}
static PyMethodDef methods[] = {
    CALL(begin_each, METH_VARARGS),
    CALL(next_reply, METH_NOARGS),
    CALL(poll, METH_O),
    CALL(set_socket, METH_VARARGS),
    CALL(wait, METH_VARARGS),
    CALL(wanted, METH_NOARGS),
    {0},
};

static PyType_Slot slots[] = {
    {Py_tp_new, turn_new},
    {Py_tp_dealloc, turn_free},
    {Py_tp_methods, methods},
    {0},
};

static PyType_Spec spec = {"slotroute._turn.Turn", sizeof(turn), 0, Py_TPFLAGS_DEFAULT, slots};

static int fill(PyObject *module) {
    PyObject *type = PyType_FromSpec(&spec);
    int failed = type == NULL || PyModule_AddObjectRef(module, "Turn", type) != 0;
    Py_XDECREF(type);
    return -failed;
}

static PyMethodDef functions[] = {
    {"make_request", values_request, METH_O, NULL},
    {"find_value", values_find, METH_O, NULL},
    {0},
};

static PyModuleDef_Slot steps[] = {{Py_mod_exec, fill}, {0}};
static PyModuleDef module = {
    PyModuleDef_HEAD_INIT, .m_name = "slotroute._turn", .m_methods = functions, .m_slots = steps};

PyMODINIT_FUNC PyInit__turn(void) { return PyModuleDef_Init(&module); }
