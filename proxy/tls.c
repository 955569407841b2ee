#include "tls.h"

#ifdef PROXY_TLS
#include "peer.h"

#include <errno.h>
#include <openssl/err.h>
#include <openssl/ssl.h>
#include <pthread.h>
#include <stdio.h>
#include <sys/epoll.h>
#include <sys/socket.h>

enum { FOR_CLIENTS, FOR_NODES, KINDS, MOST_WRITTEN = 1 << 30 };

static SSL_CTX *contexts[KINDS];
static pthread_mutex_t lock = PTHREAD_MUTEX_INITIALIZER; /* of `contexts` */

/* Reads what the settings name. Returns what is missing or wrong, or NULL. */
static const char *read_files(SSL_CTX *it, const settings *from) {
    const char *cert = from->tls_cert, *key = from->tls_key, *authority = from->tls_ca;
    key = key != NULL ? key : cert;
    if (cert != NULL && SSL_CTX_use_certificate_chain_file(it, cert) != 1)
        return cert;
    if (cert != NULL && SSL_CTX_use_PrivateKey_file(it, key, SSL_FILETYPE_PEM) != 1)
        return key;
    if (authority == NULL)
        return SSL_CTX_set_default_verify_paths(it) == 1 ? NULL : "tls-ca";
    return SSL_CTX_load_verify_locations(it, authority, NULL) == 1 ? NULL : authority;
}

/* What connections of a kind have in common, or NULL, and then `wrong` has what is wrong. No session is kept
 * or resumed, so that none takes memory. */
static SSL_CTX *context_new(int kind, const settings *from, const char **wrong) {
    SSL_CTX *it = SSL_CTX_new(kind == FOR_NODES ? TLS_client_method() : TLS_server_method());
    int check = SSL_VERIFY_PEER | (kind == FOR_CLIENTS ? SSL_VERIFY_FAIL_IF_NO_PEER_CERT : 0);
    *wrong = it == NULL ? "no memory" : NULL;
    if (it == NULL)
        return NULL;
    SSL_CTX_set_min_proto_version(it, TLS1_2_VERSION);
    SSL_CTX_set_options(it, SSL_OP_NO_RENEGOTIATION | SSL_OP_IGNORE_UNEXPECTED_EOF | SSL_OP_NO_TICKET);
    SSL_CTX_set_session_cache_mode(it, SSL_SESS_CACHE_OFF);
    SSL_CTX_set_mode(it, SSL_MODE_ENABLE_PARTIAL_WRITE | SSL_MODE_ACCEPT_MOVING_WRITE_BUFFER |
                             SSL_MODE_RELEASE_BUFFERS);
    bool is_checked = kind == FOR_NODES || from->tls_auth_clients;
    SSL_CTX_set_verify(it, is_checked ? check : SSL_VERIFY_NONE, NULL);
    *wrong = read_files(it, from);
    if (*wrong == NULL)
        return it;
    SSL_CTX_free(it);
    return NULL;
}

/* Has new connections of a kind use what was read, if anything was. */
static void use(int kind, SSL_CTX *found) {
    if (found == NULL)
        return;
    pthread_mutex_lock(&lock);
    SSL_CTX_free(contexts[kind]);
    contexts[kind] = found;
    pthread_mutex_unlock(&lock);
}

const char *tls_start(const settings *from) {
    static char fault[500];
    SSL_CTX *found[KINDS] = {NULL, NULL};
    const char *wrong = NULL;
    if (from->tls && from->tls_cert == NULL)
        return "tls needs tls-cert";
    ERR_clear_error();
    if (from->tls)
        found[FOR_CLIENTS] = context_new(FOR_CLIENTS, from, &wrong);
    if (from->node_tls && wrong == NULL)
        found[FOR_NODES] = context_new(FOR_NODES, from, &wrong);
    if (wrong == NULL) {
        use(FOR_CLIENTS, found[FOR_CLIENTS]);
        use(FOR_NODES, found[FOR_NODES]);
        return NULL;
    }
    SSL_CTX_free(found[FOR_CLIENTS]);
    snprintf(fault, sizeof fault, "%s: %s", wrong, ERR_error_string(ERR_peek_error(), NULL));
    return fault;
}

bool tls_begin(peer *peer) {
    int kind = peer->kind == PEER_NODE ? FOR_NODES : FOR_CLIENTS, domain = 0;
    socklen_t len = sizeof domain;
    const char *name = the_proxy.settings.node_tls_name;
    getsockopt(peer->fd, SOL_SOCKET, SO_DOMAIN, &domain, &len);
    if (domain == AF_UNIX || !(kind == FOR_NODES ? the_proxy.settings.node_tls : the_proxy.settings.tls))
        return true;
    pthread_mutex_lock(&lock);
    SSL *it = peer->tls = SSL_new(contexts[kind]);
    pthread_mutex_unlock(&lock);
    if (it == NULL || SSL_set_fd(it, peer->fd) != 1)
        return false;
    if (kind == FOR_CLIENTS)
        SSL_set_accept_state(it);
    else
        SSL_set_connect_state(it);
    return kind == FOR_CLIENTS || name == NULL ||
           (SSL_set1_host(it, name) == 1 && SSL_set_tlsext_host_name(it, name) == 1);
}

bool tls_is_shaken(const peer *peer) { return peer->tls == NULL || SSL_is_init_finished(peer->tls); }

static const char *reason_of(const peer *peer) {
    long verified = SSL_get_verify_result(peer->tls);
    return verified != X509_V_OK ? X509_verify_cert_error_string(verified)
                                 : ERR_reason_error_string(ERR_peek_error());
}

int tls_shake(worker *worker, peer *peer, const char **why) {
    if (tls_is_shaken(peer))
        return 1;
    ERR_clear_error();
    int done = SSL_do_handshake(peer->tls), fault = SSL_get_error(peer->tls, done);
    bool waits = fault == SSL_ERROR_WANT_READ || fault == SSL_ERROR_WANT_WRITE;
    if (waits)
        peer_watch(worker, peer, fault == SSL_ERROR_WANT_READ ? EPOLLIN : EPOLLOUT);
    else if (done != 1)
        *why = reason_of(peer);
    return done == 1 ? 1 : waits ? 0 : -1;
}

/* A record is read whole or not at all: there is room for the longest. */
ssize_t tls_read(const peer *peer, uint8_t *into, size_t room, bool *is_end) {
    size_t count = 0;
    int last = 1;
    ERR_clear_error();
    while (last > 0 && room - count >= SSL3_RT_MAX_PLAIN_LENGTH) {
        last = SSL_read(peer->tls, into + count, (int)(room - count));
        count += last > 0 ? (size_t)last : 0;
    }
    int fault = SSL_get_error(peer->tls, last);
    *is_end = fault == SSL_ERROR_ZERO_RETURN;
    errno = fault == SSL_ERROR_WANT_READ ? EAGAIN : EPROTO; /* a peer that has us write first is closed */
    return count > 0 || *is_end ? (ssize_t)count : -1;
}

ssize_t tls_write(const peer *peer, const uint8_t *bytes, size_t len) {
    ERR_clear_error();
    int count = SSL_write(peer->tls, bytes, len < MOST_WRITTEN ? (int)len : MOST_WRITTEN);
    errno = SSL_get_error(peer->tls, count) == SSL_ERROR_WANT_WRITE ? EAGAIN : EPROTO;
    return count > 0 ? count : -1;
}

void tls_shut(const peer *peer) {
    if (peer->tls != NULL && SSL_is_init_finished(peer->tls))
        SSL_shutdown(peer->tls);
}

void tls_free(peer *peer) {
    SSL_free(peer->tls);
    peer->tls = NULL;
}
#else
const char *tls_start(const settings *from) {
    bool is_wanted = from->tls || from->node_tls;
    return is_wanted ? "this program was made without TLS: make TLS=1" : NULL;
}
bool tls_begin(peer *peer) { return peer->tls == NULL; }
int tls_shake(worker *worker, peer *peer, const char **why) {
    return (void)worker, (void)why, tls_begin(peer);
}
bool tls_is_shaken(const peer *peer) { return peer->tls == NULL; }
ssize_t tls_read(const peer *peer, uint8_t *into, size_t room, bool *is_end) {
    return (void)into, *is_end = peer->tls == NULL && room == 0, -1;
}
ssize_t tls_write(const peer *peer, const uint8_t *bytes, size_t len) {
    return (void)peer, (void)bytes, (void)len, -1;
}
void tls_shut(const peer *peer) { (void)peer; }
void tls_free(peer *peer) { peer->tls = NULL; }
#endif
