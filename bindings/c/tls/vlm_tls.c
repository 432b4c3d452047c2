/* TLS between memory and memory, by OpenSSL. */
#define OPENSSL_NO_FILENAMES /* (so what is made is the same in each folder) */
#include "vlm_tls.h"

#include <limits.h>
#include <openssl/err.h>
#include <openssl/ssl.h>
#include <openssl/x509v3.h>
#include <stdio.h>
#include <stdlib.h>
#include <string.h>

/* OpenSSL tells an alert by the number of a reason: that of the alert, and this. The bytes of the certificates that the
 * other side may show: to read many costs long, before any is checked. How often it may change its keys. */
enum { ALERTS = 1000, SCRATCH = 4096, MOST_CERTIFICATES = 8 << 10, MOST_UPDATES = 64 };

struct vlm_tls_keys {
    SSL_CTX *context;
};

struct vlm_tls {
    SSL *ssl;
    BIO *in, *out; /* of `ssl` */
    unsigned updates;
    char reason[VLM_TLS_REASON];
};

/* The text of an error of OpenSSL. */
static const char *text_of(unsigned long error) {
    const char *text = ERR_SYSTEM_ERROR(error) ? strerror(ERR_GET_REASON(error)) : ERR_reason_error_string(error);
    return text != NULL ? text : "it fails";
}

/* (without this OpenSSL would ask at the terminal) */
static int no_passphrase(char *text, int room, int is_for_writing, void *context) {
    (void)text, (void)room, (void)is_for_writing, (void)context;
    return 0;
}

/* Has clients told which authority is asked for. */
static bool name_authority(SSL_CTX *context, const char *file) {
    BIO *from = BIO_new_file(file, "r");
    size_t count = 0;
    X509 *read;
    while (from != NULL && (read = PEM_read_bio_X509(from, NULL, no_passphrase, NULL)) != NULL) {
        count += SSL_CTX_add_client_CA(context, read) == 1;
        X509_free(read);
    }
    BIO_free(from);
    ERR_clear_error(); /* (the end of the file is one) */
    return count != 0;
}

/* Reads the files into a context. Returns the name of the one that is wrong, or null. */
static const char *read_files(SSL_CTX *context, const struct vlm_tls_files *files) {
    if (SSL_CTX_use_certificate_chain_file(context, files->certificate) != 1)
        return files->certificate;
    if (SSL_CTX_use_PrivateKey_file(context, files->key, SSL_FILETYPE_PEM) != 1
        || SSL_CTX_check_private_key(context) != 1)
        return files->key;
    if (SSL_CTX_load_verify_file(context, files->authority) != 1 || !name_authority(context, files->authority))
        return files->authority;
    return NULL;
}

/* No session is resumed by TLS: each connection shows its certificate. */
static SSL_CTX *new_context(void) {
    SSL_CTX *context = SSL_CTX_new(TLS_method());
    if (context == NULL || SSL_CTX_set_min_proto_version(context, TLS1_3_VERSION) != 1) {
        SSL_CTX_free(context);
        return NULL;
    }
    SSL_CTX_set_default_passwd_cb(context, no_passphrase);
    SSL_CTX_set_mode(context, SSL_MODE_RELEASE_BUFFERS | SSL_MODE_AUTO_RETRY);
    SSL_CTX_set_session_cache_mode(context, SSL_SESS_CACHE_OFF);
    SSL_CTX_set_num_tickets(context, 0);
    SSL_CTX_set_max_cert_list(context, MOST_CERTIFICATES);
    return context;
}

static void free_keys(vlm_tls_keys *keys) {
    if (keys != NULL)
        SSL_CTX_free(keys->context);
    free(keys);
}

/* Says that the other side will refuse the certificate, if that has run out or is not valid yet. */
static void check_dates(SSL_CTX *context, const char *file, char *reason) {
    const X509 *shown = SSL_CTX_get0_certificate(context);
    bool is_early = X509_cmp_current_time(X509_get0_notBefore(shown)) > 0;
    bool is_late = X509_cmp_current_time(X509_get0_notAfter(shown)) < 0;
    if (is_early || is_late)
        snprintf(reason, VLM_TLS_REASON, "%s: the certificate %s", file, is_late ? "has expired" : "is not yet valid");
}

/* Threads may still run when the program ends, so OpenSSL is told before all else to free nothing of its own then. */
static vlm_tls_keys *read_keys(const struct vlm_tls_files *files, char *reason) {
    OPENSSL_init_crypto(OPENSSL_INIT_NO_ATEXIT, NULL);
    ERR_clear_error();
    vlm_tls_keys *keys = calloc(1, sizeof *keys);
    if (keys != NULL)
        keys->context = new_context();
    const char *wrong = keys == NULL || keys->context == NULL ? "OpenSSL" : read_files(keys->context, files);
    if (wrong == NULL) {
        check_dates(keys->context, files->certificate, reason);
        return keys;
    }
    snprintf(reason, VLM_TLS_REASON, "%s: %s", wrong, text_of(ERR_peek_error()));
    ERR_clear_error();
    free_keys(keys);
    return NULL;
}

static void tls_close(vlm_tls *tls) {
    if (tls != NULL)
        SSL_free(tls->ssl);
    free(tls);
}

/* The certificate of the service has to be of this host. Only its alternative names count: the CN of a client's may be
 * any text, and so look like a host. */
static bool want_host(SSL *ssl, const char *host) {
    X509_VERIFY_PARAM *wanted = SSL_get0_param(ssl);
    X509_VERIFY_PARAM_set_hostflags(wanted, X509_CHECK_FLAG_NEVER_CHECK_SUBJECT | X509_CHECK_FLAG_NO_PARTIAL_WILDCARDS);
    ASN1_OCTET_STRING *address = a2i_IPADDRESS(host);
    ASN1_OCTET_STRING_free(address);
    if (address != NULL)
        return X509_VERIFY_PARAM_set1_ip_asc(wanted, host) == 1;
    return X509_VERIFY_PARAM_set1_host(wanted, host, 0) == 1 && SSL_set_tlsext_host_name(ssl, host) == 1;
}

/* Counts how often the other side changes its keys. Each change costs, so too many end the connection. */
static void on_message(int is_out, int version, int kind, const void *bytes, size_t len, SSL *ssl, void *context) {
    vlm_tls *tls = context;
    (void)version, (void)ssl;
    if (!is_out && kind == SSL3_RT_HANDSHAKE && len > 0 && *(const uint8_t *)bytes == SSL3_MT_KEY_UPDATE
        && ++tls->updates > MOST_UPDATES)
        BIO_reset(tls->in);
}

static bool begin(vlm_tls *tls, const vlm_tls_keys *keys, const char *host) {
    tls->ssl = SSL_new(keys->context);
    tls->in = BIO_new(BIO_s_mem());
    tls->out = BIO_new(BIO_s_mem());
    if (tls->ssl == NULL || tls->in == NULL || tls->out == NULL) {
        BIO_free(tls->in);
        BIO_free(tls->out);
        return false;
    }
    SSL_set_bio(tls->ssl, tls->in, tls->out);
    SSL_set_msg_callback(tls->ssl, on_message);
    SSL_set_msg_callback_arg(tls->ssl, tls);
    SSL_set_verify(tls->ssl, SSL_VERIFY_PEER | SSL_VERIFY_FAIL_IF_NO_PEER_CERT, NULL);
    if (host == NULL)
        SSL_set_accept_state(tls->ssl);
    else
        SSL_set_connect_state(tls->ssl);
    return host == NULL || want_host(tls->ssl, host);
}

static vlm_tls *tls_open(const vlm_tls_keys *keys, const char *host) {
    ERR_clear_error();
    vlm_tls *tls = calloc(1, sizeof *tls);
    if (tls == NULL || begin(tls, keys, host))
        return tls;
    tls_close(tls);
    ERR_clear_error();
    return NULL;
}

static bool hear(vlm_tls *tls, const void *bytes, size_t len) {
    size_t taken;
    return len == 0 || (BIO_write_ex(tls->in, bytes, len, &taken) == 1 && taken == len);
}

/* Notes why a call has failed. */
static void note_reason(vlm_tls *tls) {
    unsigned long error = ERR_peek_error();
    int reason = ERR_GET_REASON(error);
    long verified = SSL_get_verify_result(tls->ssl);
    if (tls->reason[0] != 0)
        return;
    if (!ERR_SYSTEM_ERROR(error) && reason == SSL_R_CERTIFICATE_VERIFY_FAILED && verified != X509_V_OK)
        snprintf(tls->reason, sizeof tls->reason, "its certificate: %s", X509_verify_cert_error_string(verified));
    else if (!ERR_SYSTEM_ERROR(error) && reason >= ALERTS && reason <= ALERTS + UINT8_MAX)
        snprintf(tls->reason, sizeof tls->reason, "it refuses: %s", SSL_alert_desc_string_long(reason - ALERTS));
    else
        snprintf(tls->reason, sizeof tls->reason, "%s", text_of(error));
}

/* What a call of OpenSSL came to that has not succeeded. */
static int ended(vlm_tls *tls, int result) {
    int kind = SSL_get_error(tls->ssl, result);
    if (kind == SSL_ERROR_WANT_READ || kind == SSL_ERROR_WANT_WRITE)
        return 0;
    if (kind == SSL_ERROR_ZERO_RETURN)
        return VLM_TLS_ENDED;
    note_reason(tls);
    ERR_clear_error();
    return VLM_TLS_FAILED;
}

static int shake(vlm_tls *tls) {
    ERR_clear_error();
    int result = SSL_do_handshake(tls->ssl);
    int found = result == 1 ? 1 : ended(tls, result);
    return found == VLM_TLS_ENDED ? VLM_TLS_FAILED : found;
}

static long tls_read(vlm_tls *tls, void *bytes, size_t room) {
    ERR_clear_error();
    int count = SSL_read(tls->ssl, bytes, room < INT_MAX ? (int)room : INT_MAX);
    if (tls->updates > MOST_UPDATES) {
        snprintf(tls->reason, sizeof tls->reason, "it changes its keys too often");
        return VLM_TLS_FAILED;
    }
    return count > 0 ? count : ended(tls, count);
}

static bool tls_write(vlm_tls *tls, const void *bytes, size_t len) {
    size_t taken;
    ERR_clear_error();
    int result = len == 0 ? 1 : SSL_write_ex(tls->ssl, bytes, len, &taken);
    if (result != 1)
        ended(tls, result);
    return result == 1;
}

static void end(vlm_tls *tls) {
    ERR_clear_error();
    if (SSL_is_init_finished(tls->ssl))
        SSL_shutdown(tls->ssl);
    ERR_clear_error();
}

static const void *output(const vlm_tls *tls, size_t *len) {
    char *bytes = NULL;
    long have = BIO_get_mem_data(tls->out, &bytes);
    *len = have > 0 ? (size_t)have : 0;
    return bytes;
}

static void sent(vlm_tls *tls, size_t len) {
    uint8_t scratch[SCRATCH];
    while (len > 0) {
        int count = BIO_read(tls->out, scratch, len < SCRATCH ? (int)len : SCRATCH);
        if (count <= 0)
            return;
        len -= (size_t)count;
    }
}

/* Whether a text is a name, and its copy. */
static bool copy_name(const uint8_t *text, int len, char name[VLM_TLS_NAME]) {
    if (len <= 0 || len >= VLM_TLS_NAME)
        return false;
    for (int at = 0; at < len; at++)
        if (text[at] <= ' ' || text[at] > '~')
            return false;
    memcpy(name, text, (size_t)len);
    name[len] = 0;
    return true;
}

static bool name_of(const vlm_tls *tls, char name[VLM_TLS_NAME]) {
    const X509 *shown = SSL_get0_peer_certificate(tls->ssl);
    const X509_NAME *subject = shown != NULL ? X509_get_subject_name(shown) : NULL;
    int place = subject != NULL ? X509_NAME_get_index_by_NID(subject, NID_commonName, -1) : -1;
    if (place < 0 || X509_NAME_get_index_by_NID(subject, NID_commonName, place) >= 0)
        return false;
    uint8_t *text = NULL;
    int len = ASN1_STRING_to_UTF8(&text, X509_NAME_ENTRY_get_data(X509_NAME_get_entry(subject, place)));
    bool is_name = copy_name(text, len, name);
    OPENSSL_free(text);
    ERR_clear_error();
    return is_name;
}

static const char *reason_of(const vlm_tls *tls) { return tls->reason; }

const struct vlm_tls_calls vlm_tls_calls = {read_keys, free_keys, tls_open, tls_close, hear,    shake,    tls_read,
                                            tls_write, end,       output,   sent,      name_of, reason_of};
