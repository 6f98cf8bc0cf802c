/*
 * libepmd_client, a client of the Erlang port mapper daemon, epmd. The manual page is epmd_client(3).
 *
 * A node of distributed Erlang registers its name and its port with the port mapper of its host. Other nodes look the port up by the name.
 * The calls come in two groups. Those over a socket send one request and read its reply. Those over bytes are for programs with sockets,
 * threads or an event loop of their own: they write a request into a buffer, and read a reply from a buffer.
 *
 * The library is written in Rattle, which is Rust with contracts. Each call is proved to meet its contract, and its comment says the
 * contract in words. No proof covers which bytes a socket delivered or accepted.
 *
 * Rules for all calls:
 *
 * - Ownership: the caller owns each argument. A call keeps no pointer and no memory, and closes no socket, so nothing has to be freed.
 * - Pointers: no pointer is NULL, even if its number of bytes is 0, as in `(const uint8_t *)"", 0`. A number of bytes is at most
 *   PTRDIFF_MAX. Memory that a call may change overlaps no other argument. The behavior is undefined otherwise.
 * - Results: a call that does not return EPMD_OK leaves what its arguments point to unchanged, unless its comment says otherwise.
 *   EPMD_NO_MEMORY has the lowest rank: it is returned only if nothing else is wrong with the arguments. After a call `errno` has no
 *   meaning.
 * - Memory: what a call allocates by `malloc`, it frees before it returns.
 * - Byte order: numbers in structures are in the order of the machine. Requests and replies are big-endian.
 * - Threads: any thread may make any call, as long as no two concurrent calls use the same socket, or memory that one of them may change.
 *   Make no call in a signal handler, nor in the child of a `fork` by a process with threads before `execve`.
 */
#ifndef EPMD_CLIENT_H
#define EPMD_CLIENT_H

#include <stddef.h>
#include <stdint.h>

#ifdef __cplusplus
extern "C" {
#endif

/* The version of this header, and of the library that came with it. */
#define EPMD_CLIENT_VERSION "1.2.0"

/* The statuses that calls return. epmd_status_text says what each one means. */
enum {
    EPMD_OK = 0,

    /* A name or extra bytes are wrong. No request was written or sent. */
    EPMD_NAME_EMPTY = 1,
    EPMD_NAME_TOO_LONG = 2,
    EPMD_NAME_BAD_BYTE = 3,
    EPMD_EXTRA_TOO_LONG = 4,

    /* A reply. */
    EPMD_SHORT = 5,
    EPMD_BAD_TAG = 6,
    EPMD_STRANGE = 7,
    EPMD_REFUSED = 8,
    EPMD_NOT_REGISTERED = 9,

    /* A list that is read line by line. */
    EPMD_STRANGE_LINE = 10,
    EPMD_LIST_END = 11,

    /* A call over a socket. */
    EPMD_WRITE = 12,
    EPMD_READ = 13,
    EPMD_TOO_MANY_TURNS = 14,
    EPMD_TOO_LONG = 15,
    EPMD_NO_EXIST = 16,
    EPMD_NOT_ALLOWED = 17,

    /* Buffers and memory. */
    EPMD_BUFFER_TOO_SMALL = 18,
    EPMD_NO_MEMORY = 19
};

/* Limits, in bytes. */
#define EPMD_NAME_MOST 1020      /* of a name */
#define EPMD_BODY_MOST 8192      /* of a request without its length: for a registration 13, the name and the extra bytes */
#define EPMD_REQUEST_MOST 8194   /* of a request with the two bytes of its length */
#define EPMD_LIST_MOST 16777216  /* of a list that epmd_names and epmd_dump read */

/* Returns a text for a status, for example for an error message. Any number that is not a status has a text too. */
static inline const char *epmd_status_text(int32_t status) {
    switch (status) {
    case EPMD_OK: return "success";
    case EPMD_NAME_EMPTY: return "the name is empty";
    case EPMD_NAME_TOO_LONG: return "the name has more than 1,020 bytes";
    case EPMD_NAME_BAD_BYTE: return "the name has a byte that is below 32 or 127";
    case EPMD_EXTRA_TOO_LONG: return "with these extra bytes the request has more than 8,192 bytes";
    case EPMD_SHORT: return "the reply is incomplete";
    case EPMD_BAD_TAG: return "the first byte does not begin such a reply";
    case EPMD_STRANGE: return "the reply is malformed";
    case EPMD_REFUSED: return "the registration was refused";
    case EPMD_NOT_REGISTERED: return "the name is not registered";
    case EPMD_STRANGE_LINE: return "the line of the list is malformed, or does not end with a newline";
    case EPMD_LIST_END: return "the list has no further line";
    case EPMD_WRITE: return "the socket failed before the request was written";
    case EPMD_READ: return "the socket failed before the reply was read";
    case EPMD_TOO_MANY_TURNS: return "1,000 reads and writes moved no byte";
    case EPMD_TOO_LONG: return "the list has more than 16,777,216 bytes";
    case EPMD_NO_EXIST: return "the name to stop is not registered";
    case EPMD_NOT_ALLOWED: return "the port mapper does not allow the request";
    case EPMD_BUFFER_TOO_SMALL: return "the buffer is too small";
    case EPMD_NO_MEMORY: return "out of memory";
    default: return "not a status of epmd_client";
    }
}

/* Node types and protocols. Any other number is accepted, and returned unchanged. */
#define EPMD_NORMAL_NODE 77
#define EPMD_HIDDEN_NODE 72
#define EPMD_TCP_IPV4 0

/* The numbers that a node registers. Each field accepts any number. */
struct epmd_node {
    uint16_t port;     /* the port that the node listens on */
    uint16_t highest;  /* the highest version of the distribution protocol that the node supports */
    uint16_t lowest;   /* the lowest such version */
    uint8_t kind;      /* EPMD_NORMAL_NODE or EPMD_HIDDEN_NODE */
    uint8_t protocol;  /* EPMD_TCP_IPV4 */
};

/* A text in bytes of the caller. No byte 0 ends it. */
struct epmd_text {
    size_t at;    /* the offset of its first byte */
    size_t size;  /* the number of its bytes */
};

/* A node that is registered under a name. */
struct epmd_found {
    struct epmd_text name;
    struct epmd_text extra;
    struct epmd_node node;
};

/* The reply of a port mapper to a registration. */
struct epmd_alive {
    uint32_t creation;  /* EPMD_OK: the creation, by the protocol 1 to 3 if `highest` is below 6, otherwise from 4 on; EPMD_REFUSED: 0 */
    uint8_t code;       /* EPMD_OK: 0; EPMD_REFUSED: the result of the port mapper, above 0 */
};

/* A line of the list of names. */
struct epmd_line {
    struct epmd_text name;
    uint16_t port;  /* the port that the node listens on */
};

/*
 * ---- Calls over a connected socket
 *
 * `socket` is the descriptor of a connection to a port mapper, over which nothing was sent. The caller opens it for one call. It stays open
 * after EPMD_OK of epmd_register. After any other call the caller closes it.
 *
 * - A call reads no byte after the reply. epmd_names and epmd_dump read to the end of the connection.
 * - A call blocks as the socket does. Give the socket timeouts by SO_RCVTIMEO and SO_SNDTIMEO: a call waits for at most 1,000 of them that
 *   move no byte. A read or a write that a signal interrupts counts as one. A socket that does not block is tried 1,000 times without a
 *   wait.
 * - A write to a peer that has closed raises no SIGPIPE.
 * - A port mapper replies to a peer of another host only if the call is epmd_lookup or epmd_names.
 *
 * Each of these calls may return one of these, which are not repeated below. The arguments are then unchanged, except that `size` is 0:
 *
 *     EPMD_WRITE             the socket failed before the whole request was sent
 *     EPMD_READ              the request was sent, and may have had its effect
 *     EPMD_TOO_MANY_TURNS    the request may have been sent, and may have had its effect
 *     EPMD_NO_MEMORY         the same, and the reply may be malformed, or too large for the buffer
 *     EPMD_SHORT             the connection ended before the reply was complete, as that of a peer that the port mapper refuses
 */

/*
 * Registers a node under a name. The name is registered until the connection is closed, also by the end of the process.
 *
 *     EPMD_OK                `alive` has the creation of the name
 *     EPMD_REFUSED           `alive` has the result of the port mapper, for example 1 if another node has the name
 *     EPMD_NAME_EMPTY, EPMD_NAME_TOO_LONG, EPMD_NAME_BAD_BYTE, EPMD_EXTRA_TOO_LONG
 *                            nothing was sent
 *     EPMD_BAD_TAG           the reply is not that to a registration
 */
int32_t epmd_register(int32_t socket, const struct epmd_node *node, const uint8_t *name, size_t name_size, const uint8_t *extra,
                      size_t extra_size, struct epmd_alive *alive);

/*
 * Looks up the node that is registered under a name. A buffer of EPMD_BODY_MOST bytes is always large enough.
 *
 *     EPMD_OK                `found` has the node. Its name, followed by its extra bytes, is at the beginning of `texts`
 *     EPMD_BUFFER_TOO_SMALL  `found` has the node, with the sizes and offsets that the texts would have; `texts` is unchanged
 *     EPMD_NOT_REGISTERED    no node is registered under the name
 *     EPMD_NAME_EMPTY, EPMD_NAME_TOO_LONG, EPMD_NAME_BAD_BYTE
 *                            nothing was sent
 *     EPMD_BAD_TAG, EPMD_STRANGE
 *                            the reply is not that to a lookup, or no node can register what it says
 */
int32_t epmd_lookup(int32_t socket, const uint8_t *name, size_t name_size, uint8_t *texts, size_t texts_size, struct epmd_found *found);

/*
 * Lists the registered names with their ports. Read the list by epmd_read_list and epmd_read_names_line.
 *
 *     EPMD_OK                the list is at the beginning of `out`, and `size` is the number of its bytes
 *     EPMD_BUFFER_TOO_SMALL  `size` is the number of bytes that the list needs, and `out` is unchanged. Call again over
 *                            another connection; the list may have grown
 *     EPMD_STRANGE           a line of the reply is malformed; `size` is 0
 *     EPMD_TOO_LONG          the reply has more than EPMD_LIST_MOST bytes; `size` is 0
 */
int32_t epmd_names(int32_t socket, uint8_t *out, size_t out_size, size_t *size);

/*
 * Lists all names that the port mapper knows, as text for people. The text begins at offset 4, as epmd_read_list says, and is not checked.
 *
 *     EPMD_OK, EPMD_BUFFER_TOO_SMALL, EPMD_TOO_LONG
 *                            as for epmd_names
 */
int32_t epmd_dump(int32_t socket, uint8_t *out, size_t out_size, size_t *size);

/*
 * Asks the port mapper to end.
 *
 *     EPMD_OK                the port mapper ends
 *     EPMD_NOT_ALLOWED       it refuses, as while names are registered, or closed the connection without a reply
 *     EPMD_STRANGE           the reply is neither OK nor NO
 */
int32_t epmd_kill(int32_t socket);

/*
 * Asks the port mapper to end the registration of a name.
 *
 *     EPMD_OK                the name is not registered any more
 *     EPMD_NO_EXIST          the name was not registered
 *     EPMD_NOT_ALLOWED       the port mapper closed the connection without a reply
 *     EPMD_NAME_EMPTY, EPMD_NAME_TOO_LONG, EPMD_NAME_BAD_BYTE
 *                            nothing was sent
 *     EPMD_STRANGE           the reply is neither STOPPED nor NOEXIST
 */
int32_t epmd_stop(int32_t socket, const uint8_t *name, size_t name_size);

/*
 * ---- Requests as bytes
 *
 * Each of these calls writes one request with its length, ready to be sent over a connection of its own. EPMD_REQUEST_MOST bytes are always
 * enough.
 *
 *     EPMD_OK                the request is at the beginning of `out`, and `size` is the number of its bytes. The bytes of
 *                            `out` after it are unchanged
 *     EPMD_BUFFER_TOO_SMALL, EPMD_NO_MEMORY
 *                            `size` is the number of bytes of the request, and `out` is unchanged
 *     EPMD_NAME_EMPTY, EPMD_NAME_TOO_LONG, EPMD_NAME_BAD_BYTE, EPMD_EXTRA_TOO_LONG
 *                            `size` is 0, and `out` is unchanged. Only a call with such an argument returns one of these
 */

/* Writes a registration, ALIVE2_REQ. */
int32_t epmd_write_register(const struct epmd_node *node, const uint8_t *name, size_t name_size, const uint8_t *extra, size_t extra_size,
                            uint8_t *out, size_t out_size, size_t *size);
/* Writes a lookup, PORT_PLEASE2_REQ. */
int32_t epmd_write_lookup(const uint8_t *name, size_t name_size, uint8_t *out, size_t out_size, size_t *size);
/* Writes a request for the end of a registration, STOP_REQ. */
int32_t epmd_write_stop(const uint8_t *name, size_t name_size, uint8_t *out, size_t out_size, size_t *size);
/* Writes a request for the registered names, NAMES_REQ. */
int32_t epmd_write_names(uint8_t *out, size_t out_size, size_t *size);
/* Writes a request for all known names, DUMP_REQ. */
int32_t epmd_write_dump(uint8_t *out, size_t out_size, size_t *size);
/* Writes a request for the end of the port mapper, KILL_REQ. */
int32_t epmd_write_kill(uint8_t *out, size_t out_size, size_t *size);

/*
 * ---- Replies as bytes
 *
 * `bytes` are the bytes that were read so far. Bytes after the reply are ignored.
 */

/*
 * Return how many bytes a reply still needs at least: epmd_alive_missing for a registration, epmd_port2_missing for a lookup. Read at most
 * that many bytes, and call again with all bytes, until the result is 0. No byte after the reply is read then. The result is 0 if the reply
 * is complete, or if no further bytes could make it complete. These two calls allocate nothing.
 */
size_t epmd_alive_missing(const uint8_t *bytes, size_t bytes_size);
size_t epmd_port2_missing(const uint8_t *bytes, size_t bytes_size);

/*
 * Reads the reply to a registration. This call allocates nothing.
 *
 *     EPMD_OK                `alive` has the creation of the name
 *     EPMD_REFUSED           `alive` has the result of the port mapper
 *     EPMD_SHORT, EPMD_BAD_TAG
 *                            the reply is incomplete, or is not that to a registration
 */
int32_t epmd_read_alive(const uint8_t *bytes, size_t bytes_size, struct epmd_alive *alive);

/*
 * Reads the reply to a lookup.
 *
 *     EPMD_OK                `found` has the node. The offsets of its texts are offsets in `bytes`
 *     EPMD_NOT_REGISTERED    no node is registered under the name
 *     EPMD_SHORT, EPMD_BAD_TAG
 *                            the reply is incomplete, or is not that to a lookup
 *     EPMD_STRANGE           no node can register what the reply says
 *     EPMD_NO_MEMORY         the reply has a node
 */
int32_t epmd_read_port2(const uint8_t *bytes, size_t bytes_size, struct epmd_found *found);

/*
 * Reads the beginning of a list of names or of a dump. `bytes` are all bytes to the end of the connection. This call allocates nothing.
 *
 *     EPMD_OK                `port` is the port of the port mapper, and `at` is 4, the offset of the lines or of the text
 *     EPMD_SHORT             there are fewer than 4 bytes
 */
int32_t epmd_read_list(const uint8_t *bytes, size_t bytes_size, uint32_t *port, size_t *at);

/*
 * Reads the line of a list of names at offset `at`. An offset below 4 is that of the first line. Call it again until EPMD_LIST_END.
 *
 *     EPMD_OK                `line` has the name and the port, with an offset in `bytes`. `at` is the offset of the next line
 *     EPMD_LIST_END          there is no further line
 *     EPMD_STRANGE_LINE      the line is malformed, or does not end with a newline
 *     EPMD_SHORT             the list has fewer than 4 bytes
 *     EPMD_NO_MEMORY         the line is well-formed
 */
int32_t epmd_read_names_line(const uint8_t *bytes, size_t bytes_size, size_t *at, struct epmd_line *line);

#ifdef __cplusplus
}
#endif

#endif
