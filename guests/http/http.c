/* A store of keys and values that speaks HTTP/1.1, over the kit's console: GET, PUT and DELETE of /KEY. Its requests are read by http_parser, its keys kept by
   uthash. An answer's ETag is how often the value was put. */
#include <stdlib.h>
#include <string.h>

#include "console.h"
#include "http_parser.h"
#include "uthash.h"

enum { KEY = 64, BODY = 4096, HEAD = 160 };

struct entry {
    char key[KEY];
    char *value;
    unsigned length, version;
    UT_hash_handle hh;
};

static struct entry *entries;
static http_parser parser;
static char key[KEY], body[BODY];
static unsigned body_length;
static int is_too_long;

static int on_message_begin(http_parser *from)
{
    (void)from;
    key[0] = 0;
    body_length = 0;
    is_too_long = 0;
    return 0;
}

static int on_url(http_parser *from, const char *at, size_t length)
{
    (void)from;
    size_t before = strlen(key);
    if (before + length >= KEY) {
        is_too_long = 1;
        return 0;
    }
    memcpy(key + before, at, length);
    key[before + length] = 0;
    return 0;
}

static int on_body(http_parser *from, const char *at, size_t length)
{
    (void)from;
    if (body_length + length > BODY) {
        is_too_long = 1;
        return 0;
    }
    memcpy(body + body_length, at, length);
    body_length += (unsigned)length;
    return 0;
}

static void reply(const char *status, const char *text, unsigned length, unsigned version)
{
    static char head[HEAD];
    snprintf(head, sizeof head, "HTTP/1.1 %s\r\nContent-Length: %u\r\nETag: \"%u\"\r\n\r\n", status, length, version);
    put_text(head);
    for (unsigned at = 0; at < length; at++)
        put(text[at], stdout);
}

/* The entry of the key, made where there was none; NULL where there is no room. */
static struct entry *entry_for_key(struct entry *entry)
{
    if (entry)
        return entry;
    entry = calloc(1, sizeof *entry);
    if (entry) {
        strcpy(entry->key, key);
        HASH_ADD_STR(entries, key, entry);
    }
    return entry;
}

static void put_entry(struct entry *found)
{
    char *value = malloc(body_length + 1);
    struct entry *entry = value ? entry_for_key(found) : NULL;
    if (!entry) {
        free(value);
        reply("507 Insufficient Storage", "", 0, 0);
        return;
    }
    free(entry->value);
    memcpy(value, body, body_length);
    entry->value = value;
    entry->length = body_length;
    reply("200 OK", "", 0, ++entry->version);
}

static int on_message_complete(http_parser *from)
{
    struct entry *entry;
    HASH_FIND_STR(entries, key, entry);
    if (is_too_long) {
        reply("413 Payload Too Large", "", 0, 0);
    } else if (from->method == HTTP_PUT) {
        put_entry(entry);
    } else if (from->method == HTTP_DELETE) {
        if (entry) {
            HASH_DEL(entries, entry);
            free(entry->value);
            free(entry);
        }
        reply("200 OK", "", 0, 0);
    } else if (from->method != HTTP_GET) {
        reply("405 Method Not Allowed", "", 0, 0);
    } else if (entry) {
        reply("200 OK", entry->value, entry->length, entry->version);
    } else {
        reply("404 Not Found", "", 0, 0);
    }
    return 0;
}

static const http_parser_settings settings = {
    .on_message_begin = on_message_begin,
    .on_url = on_url,
    .on_body = on_body,
    .on_message_complete = on_message_complete,
};

void begin(void)
{
    http_parser_init(&parser, HTTP_REQUEST);
}

/* What is no request is passed over to the end of its line. */
void take(char byte)
{
    static int is_passed_over;
    if (is_passed_over) {
        is_passed_over = byte != '\n';
        return;
    }
    if (http_parser_execute(&parser, &settings, &byte, 1) == 1)
        return;
    reply("400 Bad Request", "", 0, 0);
    http_parser_init(&parser, HTTP_REQUEST);
    is_passed_over = byte != '\n';
}
