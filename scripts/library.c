/* Calls the library as a program in C would, for scripts/check_library.sh.

     library print|json|records|messages|parse|parse_records REPORT HALT EXIT TAB LIMIT NO_TITLE NO_INFO PROFILE SOURCE

   reads a text from standard input and writes what the call makes of it: the tree or the JSON to standard output, the messages to standard
   error. `parse` and `parse_records` take SOURCE as the names that are handed back. Of records it writes the tree that they show. The status is the program's. If nothing was made it is 100 and the end of the call, and
   standard error has the end and its place. It is 200 where the library breaks its word. Each call is made with no room, with rooms that are
   one byte too small, with exact ones and with larger ones: what doesn't fit must leave its room as it was, and nothing may be written behind
   a text.

     library allocations

   (compiled with COUNTED, and malloc, realloc and free wrapped) makes each call on the text of standard input, with each allocation failing in
   turn: it must do without, or end with RST_NO_MEMORY and leave the rooms as they were; and free all that it took.

     library threads

   makes calls in four threads at once. */
#include <pthread.h>
#include <rst2pseudoxml.h>
#include <stdio.h>
#include <stdlib.h>
#include <string.h>

enum { MARK = 0xa5 };

struct call {
    const char *name;
    const uint8_t *text;
    size_t text_length;
    const char *source;
    rst_options options;
};

struct room {
    uint8_t *bytes;
    size_t length;
};

static void broken(const char *what)
{
    fprintf(stderr, "library: %s\n", what);
    exit(200);
}

static struct room marked(size_t length)
{
    struct room room = {malloc(length ? length : 1), length};
    if (!room.bytes)
        broken("no memory");
    memset(room.bytes, MARK, length);
    return room;
}

static int is_marked(const struct room *room, size_t from)
{
    for (size_t i = from; i < room->length; i++)
        if (room->bytes[i] != MARK)
            return 0;
    return 1;
}

static rst_result made(const struct call *call, struct room *first, struct room *second)
{
    rst_result result;
    memset(&result, MARK, sizeof result);
    if (!strcmp(call->name, "print"))
        rst_print(call->text, call->text_length, (const uint8_t *)call->source, strlen(call->source), &call->options, first->bytes, first->length,
                  second->bytes, second->length, &result);
    else if (!strcmp(call->name, "json"))
        rst_json(call->text, call->text_length, &call->options, first->bytes, first->length, &result);
    else if (!strcmp(call->name, "records"))
        rst_records(call->text, call->text_length, &call->options, first->bytes, first->length, &result);
    else if (!strcmp(call->name, "parse"))
        rst_parse(call->text, call->text_length, (const uint8_t *)call->source, strlen(call->source), &call->options, first->bytes, first->length,
                  &result);
    else if (!strcmp(call->name, "parse_records"))
        rst_parse_records(call->text, call->text_length, (const uint8_t *)call->source, strlen(call->source), &call->options, first->bytes,
                          first->length, &result);
    else
        rst_messages(call->text, call->text_length, &call->options, first->bytes, first->length, &result);
    return result;
}

/* A call with so many bytes of room for each text; what it tells must be this. */
static void check(const struct call *call, const rst_result *told, size_t first_room, size_t second_room, struct room *first, struct room *second)
{
    *first = marked(first_room);
    *second = marked(second_room);
    rst_result again = made(call, first, second);
    if (memcmp(&again, told, sizeof again))
        broken("two calls tell different results");
    if (!is_marked(first, told->length <= first_room ? told->length : 0) || !is_marked(second, told->messages <= second_room ? told->messages : 0))
        broken("a room was written where it should have stayed as it was");
}

/* Bytes of a room, from one place to another. */
struct part {
    const uint8_t *at, *end;
};

static uint64_t number_at(const uint8_t *at)
{
    uint64_t number = 0;
    for (int i = 8; i-- > 0;)
        number = number << 8 | at[i];
    return number;
}

/* Bytes that stand behind their number, and within others. */
static struct part part_at(const uint8_t *at, struct part whole)
{
    if (whole.end - at < 8 || number_at(at) > (uint64_t)(whole.end - at - 8))
        broken("a record ends behind the one that holds it");
    return (struct part){at + 8, at + 8 + number_at(at)};
}

static void print_part(struct part part) { fwrite(part.at, 1, (size_t)(part.end - part.at), stdout); }

/* What an attribute says: its kind is the first byte. */
static void print_value(struct part value)
{
    struct part text = {value.at + 1, value.end};
    if (*value.at == RST_TEXT)
        print_part(text);
    else if (*value.at == RST_NUMBER && text.end - text.at == 8)
        printf("%llu", (unsigned long long)number_at(text.at));
    else if (*value.at == RST_TEXTS)
        for (const uint8_t *at = text.at; at < text.end;) {
            struct part member = part_at(at, text);
            if (at > text.at)
                putchar(' ');
            for (at = member.at; at < member.end; at++)
                printf("%s%c", *at == ' ' || *at == '\\' ? "\\" : "", *at);
        }
    else
        broken("an attribute is of no kind");
}

static int is_named(struct part name, const char *text)
{
    return (size_t)(name.end - name.at) == strlen(text) && !memcmp(name.at, text, strlen(text));
}

static int is_behind(struct part name, const char *text)
{
    size_t length = (size_t)(name.end - name.at), other = strlen(text);
    int order = memcmp(name.at, text, length < other ? length : other);
    return order > 0 || (order == 0 && length > other);
}

/* The attributes, and the source in its place by the order of the names. */
static void print_attributes(struct part attributes, const char *source)
{
    for (const uint8_t *at = attributes.at; at < attributes.end;) {
        struct part attribute = part_at(at, attributes), name = part_at(attribute.at, attribute);
        if (source && is_behind(name, "source")) {
            printf(" source=\"%s\"", source);
            source = NULL;
        }
        putchar(' ');
        print_part(name);
        fputs("=\"", stdout);
        print_value((struct part){name.end, attribute.end});
        putchar('"');
        at = attribute.end;
    }
    if (source)
        printf(" source=\"%s\"", source);
}

static void print_text(struct part text, int level)
{
    for (const uint8_t *at = text.at; at < text.end;) {
        const uint8_t *end = memchr(at, '\n', (size_t)(text.end - at));
        struct part line = {at, end ? end : text.end};
        printf("%*s", 4 * level, "");
        print_part(line);
        putchar('\n');
        at = line.end + 1;
    }
}

/* A node and the nodes in it, as the program prints them. */
static void print_node(struct part node, const char *source, int level)
{
    if (*node.at == RST_TEXT) {
        print_text((struct part){node.at + 1, node.end}, level);
        return;
    }
    struct part tag = part_at(node.at + 9, node), attributes = part_at(tag.end, node);
    printf("%*s<", 4 * level, "");
    print_part(tag);
    print_attributes(attributes, is_named(tag, "document") || is_named(tag, "system_message") ? source : NULL);
    puts(">");
    for (const uint8_t *at = attributes.end; at < node.end;) {
        struct part inner = part_at(at, node);
        print_node(inner, source, level + 1);
        at = inner.end;
    }
}

static void show(const struct call *call, const struct room *made)
{
    struct part whole = {made->bytes, made->bytes + made->length};
    if (strcmp(call->name, "records") && strcmp(call->name, "parse_records")) {
        print_part(whole);
        return;
    }
    struct part document = part_at(whole.at, whole);
    if (document.end != whole.end)
        broken("there are bytes behind the document");
    print_node(document, call->source, 0);
}

static int told_of(const struct call *call)
{
    struct room none = {NULL, 0}, first, second;
    rst_result told = made(call, &none, &none);
    if (told.end != RST_DONE) {
        if (told.length || told.messages || told.status)
            broken("a call that made nothing tells a length or a status");
        check(call, &told, 64, 64, &first, &second);
        free(first.bytes);
        free(second.bytes);
        fprintf(stderr, "end %u at %llu\n", told.end, (unsigned long long)told.at);
        return 100 + (int)told.end;
    }
    if (told.length && told.messages) {
        check(call, &told, told.length - 1, told.messages - 1, &first, &second);
        free(first.bytes);
        free(second.bytes);
    }
    if (told.length) {
        check(call, &told, told.length - 1, told.messages, &first, &second);
        free(first.bytes);
        free(second.bytes);
    }
    check(call, &told, told.length + 7, told.messages + 5, &first, &second);
    struct room exact, exact_second;
    check(call, &told, told.length, told.messages, &exact, &exact_second);
    if (memcmp(first.bytes, exact.bytes, told.length) || memcmp(second.bytes, exact_second.bytes, told.messages))
        broken("two calls make different texts");
    show(call, &exact);
    fwrite(exact_second.bytes, 1, told.messages, stderr);
    free(first.bytes);
    free(second.bytes);
    free(exact.bytes);
    free(exact_second.bytes);
    return (int)told.status;
}

static struct room all_of(FILE *file)
{
    struct room read = {malloc(1 << 16), 0};
    for (size_t room = 1 << 16;;) {
        size_t count = fread(read.bytes + read.length, 1, room - read.length, file);
        read.length += count;
        if (!count)
            return read;
        if (read.length == room)
            read.bytes = realloc(read.bytes, room *= 2);
        if (!read.bytes)
            broken("no memory");
    }
}

static const char TEXT[] = "Title\n=====\n\nA *word and a link_.\n\n- an item\n\n  + inside\n\n.. _link: https://example.org/\n";

static const char *const NAMES[] = {"print", "json", "records", "messages", "parse", "parse_records"};
enum { NAME_COUNT = sizeof NAMES / sizeof *NAMES };

static void *calls(void *unused)
{
    (void)unused;
    for (int i = 0; i < 300; i++) {
        struct call call = {NAMES[i % NAME_COUNT], (const uint8_t *)TEXT, sizeof TEXT - 1, "a", RST_OPTIONS};
        struct room first = marked(4096), second = marked(4096);
        rst_result told = made(&call, &first, &second);
        if (told.end != RST_DONE || told.status || !told.length || !is_marked(&first, told.length))
            broken("a call in a thread goes wrong");
        free(first.bytes);
        free(second.bytes);
    }
    return NULL;
}

static int threads(void)
{
    pthread_t threads[4];
    for (int i = 0; i < 4; i++)
        if (pthread_create(&threads[i], NULL, calls, NULL))
            broken("no thread");
    for (int i = 0; i < 4; i++)
        pthread_join(threads[i], NULL);
    return 0;
}

#ifdef COUNTED
void *__real_malloc(size_t bytes);
void *__real_realloc(void *held, size_t bytes);
void __real_free(void *held);

/* Allocations are counted in the calls alone. The one that fails is counted down to; none does if it begins below 0. */
static long live, until_failure = -1;

static int fails(void) { return until_failure >= 0 && until_failure-- == 0; }

void *__wrap_malloc(size_t bytes)
{
    void *made = fails() ? NULL : __real_malloc(bytes);
    live += made != NULL;
    return made;
}

void *__wrap_realloc(void *held, size_t bytes)
{
    void *made = fails() ? NULL : __real_realloc(held, bytes);
    live += made != NULL && held == NULL;
    return made;
}

void __wrap_free(void *held)
{
    live -= held != NULL;
    __real_free(held);
}

/* A call whose allocation with this number fails; whether one failed. */
static int fails_at(const struct call *call, long number, const rst_result *whole)
{
    static const rst_result NOTHING = {RST_NO_MEMORY, 0, 0, 0, 0};
    struct room first = marked(1 << 20), second = marked(1 << 20);
    long before = live;
    until_failure = number;
    rst_result told = made(call, &first, &second);
    int failed = until_failure < 0;
    until_failure = -1;
    if (live != before)
        broken("a call doesn't free what it took");
    if (memcmp(&told, whole, sizeof told) && (!failed || memcmp(&told, &NOTHING, sizeof told)))
        broken("a call ends otherwise than its memory says");
    if (!is_marked(&first, told.length) || !is_marked(&second, told.messages))
        broken("a room was written where it should have stayed as it was");
    free(first.bytes);
    free(second.bytes);
    return failed;
}

static int allocations(void)
{
    struct room text = all_of(stdin);
    long count = 0;
    for (int i = 0; i < NAME_COUNT; i++) {
        struct call call = {NAMES[i], text.bytes, text.length, "a", RST_OPTIONS};
        struct room none = {NULL, 0};
        rst_result whole = made(&call, &none, &none);
        long number = 0;
        while (fails_at(&call, number, &whole))
            number++;
        if (number == 0)
            broken("a call takes no memory");
        count += number;
    }
    free(text.bytes);
    printf("%ld allocations failed in turn\n", count);
    return 0;
}
#else
static int allocations(void)
{
    broken("allocations aren't counted");
    return 1;
}
#endif

int main(int count, char **words)
{
    if (rst_abi_version() != RST_ABI_VERSION)
        broken("the library has another version than its header");
    if (count == 2 && !strcmp(words[1], "threads"))
        return threads();
    if (count == 2 && !strcmp(words[1], "allocations"))
        return allocations();
    if (count != 11)
        broken("see the comment at the head of library.c");
    struct room text = all_of(stdin);
    rst_options options = {sizeof options, (uint8_t)atoi(words[2]), (uint8_t)atoi(words[3]), (uint8_t)atoi(words[4]), (uint8_t)atoi(words[5]),
                           (uint32_t)atol(words[6]), (uint8_t)atoi(words[7]), (uint8_t)atoi(words[8]), (uint8_t)atoi(words[9]), 0};
    struct call call = {words[1], text.bytes, text.length, words[10], options};
    int status = told_of(&call);
    free(text.bytes);
    return status;
}
