/* rst2pseudoxml: reads reStructuredText in the calling process.

   A call gets a text and rooms (memory of the caller's) for what is made of it. A text that fits its room is put at its front, without a NUL
   behind it, and the rest of the room stays as it was. A text that doesn't fit isn't written at all. Its length is told in any case, so a call
   with rooms of 0 bytes tells how large they have to be. A tree is seldom longer than 16 times its text: try that room first, and call again
   with the length that was told if it was too small.

   Memory. All lengths are in bytes. The caller owns all memory that it passes, and nothing of it is kept after the call. What a call takes for
   itself (by malloc, realloc and free) it gives back before it returns. A pointer may be null if its length is 0; the options and the result
   must be there. What a call writes (rooms and result) must overlap nothing else that is passed to it.

   Threads. The library has no state: calls may run at once in several threads, as long as none writes what another reads or writes. Don't
   call it from a signal handler, or in a forked child of a process with threads. A call needs up to 2 MiB of stack.

   What a call answers depends on what it is passed alone, except that it may answer RST_NO_MEMORY when memory is refused. */
#ifndef RST2PSEUDOXML_H
#define RST2PSEUDOXML_H
#include <stddef.h>
#include <stdint.h>
#ifdef __cplusplus
extern "C" {
#endif

/* The version of what this header describes. A library of another version has other structs, calls or answers. */
#define RST_ABI_VERSION 1

/* The options of a call: those of the program, and the profile. Levels are 1 (INFO), 2 (WARNING), 3 (ERROR), 4 (SEVERE) and 5 (none). */
typedef struct rst_options {
    uint32_t size;              /* sizeof(rst_options) */
    uint8_t report;             /* the lowest level of the messages that are shown, --report */
    uint8_t halt;               /* the lowest level at which a message halts the run, --halt */
    uint8_t exit_status;        /* the lowest level at which messages change the exit status, --exit-status */
    uint8_t tab_width;          /* 1 to 99 columns, --tab-width */
    uint32_t line_length_limit; /* 1 to 16,777,216 characters, --line-length-limit */
    uint8_t no_doc_title;       /* 1: don't make a lone title the document's; or 0 */
    uint8_t no_doc_info;        /* 1: don't turn a leading field list into docinfo; or 0 */
    uint8_t profile;            /* 0: the program's; or 1, the wider one (docs/profile/wider.md), which the program never uses */
    uint8_t unused;             /* 0 */
} rst_options;

/* The options of a program that is called with none. */
#define RST_OPTIONS {sizeof(rst_options), 2, 4, 5, 8, 10000, 0, 0, 0, 0}

/* How a call ends. Where it isn't RST_DONE no room is written. Where several ends would do, the first of them is told; RST_NO_MEMORY may take
   the place of those after RST_TOO_LONG. */
enum rst_end {
    RST_DONE = 0,        /* the texts were made; each is in its room if it fits */
    RST_BAD_OPTIONS = 1, /* a field of the options is out of its range, or the size is none that this library knows; or names aren't UTF-8 */
    RST_BAD_SOURCE = 2,  /* the name of the source isn't UTF-8 */
    RST_TOO_LONG = 3,    /* the text has more than 16,777,216 bytes */
    RST_NOT_UTF8 = 4,    /* `at` bytes are the longest front of the text that is UTF-8 */
    RST_TOO_DEEP = 5,    /* a block inside more than 250 others begins at line `at`, counted from 1 */
    RST_NO_MEMORY = 6    /* memory was refused */
};

/* What a call tells. It sets each field. */
typedef struct rst_result {
    uint32_t end;      /* one of rst_end */
    uint32_t status;   /* the program's exit status, if RST_DONE: 0, 1 if a message halts the run, 11 to 14; else 0 */
    uint64_t at;       /* see RST_NOT_UTF8, RST_TOO_DEEP; else 0 */
    uint64_t length;   /* bytes of the tree, of the JSON or of the records, if RST_DONE; else 0 */
    uint64_t messages; /* bytes of the messages (rst_print), if RST_DONE; else 0 */
} rst_result;

/* RST_ABI_VERSION of the library. */
uint32_t rst_abi_version(void);

/* What the program writes for a text to standard output (the tree) and standard error (the messages), or would write if it had the profile of
   the options. `source` is the name that both show: the program's own for standard input is `<stdin>`. If a message halts the run there is no tree, and the messages end with the line that says so. */
void rst_print(const uint8_t *text, size_t text_length, const uint8_t *source, size_t source_length, const rst_options *options,
               uint8_t *tree, size_t tree_room, uint8_t *messages, size_t messages_room, rst_result *result);

/* The finished document as JSON: a text is a string, an element is [tag, line, {attributes}, children..]. It is whole also if a message
   halts the run. docs/LIBRARY.md describes it. */
void rst_json(const uint8_t *text, size_t text_length, const rst_options *options, uint8_t *json, size_t json_room, rst_result *result);

/* The kinds in records: of nodes, a text or an element; of what attributes say, a text, a number or texts. */
enum rst_kind {
    RST_TEXT = 0,
    RST_ELEMENT = 1,
    RST_NUMBER = 1,
    RST_TEXTS = 2
};

/* The finished document as records, to be walked without reading a text: the tree of rst_json, whole also if a message halts the run. Numbers
   are of 8 bytes, the lowest first; lengths are in bytes; texts are UTF-8 with no NUL behind them; nothing is aligned. The record of a node is

       8 bytes     length of what follows: the next sibling, or the end of the element around, is right behind it
       1 byte      RST_TEXT or RST_ELEMENT
     and for a text
       the rest    the text
     and for an element
       8 bytes     line, counted from 1; 0 where it has none
       8 bytes     length of the tag, and then the tag
       8 bytes     length of the attributes, and then the attributes, in their order, each as
         8 bytes   length of what follows
         8 bytes   length of the name, and then the name
         1 byte    RST_TEXT, RST_NUMBER or RST_TEXTS
         the rest  the text; the number; or the texts, each behind its length in 8 bytes
       the rest    the records of its nodes, one behind another

   So a walk forwards meets the nodes in the order of the text. docs/LIBRARY.md has an example. The room may be freed or used anew at any
   time: the records point to nothing else. */
void rst_records(const uint8_t *text, size_t text_length, const rst_options *options, uint8_t *records, size_t records_room, rst_result *result);

/* The messages as JSON, in the order in which the program shows them, those that --report and --halt leave: a list of
   {"line": 3, "level": 2, "type": "WARNING", "text": ".."}; "block" holds the source text of a message that has one, else it is absent. */
void rst_messages(const uint8_t *text, size_t text_length, const rst_options *options, uint8_t *json, size_t json_room, rst_result *result);

/* What is parsed of a text, as JSON: the document before names and ids are given and references are resolved, with the attributes that serve
   this. `names` are directives and roles that are handed back, in UTF-8: a name a line, that of a role with a colon before it, a colon alone
   for the default role. Where the text has one of them there is an element `handed` with its source, and no message. Nothing is shown or
   halts: `report`, `halt`, `exit_status`, `no_doc_title` and `no_doc_info` make no difference. By the wider profile the directives `class`, where
   it has no content, and `contents` are elements of their names, which Document Tree doesn't have. docs/LIBRARY.md describes it all. */
void rst_parse(const uint8_t *text, size_t text_length, const uint8_t *names, size_t names_length, const rst_options *options, uint8_t *json,
               size_t json_room, rst_result *result);

/* The same as records. */
void rst_parse_records(const uint8_t *text, size_t text_length, const uint8_t *names, size_t names_length, const rst_options *options,
                       uint8_t *records, size_t records_room, rst_result *result);

#ifdef __cplusplus
}
#endif
#endif
