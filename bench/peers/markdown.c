// Reads Markdown on standard input with a library, and prints what the library makes of it: cmark's XML of the tree with -DCMARK (link with -lcmark),
// else md4c's HTML (-lmd4c-html -lmd4c).
#include <stdio.h>
#include <stdlib.h>
#ifdef CMARK
#include <cmark.h>
static void show(const char *text, size_t size) {
  cmark_node *document = cmark_parse_document(text, size, CMARK_OPT_DEFAULT);
  fputs(cmark_render_xml(document, CMARK_OPT_DEFAULT), stdout);
}
#else
#include <md4c-html.h>
static void put(const MD_CHAR *text, MD_SIZE size, void *unused) { fwrite(text, 1, size, stdout); }
static void show(const char *text, size_t size) { md_html(text, size, put, NULL, 0, 0); }
#endif

int main(void) {
  size_t size = 0, room = 1 << 16, got;
  char *text = malloc(room);
  while ((got = fread(text + size, 1, room - size, stdin)) > 0)
    if ((size += got) == room) text = realloc(text, room *= 2);
  show(text, size);
}
