#include <stddef.h>
#include <string.h>

typedef struct list list;

struct list {
    list *next;
    const char *text;
    size_t length;
};

enum kind { Empty, Word = 1 << 4, Sentence = Word + 1 };

extern const char *const names[Sentence + 1];

static list first = { NULL, "", sizeof(list) };

typedef int (*compare)(const list *, const list *); /* isn't read: parentheses in a declarator */

int weigh(const list *list, size_t size[sizeof list]);
list *append(list *before, const char *text), *last(list *first);

static inline size_t length(const list *list) { return list->length; } /* has a body */

union either { int number; list *list; }; /* isn't read: a union */
size_t list, lists = sizeof list;
list *none; /* isn't read: list is an object */
