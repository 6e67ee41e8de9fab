#include "queue.h"

static size changes;
static queue spare[4] = {{{1, 2}, 0, 2}, {{0}}}, *all = spare;

enum answer put(queue *q, item x)
{
    if (q->used == ROOM)
        return FULL;
    q->held[place(q, q->used)] = x;
    q->used++, changes++;
    return DONE;
}

enum answer take(queue *q, items to)
{
    if (EMPTY(q))
        return NOTHING;
    *to = q->held[q->first];
    q->first = place(q, 1);
    q->used--;
    return DONE;
}

/* the name of a type as the name of a variable */
size count(const queue *queue)
{
    size size = 0;
    while (queue) {
        size += queue->used;
        queue = queue->next;
    }
    return size;
}

static int largest(const queue *q)
{
    int found = -1;
    for (size i = 0; i < q->used; i++) {
        item item = q->held[place(q, i)];
        if (item > found)
            found = item;
        else if (item == found)
            continue;
        else {
            item = found;
            break;
        }
    }
    return found;
}

struct pair { item x, y; } ends(queue *q)
{
    struct pair p;
    p.x = q->held[q->first];
    p.y = q->held[place(q, q->used - 1)];
    return p;
}

int spell(enum answer a)
{
    switch (a) {
    case DONE:
        return 'd';
    case FULL: case NOTHING:
        break;
    default:
        return 0;
    }
    return a == FULL ? 'f' : 'n';
}

void drain(queue *q)
{
    item x;
again:
    if (take(q, &x) == DONE)
        goto again;
}

int digits(unsigned n)
{
    int digits = 0;
    do
        digits++;
    while (n /= 10);
    return digits;
}

#line 200 "later.c"
typedef enum answer answers[2];
int kinds(void) { enum kind { item = 1, other } k = item; { typedef char item; item c = 0; k += c; } return k * item; }

extern item *shared, table[ROOM];

int main(int argc, char **argv)
{
    queue *q = all;
    for (;;) {
        if (!argc--) break;
        put(q, argc);
    }
    drain(q);
    printf("%d" " %lu\n", largest(q) + kinds() + digits(argc), (unsigned long)sizeof(queue) + sizeof q);
    return (int)count(q);
}
