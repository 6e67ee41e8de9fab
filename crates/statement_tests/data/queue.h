#ifndef QUEUE_H
#define QUEUE_H

#define ROOM 16
#define EMPTY(q) ((q)->used == 0)

typedef unsigned long size;
typedef int item, *items;

enum answer { DONE, FULL, NOTHING = 4 };

struct queue {
    item held[ROOM];
    size first, used;
    struct queue *next;
};

typedef struct queue queue;

static inline size place(const queue *q, size n) {
    return (q->first + n) % ROOM;
}

enum answer put(queue *q, item x);
enum answer take(queue *q, items to);
extern int printf(const char *format, ...) __attribute__((format(printf, 1, 2)));

#endif
