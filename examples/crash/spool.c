// A spooler without a system. Version 1 crashes at a message whose route has no shelf.
#include "spool.h"

#if VERSION > 1
unsigned messages_lost;
#endif

static void copy_body(struct shelf *shelf, const char *body) {
    while (*body && shelf->taken < sizeof shelf->bodies)
        shelf->bodies[shelf->taken++] = *body++;
}

void file_message(const struct message *message) {
    struct shelf *shelf = shelf_of(message->route);
#if VERSION > 1
    if (!shelf) {
        messages_lost++;
        return;
    }
#endif
    copy_body(shelf, message->body);
}

static void spool_one(const char *route, const char *body) {
    struct message message = {route, body};
    file_message(&message);
}

void start(void) {
    spool_one("a", "first");
    spool_one("c", "lost");
    for (;;) {
    }
}
