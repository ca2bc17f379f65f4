// A message, and the shelf that its route leads to.
struct message {
    const char *route;
    const char *body;
};

struct shelf {
    unsigned taken;
    char bodies[56];
};

struct shelf *shelf_of(const char *route);
void file_message(const struct message *message);
