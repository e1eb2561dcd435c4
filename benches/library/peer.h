/* A tree in an arena: each part has where it stands, its first child and the part behind it. */
#ifndef PEER_H
#define PEER_H

#include <stddef.h>
#include <stdint.h>
#include <stdlib.h>

struct node {
    uint32_t kind, number;
    size_t start, end;
    struct node *child, *next;
};

extern struct node *root;
extern size_t parts_made;
int begin_text(char *text, size_t length);
struct node *part(uint32_t kind, uint32_t number, size_t start, size_t end, struct node *child);

#endif
