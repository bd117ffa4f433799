/* A treap of nodes of 20 bytes: numbers come, are looked up, go, and come again. */
#include "work.h"

enum { COUNT = 240 * SCALE };

struct node {
    uint32_t key, value, priority;
    struct node *left, *right;
};

static struct node *merged(struct node *low, struct node *high) {
    if (!low) return high;
    if (!high) return low;
    if (low->priority > high->priority) {
        low->right = merged(low->right, high);
        return low;
    }
    high->left = merged(low, high->left);
    return high;
}

/* The nodes with keys below one, and the others. */
static void split(struct node *tree, uint32_t key, struct node **low, struct node **high) {
    if (!tree) {
        *low = *high = 0;
    } else if (tree->key < key) {
        *low = tree;
        split(tree->right, key, &tree->right, high);
    } else {
        *high = tree;
        split(tree->left, key, low, &tree->left);
    }
}

static struct node *found(struct node *tree, uint32_t key) {
    while (tree && tree->key != key) tree = key < tree->key ? tree->left : tree->right;
    return tree;
}

static struct node *put(struct node *tree, uint32_t key) {
    struct node *low, *high, *node = object(sizeof *node);
    *node = (struct node){key, 1, drawn(1u << 24), 0, 0};
    split(tree, key, &low, &high);
    return merged(merged(low, node), high);
}

static struct node *taken(struct node *tree, uint32_t key) {
    struct node *low, *middle, *high;
    split(tree, key, &low, &middle);
    split(middle, key + 1, &middle, &high);
    give(middle);
    return merged(low, high);
}

static struct node *changed(struct node *tree, uint32_t key) {
    struct node *node = found(tree, key);
    if (!node) return put(tree, key);
    node->value++;
    return drawn(2) ? tree : taken(tree, key);
}

int main(void) {
    struct node *tree = 0;
    uint32_t sum = 0;
    for (int i = 0; i < COUNT; i++) tree = changed(tree, drawn(1u << 20));
    for (int i = 0; i < COUNT; i++) tree = changed(tree, drawn(1u << 12));
    for (int i = 0; i < 2 * COUNT; i++) {
        struct node *node = found(tree, drawn(1u << 12));
        sum = 31 * sum + (node ? node->value : 0);
    }
    return came_to(sum);
}
