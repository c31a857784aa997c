struct list_node {
    struct list_node *next;
    struct list_node *previous;
    void *item;
};

typedef struct {
    struct list_node head;
    unsigned long length;
    int (*compare)(const void *, const void *);
} list_t;

typedef _Bool list_test(const void *item, void *context);

void list_init(list_t *list, int (*compare)(const void *, const void *))
{
    list->head.next = list->head.previous = &list->head;
    list->head.item = ((void *)0);
    list->length = 0UL;
    list->compare = compare;
}

static inline _Bool list_is_empty(const list_t *list)
{
    return list->head.next == &list->head;
}

static void list_link(struct list_node *before, struct list_node *node, struct list_node *after)
{
    node->previous = before;
    node->next = after;
    before->next = node;
    after->previous = node;
}

int list_push(list_t *list, void *item)
{
    struct list_node *node = malloc(sizeof(struct list_node));

    if (!node)
        return 0;
    node->item = item;
    list_link(list->head.previous, node, &list->head);
    list->length++;
    return 1;
}

void *list_pop(list_t *list)
{
    struct list_node *node = list->head.next;
    void *item;

    if (node == &list->head)
        return ((void *)0);
    item = node->item;
    list->head.next = node->next;
    node->next->previous = &list->head;
    free(node);
    list->length--;
    return item;
}

static struct list_node *list_merge(list_t *list, struct list_node *a, struct list_node *b)
{
    struct list_node first, *last = &first;

    while (a && b) {
        if (list->compare(a->item, b->item) <= 0) {
            last->next = a;
            last = a;
            a = a->next;
        } else {
            last->next = b;
            last = b;
            b = b->next;
        }
    }
    last->next = a ? a : b;
    return first.next;
}

static struct list_node *list_sorted(list_t *list, struct list_node *nodes, unsigned long count)
{
    struct list_node *middle = nodes, *other;

    if (count < 2) {
        if (nodes)
            nodes->next = ((void *)0);
        return nodes;
    }
    for (unsigned long i = 1; i < count / 2; i++)
        middle = middle->next;
    other = middle->next;
    return list_merge(list, list_sorted(list, nodes, count / 2), list_sorted(list, other, count - count / 2));
}

void list_sort(list_t *list)
{
    struct list_node *node, *before = &list->head;

    if (list_is_empty(list) || !list->compare)
        return;
    node = list_sorted(list, list->head.next, list->length);
    while (node) {
        struct list_node *following = node->next;

        list_link(before, node, &list->head);
        before = node;
        node = following;
    }
}

unsigned long list_remove(list_t *list, list_test *test, void *context)
{
    unsigned long removed = 0;
    struct list_node *node = list->head.next;

    while (node != &list->head) {
        struct list_node *following = node->next;

        if (test(node->item, context)) {
            node->previous->next = following;
            following->previous = node->previous;
            free(node);
            removed++;
        }
        node = following;
    }
    list->length -= removed;
    return removed;
}
