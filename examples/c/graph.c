/* Reads a graph, and answers questions about it: distances, parts, an order, a tree of least weight, matchings. */
#include <limits.h>
#include <stddef.h>
#include <stdlib.h>

extern int putchar(int c);
extern int getchar(void);

struct edge {
    int from;
    int to;
    int weight;
};

struct graph {
    int nodes;
    int edges;
    struct edge *edge;
    int *first;
    int *next;
};

struct heap {
    int *node;
    int *place;
    long *key;
    int len;
};

struct input {
    int c;
    int ended;
};

typedef int (*compare_fn)(const void *, const void *);
typedef void (*visit_fn)(void *state, int node);

static struct input in;

static int peek(void) {
    if (!in.c && !in.ended) {
        in.c = getchar();
        if (in.c < 0)
            in.ended = 1;
    }
    return in.ended ? -1 : in.c;
}

static int take(void) {
    int c = peek();
    in.c = 0;
    return c;
}

static int read_int(int *out) {
    int n = 0;
    int sign = 1;
    while (peek() == ' ' || peek() == '\n')
        take();
    if (peek() == '-') {
        sign = -1;
        take();
    }
    if (peek() < '0' || peek() > '9')
        return 0;
    while (peek() >= '0' && peek() <= '9') {
        int digit = take() - '0';
        if (n > (INT_MAX - digit) / 10)
            return 0;
        n = n * 10 + digit;
    }
    *out = sign * n;
    return 1;
}

static int *ints(int count, int value) {
    int *list = malloc((size_t)count * sizeof *list);
    if (!list)
        return NULL;
    for (int i = 0; i < count; i++)
        list[i] = value;
    return list;
}

static void graph_free(struct graph *g) {
    free(g->edge);
    free(g->first);
    free(g->next);
}

static int read_edge(struct graph *g, int i) {
    struct edge *e = &g->edge[i];
    if (!read_int(&e->from) || !read_int(&e->to) || !read_int(&e->weight))
        return 0;
    if (e->from < 0 || e->from >= g->nodes || e->to < 0 || e->to >= g->nodes)
        return 0;
    g->next[i] = g->first[e->from];
    g->first[e->from] = i;
    return 1;
}

static int graph_read(struct graph *g) {
    g->edge = NULL;
    g->first = NULL;
    g->next = NULL;
    if (!read_int(&g->nodes) || !read_int(&g->edges) || g->nodes < 1 || g->edges < 0)
        return 0;
    if (g->nodes > 1000000 || g->edges > 1000000)
        return 0;
    g->edge = malloc(((size_t)g->edges + 1) * sizeof *g->edge);
    g->first = ints(g->nodes, -1);
    g->next = ints(g->edges + 1, -1);
    if (!g->edge || !g->first || !g->next)
        return 0;
    for (int i = 0; i < g->edges; i++)
        if (!read_edge(g, i))
            return 0;
    return 1;
}

static int heap_open(struct heap *h, int nodes) {
    h->len = 0;
    h->node = ints(nodes, 0);
    h->place = ints(nodes, -1);
    h->key = malloc((size_t)nodes * sizeof *h->key);
    if (!h->key)
        return 0;
    for (int i = 0; i < nodes; i++)
        h->key[i] = LONG_MAX;
    return h->node && h->place;
}

static void heap_close(struct heap *h) {
    free(h->node);
    free(h->place);
    free(h->key);
}

static void heap_put(struct heap *h, int at, int node) {
    h->node[at] = node;
    h->place[node] = at;
}

static void heap_up(struct heap *h, int at) {
    int node = h->node[at];
    while (at > 0) {
        int parent = (at - 1) / 2;
        if (h->key[h->node[parent]] <= h->key[node])
            break;
        heap_put(h, at, h->node[parent]);
        at = parent;
    }
    heap_put(h, at, node);
}

static void heap_down(struct heap *h, int at) {
    int node = h->node[at];
    for (;;) {
        int child = 2 * at + 1;
        if (child >= h->len)
            break;
        if (child + 1 < h->len && h->key[h->node[child + 1]] < h->key[h->node[child]])
            child++;
        if (h->key[node] <= h->key[h->node[child]])
            break;
        heap_put(h, at, h->node[child]);
        at = child;
    }
    heap_put(h, at, node);
}

static void heap_lower(struct heap *h, int node, long key) {
    if (h->place[node] < 0)
        heap_put(h, h->len++, node);
    h->key[node] = key;
    heap_up(h, h->place[node]);
}

static int heap_least(struct heap *h) {
    int node = h->node[0];
    int last = h->node[--h->len];
    if (h->len > 0) {
        heap_put(h, 0, last);
        heap_down(h, 0);
    }
    return node;
}

static void put_text(const char *text) {
    for (; *text; text++)
        putchar(*text);
}

static void put_long(long n) {
    if (n < 0) {
        putchar('-');
        n = -n;
    }
    if (n >= 10)
        put_long(n / 10);
    putchar((int)('0' + n % 10));
}

static void put_item(void *state, int node) {
    int *many = state;
    if ((*many)++)
        putchar(' ');
    put_long(node);
}

static int distances(const struct graph *g, int from) {
    struct heap h;
    int done = heap_open(&h, g->nodes);
    if (done) {
        heap_lower(&h, from, 0);
        while (h.len > 0) {
            int node = heap_least(&h);
            for (int e = g->first[node]; e >= 0; e = g->next[e]) {
                long key = h.key[node] + g->edge[e].weight;
                if (key < h.key[g->edge[e].to])
                    heap_lower(&h, g->edge[e].to, key);
            }
        }
        for (int i = 0; i < g->nodes; i++) {
            if (i)
                putchar(' ');
            if (h.key[i] == LONG_MAX)
                putchar('-');
            else
                put_long(h.key[i]);
        }
        putchar('\n');
    }
    heap_close(&h);
    return done;
}

static int root_of(int *parent, int node) {
    while (parent[node] != node) {
        parent[node] = parent[parent[node]];
        node = parent[node];
    }
    return node;
}

static int by_weight(const void *a, const void *b) {
    const struct edge *x = a;
    const struct edge *y = b;
    return x->weight < y->weight ? -1 : x->weight > y->weight;
}

static void merge(struct edge *list, struct edge *room, int middle, int count, compare_fn compare) {
    int left = 0;
    int right = middle;
    for (int i = 0; i < count; i++) {
        int is_left = right == count || (left < middle && compare(&list[left], &list[right]) <= 0);
        room[i] = is_left ? list[left++] : list[right++];
    }
    for (int i = 0; i < count; i++)
        list[i] = room[i];
}

static void sort(struct edge *list, struct edge *room, int count, compare_fn compare) {
    int middle = count / 2;
    if (count < 2)
        return;
    sort(list, room, middle, compare);
    sort(list + middle, room + middle, count - middle, compare);
    merge(list, room, middle, count, compare);
}

static int least_tree(const struct graph *g) {
    struct edge *list = malloc(((size_t)g->edges + 1) * sizeof *list);
    struct edge *room = malloc(((size_t)g->edges + 1) * sizeof *room);
    int *parent = ints(g->nodes, 0);
    long sum = 0;
    int done = list && room && parent;
    if (done) {
        for (int i = 0; i < g->edges; i++)
            list[i] = g->edge[i];
        for (int i = 0; i < g->nodes; i++)
            parent[i] = i;
        sort(list, room, g->edges, by_weight);
        for (int i = 0; i < g->edges; i++) {
            int a = root_of(parent, list[i].from);
            int b = root_of(parent, list[i].to);
            if (a != b) {
                parent[a] = b;
                sum += list[i].weight;
            }
        }
        put_text("tree ");
        put_long(sum);
        putchar('\n');
    }
    free(list);
    free(room);
    free(parent);
    return done;
}

static void visit(const struct graph *g, int *seen, int node, visit_fn after, void *state) {
    seen[node] = 1;
    for (int e = g->first[node]; e >= 0; e = g->next[e])
        if (!seen[g->edge[e].to])
            visit(g, seen, g->edge[e].to, after, state);
    after(state, node);
}

static int order(const struct graph *g) {
    int *seen = ints(g->nodes, 0);
    int many = 0;
    if (!seen)
        return 0;
    for (int i = 0; i < g->nodes; i++)
        if (!seen[i])
            visit(g, seen, i, put_item, &many);
    putchar('\n');
    free(seen);
    return 1;
}

static int augment(const struct graph *g, int *mate, int *seen, int node) {
    for (int e = g->first[node]; e >= 0; e = g->next[e]) {
        int to = g->edge[e].to;
        if (seen[to])
            continue;
        seen[to] = 1;
        if (mate[to] < 0 || augment(g, mate, seen, mate[to])) {
            mate[to] = node;
            return 1;
        }
    }
    return 0;
}

static int matching(const struct graph *g) {
    int *mate = ints(g->nodes, -1);
    int *seen = ints(g->nodes, 0);
    int size = 0;
    int done = mate && seen;
    for (int i = 0; done && i < g->nodes; i++) {
        for (int j = 0; j < g->nodes; j++)
            seen[j] = 0;
        size += augment(g, mate, seen, i);
    }
    if (done) {
        put_text("matching ");
        put_long(size);
        putchar('\n');
    }
    free(mate);
    free(seen);
    return done;
}

static int answer(const struct graph *g, int question) {
    int from;
    switch (question) {
    case 'd':
        return read_int(&from) && from >= 0 && from < g->nodes && distances(g, from);
    case 't':
        return least_tree(g);
    case 'o':
        return order(g);
    case 'm':
        return matching(g);
    case ' ':
    case '\n':
        return 1;
    default:
        return 0;
    }
}

int main(void) {
    struct graph g;
    int done = graph_read(&g);
    while (done && peek() >= 0)
        done = answer(&g, take());
    graph_free(&g);
    return done ? 0 : 1;
}
