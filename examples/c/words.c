/* Counts the words of a text, in a hash table of chains over an arena, and prints them by count. */
#include <stddef.h>
#include <stdlib.h>
#include <string.h>

extern int putchar(int c);
extern int getchar(void);

struct arena {
    char *base;
    size_t used;
    size_t room;
    struct arena *older;
};

struct entry {
    struct entry *next;
    const char *word;
    unsigned len;
    unsigned hash;
    unsigned long count;
    unsigned first_line;
};

struct table {
    struct entry **buckets;
    unsigned bits;
    unsigned entries;
    struct arena *arena;
};

struct reader {
    char *text;
    size_t len;
    size_t at;
    unsigned line;
    int failed;
};

static unsigned long arenas_made;

static struct arena *arena_new(struct arena *older, size_t room) {
    struct arena *a = malloc(sizeof *a);
    if (!a)
        return NULL;
    a->base = malloc(room);
    if (!a->base) {
        free(a);
        return NULL;
    }
    a->used = 0;
    a->room = room;
    a->older = older;
    arenas_made++;
    return a;
}

static void arena_free(struct arena *a) {
    while (a) {
        struct arena *older = a->older;
        free(a->base);
        free(a);
        a = older;
    }
}

static void *arena_take(struct arena **at, size_t size) {
    struct arena *a = *at;
    size_t start = (a->used + 7) & ~(size_t)7;
    if (start > a->room || size > a->room - start) {
        size_t room = a->room * 2;
        while (room < size)
            room *= 2;
        a = arena_new(*at, room);
        if (!a)
            return NULL;
        *at = a;
        start = 0;
    }
    a->used = start + size;
    return a->base + start;
}

static unsigned hash_of(const char *word, unsigned len) {
    unsigned h = 2166136261u;
    for (unsigned i = 0; i < len; i++) {
        h ^= (unsigned char)word[i];
        h *= 16777619u;
    }
    return h;
}

static int table_open(struct table *t, unsigned bits) {
    size_t count = (size_t)1 << bits;
    t->buckets = calloc(count, sizeof *t->buckets);
    if (!t->buckets)
        return 0;
    t->arena = arena_new(NULL, 4096);
    if (!t->arena) {
        free(t->buckets);
        return 0;
    }
    t->bits = bits;
    t->entries = 0;
    return 1;
}

static void table_close(struct table *t) {
    free(t->buckets);
    arena_free(t->arena);
    t->buckets = NULL;
    t->arena = NULL;
}

static struct entry **slot_of(const struct table *t, unsigned hash) {
    return &t->buckets[hash >> (32 - t->bits)];
}

static struct entry *find(const struct table *t, const char *word, unsigned len, unsigned hash) {
    for (struct entry *e = *slot_of(t, hash); e; e = e->next)
        if (e->hash == hash && e->len == len && memcmp(e->word, word, len) == 0)
            return e;
    return NULL;
}

static int table_grow(struct table *t) {
    unsigned bits = t->bits + 1;
    size_t old_count = (size_t)1 << t->bits;
    struct entry **made = calloc((size_t)1 << bits, sizeof *made);
    struct entry **old = t->buckets;
    if (!made)
        return 0;
    t->buckets = made;
    t->bits = bits;
    for (size_t i = 0; i < old_count; i++) {
        struct entry *e = old[i];
        while (e) {
            struct entry *next = e->next;
            struct entry **slot = slot_of(t, e->hash);
            e->next = *slot;
            *slot = e;
            e = next;
        }
    }
    free(old);
    return 1;
}

static char *copied(struct table *t, const char *word, unsigned len) {
    char *copy = arena_take(&t->arena, (size_t)len + 1);
    if (!copy)
        return NULL;
    for (unsigned i = 0; i < len; i++)
        copy[i] = word[i];
    copy[len] = 0;
    return copy;
}

static int count_word(struct table *t, const char *word, unsigned len, unsigned line) {
    unsigned hash = hash_of(word, len);
    struct entry *e = find(t, word, len, hash);
    if (e) {
        e->count++;
        return 1;
    }
    if (t->entries > (3u << t->bits) / 4 && !table_grow(t))
        return 0;
    e = arena_take(&t->arena, sizeof *e);
    if (!e)
        return 0;
    e->word = copied(t, word, len);
    if (!e->word)
        return 0;
    e->len = len;
    e->hash = hash;
    e->count = 1;
    e->first_line = line;
    e->next = *slot_of(t, hash);
    *slot_of(t, hash) = e;
    t->entries++;
    return 1;
}

static int is_letter(int c) {
    return (c >= 'a' && c <= 'z') || (c >= 'A' && c <= 'Z') || c == '\'';
}

static int lowered(int c) {
    if (c >= 'A' && c <= 'Z')
        return c - 'A' + 'a';
    return c;
}

static int reader_fill(struct reader *r) {
    size_t room = 1024;
    r->text = malloc(room);
    r->len = 0;
    r->at = 0;
    r->line = 1;
    r->failed = 0;
    if (!r->text)
        return 0;
    for (int c = getchar(); c >= 0; c = getchar()) {
        if (r->len == room) {
            char *more = realloc(r->text, room * 2);
            if (!more) {
                r->failed = 1;
                return 0;
            }
            r->text = more;
            room *= 2;
        }
        r->text[r->len++] = (char)lowered(c);
    }
    return 1;
}

static int next_word(struct reader *r, const char **word, unsigned *len) {
    while (r->at < r->len && !is_letter(r->text[r->at])) {
        if (r->text[r->at] == '\n')
            r->line++;
        r->at++;
    }
    if (r->at == r->len)
        return 0;
    *word = r->text + r->at;
    while (r->at < r->len && is_letter(r->text[r->at]))
        r->at++;
    *len = (unsigned)(r->text + r->at - *word);
    return 1;
}

static int compare_bytes(const char *a, unsigned a_len, const char *b, unsigned b_len) {
    unsigned both = a_len < b_len ? a_len : b_len;
    for (unsigned i = 0; i < both; i++)
        if (a[i] != b[i])
            return (unsigned char)a[i] < (unsigned char)b[i] ? -1 : 1;
    if (a_len == b_len)
        return 0;
    return a_len < b_len ? -1 : 1;
}

static int comes_first(const struct entry *a, const struct entry *b) {
    if (a->count != b->count)
        return a->count > b->count;
    return compare_bytes(a->word, a->len, b->word, b->len) < 0;
}

static void sift_down(struct entry **list, unsigned from, unsigned count) {
    for (;;) {
        unsigned least = from;
        unsigned left = 2 * from + 1;
        unsigned right = left + 1;
        if (left < count && comes_first(list[least], list[left]))
            least = left;
        if (right < count && comes_first(list[least], list[right]))
            least = right;
        if (least == from)
            return;
        struct entry *e = list[from];
        list[from] = list[least];
        list[least] = e;
        from = least;
    }
}

static void heap_sort(struct entry **list, unsigned count) {
    for (unsigned i = count / 2; i-- > 0;)
        sift_down(list, i, count);
    for (unsigned end = count; end-- > 1;) {
        struct entry *e = list[0];
        list[0] = list[end];
        list[end] = e;
        sift_down(list, 0, end);
    }
}

static struct entry **listed(const struct table *t) {
    struct entry **list = malloc((t->entries + 1) * sizeof *list);
    unsigned n = 0;
    if (!list)
        return NULL;
    for (size_t i = 0; i < (size_t)1 << t->bits; i++)
        for (struct entry *e = t->buckets[i]; e; e = e->next)
            list[n++] = e;
    heap_sort(list, n);
    return list;
}

static void put_text(const char *text) {
    while (*text)
        putchar(*text++);
}

static void put_number(unsigned long n, unsigned width) {
    char digits[20];
    unsigned used = 0;
    do {
        digits[used++] = (char)('0' + n % 10);
        n /= 10;
    } while (n);
    while (width > used) {
        putchar(' ');
        width--;
    }
    while (used)
        putchar(digits[--used]);
}

static void put_entry(const struct entry *e) {
    put_number(e->count, 8);
    putchar(' ');
    put_text(e->word);
    put_text(" from line ");
    put_number(e->first_line, 0);
    putchar('\n');
}

static unsigned long total_of(struct entry *const *list, unsigned count) {
    unsigned long sum = 0;
    for (unsigned i = 0; i < count; i++)
        sum += list[i]->count;
    return sum;
}

static unsigned longest_chain(const struct table *t) {
    unsigned most = 0;
    for (size_t i = 0; i < (size_t)1 << t->bits; i++) {
        unsigned n = 0;
        for (const struct entry *e = t->buckets[i]; e; e = e->next)
            n++;
        if (n > most)
            most = n;
    }
    return most;
}

static void put_summary(const struct table *t, struct entry *const *list) {
    put_number(total_of(list, t->entries), 8);
    put_text(" words, ");
    put_number(t->entries, 0);
    put_text(" of them different, longest chain ");
    put_number(longest_chain(t), 0);
    put_text(", arenas ");
    put_number(arenas_made, 0);
    putchar('\n');
}

static int count_all(struct table *t, struct reader *r) {
    const char *word;
    unsigned len;
    while (next_word(r, &word, &len))
        if (!count_word(t, word, len, r->line))
            return 0;
    return 1;
}

static int report(const struct table *t, unsigned most) {
    struct entry **list = listed(t);
    if (!list)
        return 0;
    for (unsigned i = 0; i < t->entries && i < most; i++)
        put_entry(list[i]);
    put_summary(t, list);
    free(list);
    return 1;
}

int main(void) {
    struct reader r;
    struct table t;
    int done = 0;
    if (!reader_fill(&r)) {
        free(r.text);
        return 1;
    }
    if (table_open(&t, 4)) {
        done = count_all(&t, &r) && report(&t, 50);
        table_close(&t);
    }
    free(r.text);
    return done ? 0 : 1;
}
