/* Compiles lines of integer arithmetic with variables, conditions and loops for a stack machine, and runs them. */
#include <setjmp.h>
#include <stddef.h>
#include <stdlib.h>
#include <string.h>

extern int putchar(int c);
extern int getchar(void);

enum kind { END, NUMBER, NAME, MARK };

enum op {
    OP_PUSH, OP_LOAD, OP_STORE, OP_ADD, OP_SUB, OP_MUL, OP_DIV, OP_MOD, OP_NEG, OP_NOT, OP_LESS, OP_EQUAL,
    OP_AND, OP_OR, OP_JUMP, OP_JUMP_IF_NOT, OP_PRINT, OP_POP, OP_HALT
};

struct token {
    enum kind kind;
    long number;
    char name[16];
    char mark;
};

struct instr {
    unsigned char op;
    int arg;
    long number;
};

struct code {
    struct instr *list;
    int len;
    int room;
};

struct scope {
    char names[64][16];
    int count;
};

struct parser {
    const char *text;
    struct token now;
    struct code code;
    struct scope scope;
    int depth;
    const char *fault;
    jmp_buf out;
};

struct machine {
    long stack[256];
    int top;
    long values[64];
    unsigned long steps;
    const char *fault;
};

static void fail(struct parser *p, const char *why) {
    p->fault = why;
    longjmp(p->out, 1);
}

static int is_digit(char c) { return c >= '0' && c <= '9'; }

static int is_name(char c) { return (c >= 'a' && c <= 'z') || (c >= 'A' && c <= 'Z') || c == '_'; }

static void read_number(struct parser *p) {
    long n = 0;
    while (is_digit(*p->text)) {
        if (n > (0x7fffffffffffffffL - 9) / 10)
            fail(p, "number too large");
        n = n * 10 + (*p->text++ - '0');
    }
    p->now.kind = NUMBER;
    p->now.number = n;
}

static void read_name(struct parser *p) {
    int len = 0;
    while (is_name(*p->text) || is_digit(*p->text)) {
        if (len == 15)
            fail(p, "name too long");
        p->now.name[len++] = *p->text++;
    }
    p->now.name[len] = 0;
    p->now.kind = NAME;
}

static void step(struct parser *p) {
    while (*p->text == ' ' || *p->text == '\t')
        p->text++;
    if (*p->text == 0) {
        p->now.kind = END;
    } else if (is_digit(*p->text)) {
        read_number(p);
    } else if (is_name(*p->text)) {
        read_name(p);
    } else {
        p->now.kind = MARK;
        p->now.mark = *p->text++;
    }
}

static int at_mark(const struct parser *p, char mark) { return p->now.kind == MARK && p->now.mark == mark; }

static int at_word(const struct parser *p, const char *word) {
    return p->now.kind == NAME && strcmp(p->now.name, word) == 0;
}

static void expect(struct parser *p, char mark) {
    if (!at_mark(p, mark))
        fail(p, "another mark is wanted");
    step(p);
}

static int emit(struct parser *p, enum op op, int arg, long number) {
    struct code *c = &p->code;
    if (c->len == c->room) {
        int room = c->room ? c->room * 2 : 32;
        struct instr *more = realloc(c->list, (size_t)room * sizeof *more);
        if (!more)
            fail(p, "no memory");
        c->list = more;
        c->room = room;
    }
    c->list[c->len].op = (unsigned char)op;
    c->list[c->len].arg = arg;
    c->list[c->len].number = number;
    return c->len++;
}

static int slot(struct parser *p, const char *name) {
    struct scope *s = &p->scope;
    for (int i = 0; i < s->count; i++)
        if (strcmp(s->names[i], name) == 0)
            return i;
    if (s->count == 64)
        fail(p, "too many names");
    strcpy(s->names[s->count], name);
    return s->count++;
}

static void expression(struct parser *p);

static void primary(struct parser *p) {
    if (++p->depth > 100)
        fail(p, "too deep");
    if (p->now.kind == NUMBER) {
        emit(p, OP_PUSH, 0, p->now.number);
        step(p);
    } else if (p->now.kind == NAME) {
        emit(p, OP_LOAD, slot(p, p->now.name), 0);
        step(p);
    } else if (at_mark(p, '(')) {
        step(p);
        expression(p);
        expect(p, ')');
    } else if (at_mark(p, '-')) {
        step(p);
        primary(p);
        emit(p, OP_NEG, 0, 0);
    } else if (at_mark(p, '!')) {
        step(p);
        primary(p);
        emit(p, OP_NOT, 0, 0);
    } else {
        fail(p, "a value is wanted");
    }
    p->depth--;
}

static enum op op_of(char mark, int level) {
    switch (level) {
    case 0:
        return mark == '|' ? OP_OR : OP_HALT;
    case 1:
        return mark == '&' ? OP_AND : OP_HALT;
    case 2:
        return mark == '<' ? OP_LESS : mark == '=' ? OP_EQUAL : OP_HALT;
    case 3:
        return mark == '+' ? OP_ADD : mark == '-' ? OP_SUB : OP_HALT;
    case 4:
        switch (mark) {
        case '*':
            return OP_MUL;
        case '/':
            return OP_DIV;
        case '%':
            return OP_MOD;
        default:
            return OP_HALT;
        }
    default:
        return OP_HALT;
    }
}

static void level(struct parser *p, int n) {
    if (n == 5) {
        primary(p);
        return;
    }
    level(p, n + 1);
    while (p->now.kind == MARK) {
        enum op op = op_of(p->now.mark, n);
        if (op == OP_HALT)
            return;
        step(p);
        level(p, n + 1);
        emit(p, op, 0, 0);
    }
}

static void expression(struct parser *p) { level(p, 0); }

static void statement(struct parser *p);

static void block(struct parser *p) {
    expect(p, '{');
    while (!at_mark(p, '}')) {
        if (p->now.kind == END)
            fail(p, "a block has no end");
        statement(p);
    }
    step(p);
}

static void if_statement(struct parser *p) {
    int over, past;
    step(p);
    expression(p);
    over = emit(p, OP_JUMP_IF_NOT, 0, 0);
    block(p);
    if (!at_word(p, "else")) {
        p->code.list[over].arg = p->code.len;
        return;
    }
    step(p);
    past = emit(p, OP_JUMP, 0, 0);
    p->code.list[over].arg = p->code.len;
    block(p);
    p->code.list[past].arg = p->code.len;
}

static void while_statement(struct parser *p) {
    int back = p->code.len;
    int over;
    step(p);
    expression(p);
    over = emit(p, OP_JUMP_IF_NOT, 0, 0);
    block(p);
    emit(p, OP_JUMP, back, 0);
    p->code.list[over].arg = p->code.len;
}

static void statement(struct parser *p) {
    if (at_word(p, "if")) {
        if_statement(p);
    } else if (at_word(p, "while")) {
        while_statement(p);
    } else if (at_word(p, "print")) {
        step(p);
        expression(p);
        emit(p, OP_PRINT, 0, 0);
        expect(p, ';');
    } else if (at_word(p, "let")) {
        int to;
        step(p);
        if (p->now.kind != NAME)
            fail(p, "a name is wanted");
        to = slot(p, p->now.name);
        step(p);
        expect(p, ':');
        expression(p);
        emit(p, OP_STORE, to, 0);
        expect(p, ';');
    } else {
        expression(p);
        emit(p, OP_POP, 0, 0);
        expect(p, ';');
    }
}

static int compile(struct parser *p, const char *text) {
    p->text = text;
    p->depth = 0;
    p->fault = NULL;
    p->code.len = 0;
    if (setjmp(p->out))
        return 0;
    step(p);
    while (p->now.kind != END)
        statement(p);
    emit(p, OP_HALT, 0, 0);
    return 1;
}

static void push(struct machine *m, long value) {
    if (m->top == 256)
        m->fault = "the stack is full";
    else
        m->stack[m->top++] = value;
}

static long pop(struct machine *m) {
    if (m->top == 0) {
        m->fault = "the stack is empty";
        return 0;
    }
    return m->stack[--m->top];
}

static long divided(struct machine *m, long a, long b, int is_rest) {
    if (b == 0) {
        m->fault = "division by zero";
        return 0;
    }
    if (b == -1)
        return is_rest ? 0 : (long)(0 - (unsigned long)a);
    return is_rest ? a % b : a / b;
}

static long applied(struct machine *m, enum op op, long a, long b) {
    switch (op) {
    case OP_ADD:
        return (long)((unsigned long)a + (unsigned long)b);
    case OP_SUB:
        return (long)((unsigned long)a - (unsigned long)b);
    case OP_MUL:
        return (long)((unsigned long)a * (unsigned long)b);
    case OP_DIV:
        return divided(m, a, b, 0);
    case OP_MOD:
        return divided(m, a, b, 1);
    case OP_LESS:
        return a < b;
    case OP_EQUAL:
        return a == b;
    case OP_AND:
        return a && b;
    case OP_OR:
        return a || b;
    default:
        return 0;
    }
}

static void put_text(const char *text) {
    while (*text)
        putchar(*text++);
}

static void put_long(long n) {
    unsigned long rest = n < 0 ? 0 - (unsigned long)n : (unsigned long)n;
    char digits[20];
    int used = 0;
    if (n < 0)
        putchar('-');
    do {
        digits[used++] = (char)('0' + rest % 10);
        rest /= 10;
    } while (rest);
    while (used)
        putchar(digits[--used]);
}

static void run(struct machine *m, const struct code *code) {
    int at = 0;
    m->top = 0;
    m->fault = NULL;
    while (!m->fault && m->steps < 1000000) {
        const struct instr *i = &code->list[at++];
        long b;
        m->steps++;
        switch ((enum op)i->op) {
        case OP_PUSH:
            push(m, i->number);
            break;
        case OP_LOAD:
            push(m, m->values[i->arg]);
            break;
        case OP_STORE:
            m->values[i->arg] = pop(m);
            break;
        case OP_NEG:
            push(m, (long)(0 - (unsigned long)pop(m)));
            break;
        case OP_NOT:
            push(m, !pop(m));
            break;
        case OP_JUMP:
            at = i->arg;
            break;
        case OP_JUMP_IF_NOT:
            if (!pop(m))
                at = i->arg;
            break;
        case OP_PRINT:
            put_long(pop(m));
            putchar('\n');
            break;
        case OP_POP:
            pop(m);
            break;
        case OP_HALT:
            return;
        default:
            b = pop(m);
            push(m, applied(m, (enum op)i->op, pop(m), b));
        }
    }
    if (!m->fault)
        m->fault = "too many steps";
}

static int read_line(char *line, int room) {
    int len = 0;
    int c = getchar();
    if (c < 0)
        return 0;
    while (c >= 0 && c != '\n') {
        if (len < room - 1)
            line[len++] = (char)c;
        c = getchar();
    }
    line[len] = 0;
    return 1;
}

static void put_fault(const char *fault) {
    put_text("! ");
    put_text(fault);
    putchar('\n');
}

int main(void) {
    static struct parser p;
    static struct machine m;
    char line[512];
    int faults = 0;
    while (read_line(line, sizeof line)) {
        m.steps = 0;
        if (compile(&p, line))
            run(&m, &p.code);
        else
            m.fault = p.fault;
        if (m.fault) {
            put_fault(m.fault);
            faults++;
        }
    }
    free(p.code.list);
    return faults ? 1 : 0;
}
