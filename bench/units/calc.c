enum calc_kind {
    calc_end,
    calc_number,
    calc_name,
    calc_plus = '+',
    calc_minus = '-',
    calc_star = '*',
    calc_slash = '/',
    calc_open = '(',
    calc_close = ')'
};

typedef struct calc_node calc_node;
struct calc_node {
    enum calc_kind kind;
    union {
        long number;
        struct {
            calc_node *left, *right;
        } pair;
        char name[16];
    } of;
};

struct calc_parser {
    const char *text;
    const char *at;
    enum calc_kind token;
    long number;
    char name[16];
    unsigned errors;
    unsigned char depth;
};

static calc_node calc_nodes[512];
static int calc_used;

static calc_node *calc_expression(struct calc_parser *p);

static int calc_is_space(int c)
{
    return c == ' ' || c == '\t' || c == '\n' || c == '\r' || c == '\v' || c == '\f';
}

static int calc_is_letter(int c)
{
    return (c >= 'a' && c <= 'z') || (c >= 'A' && c <= 'Z') || c == '_';
}

static void calc_fail(struct calc_parser *p, const char *message)
{
    if (p->errors++ == 0)
        fprintf(stderr, "calc: %s at byte %ld of \"%s\"\n", message, (long)(p->at - p->text), p->text);
}

static void calc_advance(struct calc_parser *p)
{
    while (calc_is_space(*p->at))
        p->at++;
    if (*p->at == '\0') {
        p->token = calc_end;
        return;
    }
    if (*p->at >= '0' && *p->at <= '9') {
        p->number = 0;
        do {
            p->number = p->number * 10 + (*p->at++ - '0');
        } while (*p->at >= '0' && *p->at <= '9');
        p->token = calc_number;
        return;
    }
    if (calc_is_letter(*p->at)) {
        unsigned int n = 0;

        while (calc_is_letter(*p->at) && n < sizeof p->name - 1)
            p->name[n++] = *p->at++;
        p->name[n] = '\0';
        p->token = calc_name;
        return;
    }
    switch (*p->at) {
    case '+':
    case '-':
    case '*':
    case '/':
    case '(':
    case ')':
        p->token = (enum calc_kind)*p->at++;
        break;
    default:
        calc_fail(p, "a byte that begins nothing");
        p->at++;
        p->token = calc_end;
        break;
    }
}

static calc_node *calc_make(struct calc_parser *p, enum calc_kind kind)
{
    calc_node *node;

    if (calc_used >= (int)(sizeof calc_nodes / sizeof *calc_nodes)) {
        calc_fail(p, "too many operators");
        calc_used = 0;
    }
    node = &calc_nodes[calc_used++];
    memset(node, 0, sizeof *node);
    node->kind = kind;
    return node;
}

static calc_node *calc_pair(struct calc_parser *p, enum calc_kind kind, calc_node *left, calc_node *right)
{
    calc_node *node = calc_make(p, kind);

    node->of.pair.left = left;
    node->of.pair.right = right;
    return node;
}

static calc_node *calc_primary(struct calc_parser *p)
{
    calc_node *node;

    switch (p->token) {
    case calc_number:
        node = calc_make(p, calc_number);
        node->of.number = p->number;
        calc_advance(p);
        return node;
    case calc_name:
        node = calc_make(p, calc_name);
        memcpy(node->of.name, p->name, sizeof node->of.name);
        calc_advance(p);
        return node;
    case calc_open:
        if (++p->depth > 200) {
            calc_fail(p, "too deep");
            return calc_make(p, calc_end);
        }
        calc_advance(p);
        node = calc_expression(p);
        if (p->token != calc_close)
            calc_fail(p, "expected ')'");
        else
            calc_advance(p);
        p->depth -= 1;
        return node;
    case calc_minus:
        calc_advance(p);
        return calc_pair(p, calc_minus, calc_make(p, calc_number), calc_primary(p));
    default:
        calc_fail(p, "expected a number, a name, '-' or '('");
        return calc_make(p, calc_end);
    }
}

static calc_node *calc_term(struct calc_parser *p)
{
    calc_node *left = calc_primary(p);

    while (p->token == calc_star || p->token == calc_slash) {
        enum calc_kind kind = p->token;

        calc_advance(p);
        left = calc_pair(p, kind, left, calc_primary(p));
    }
    return left;
}

static calc_node *calc_expression(struct calc_parser *p)
{
    calc_node *left = calc_term(p);

    for (;;) {
        enum calc_kind kind = p->token;

        if (kind != calc_plus && kind != calc_minus)
            break;
        calc_advance(p);
        left = calc_pair(p, kind, left, calc_term(p));
    }
    return left;
}

static long calc_value(const calc_node *node, long (*value_of)(const char *name))
{
    long left, right;

    if (node->kind == calc_number)
        return node->of.number;
    if (node->kind == calc_name)
        return value_of ? value_of(node->of.name) : 0;
    if (node->kind == calc_end)
        return 0;
    left = calc_value(node->of.pair.left, value_of);
    right = calc_value(node->of.pair.right, value_of);
    return node->kind == calc_plus ? left + right
         : node->kind == calc_minus ? left - right
         : node->kind == calc_star ? left * right
         : right != 0 ? left / right : 0;
}

int calc_run(const char *text, long *result)
{
    struct calc_parser parser = { .text = text, .at = text };
    calc_node *root;

    calc_used = 0;
    calc_advance(&parser);
    root = calc_expression(&parser);
    if (parser.token != calc_end)
        calc_fail(&parser, "expected an operator or the end");
    *result = calc_value(root, ((void *)0));
    printf("%-24s = %10ld (%d nodes, %u error%s)\n", text, *result, calc_used, parser.errors, parser.errors == 1 ? "" : "s");
    return parser.errors == 0;
}
