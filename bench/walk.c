/* Walks the trees of a loop over one kind of statement: the plain program that the steps of evaluation are measured against.
   Usage: walk KIND TURNS COPIES, where KIND is loop, xor, sum, index or call. */
#include <stdint.h>
#include <stdio.h>
#include <stdlib.h>
#include <string.h>

enum kind { NUMBER, VARIABLE, XOR, ADD, MULTIPLY, INDEX, CALL, ASSIGN, LOOP };

struct node {
    enum kind kind;
    int cell, length, count;
    int64_t number;
    struct node *left, *right, **statements;
};

static int64_t cells[1024];
static uint64_t used, limit = UINT64_MAX;

static struct node *made(enum kind kind, int cell, struct node *left, struct node *right)
{
    struct node *n = calloc(1, sizeof *n);
    if (n == NULL)
        exit(9);
    n->kind = kind;
    n->cell = cell;
    n->left = left;
    n->right = right;
    return n;
}

static void tick(void)
{
    if (used >= limit)
        exit(5);
    used++;
}

/* The value of an expression, where the cells of the body that runs begin at a base. */
static int64_t value(const struct node *n, int base)
{
    switch (n->kind) {
    case NUMBER:
        return n->number;
    case VARIABLE:
        return cells[base + n->cell];
    case XOR:
        return (int32_t)(value(n->left, base) ^ value(n->right, base));
    case ADD:
        return (int32_t)((uint64_t)value(n->left, base) + (uint64_t)value(n->right, base));
    case MULTIPLY:
        return (int32_t)((uint64_t)value(n->left, base) * (uint64_t)value(n->right, base));
    case INDEX: {
        int64_t i = value(n->left, base);
        if (i < 0 || i >= n->length)
            exit(4);
        return cells[base + n->cell + i];
    }
    case CALL: {
        int inner = base + 64;
        cells[inner] = value(n->left, base);
        tick();
        return value(n->right, inner);
    }
    default:
        exit(2);
    }
}

static void run(const struct node *n, int base)
{
    if (n->kind == ASSIGN) {
        cells[base + n->cell] = value(n->left, base);
        return;
    }
    int64_t turns = value(n->left, base);
    for (int64_t i = 0; i < turns; i++) {
        tick();
        cells[base + n->cell] = (int32_t)i;
        for (int s = 0; s < n->count; s++)
            run(n->statements[s], base);
    }
}

static struct node *variable(int cell)
{
    return made(VARIABLE, cell, NULL, NULL);
}

/* The statement of a kind: x is the cell 0, a, b and c stand behind it, and an array from the cell 8 on. */
static struct node *statement(const char *kind)
{
    if (strcmp(kind, "xor") == 0)
        return made(ASSIGN, 0, made(XOR, 0, variable(0), variable(1)), NULL);
    if (strcmp(kind, "sum") == 0)
        return made(ASSIGN, 0, made(ADD, 0, variable(1), made(MULTIPLY, 0, variable(2), variable(3))), NULL);
    if (strcmp(kind, "call") == 0)
        return made(ASSIGN, 0, made(CALL, 0, variable(1), variable(0)), NULL);
    struct node *element = made(INDEX, 8, variable(4), NULL);
    element->length = 8;
    return made(ASSIGN, 0, element, NULL);
}

int main(int argc, char **argv)
{
    if (argc != 4)
        return 2;
    int copies = strcmp(argv[1], "loop") == 0 ? 0 : atoi(argv[3]);
    struct node *turns = made(NUMBER, 0, NULL, NULL);
    turns->number = atoll(argv[2]);
    struct node *loop = made(LOOP, 16, turns, NULL);
    loop->count = copies;
    loop->statements = calloc((size_t)copies + 1, sizeof *loop->statements);
    if (loop->statements == NULL)
        return 9;
    for (int i = 0; i < copies; i++)
        loop->statements[i] = statement(argv[1]);
    cells[1] = 5;
    cells[2] = 7;
    cells[3] = 11;
    cells[4] = 3;
    run(loop, 0);
    printf("%lld %llu\n", (long long)cells[0], (unsigned long long)used);
    return 0;
}
