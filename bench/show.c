/* A plain parser of the same grammar, to compare with: reads a text into a tree and prints it in its canonical form. It tells no
   places and has no limit of heights. */
#include <ctype.h>
#include <stdio.h>
#include <stdlib.h>
#include <string.h>

enum form {
    PROGRAM, TOP_VAR, STRUCTURE, FUNCTION, COMPONENT, VAR, FIELD, TYPE, ARRAY_TYPE, NOTHING,
    TAKE, TAKES, EMIT, EMITS, RETURN, DO, REPEAT, WHILE, FOR, IF, MAP, FILTER, CALL, BLOCK, BIND, LINK,
    ASSIGN, ERROR, NAME, NUMBER, WORD, UNIT, PREFIX, BINARY, INDEX, SLICE, PART, ARRAY, CONVERT,
};

struct token {
    const char *text;
    unsigned length, line, column;
    unsigned long value;
    int kind;                    /* a letter for what it is: n(ame), k(eyword), i(nteger), b(it), s(tring), o(ther) */
};

struct node {
    enum form form;
    int rank;
    struct token token;
    struct node *first, *last, *next;
};

static const char *const keywords[] = {
    "arr", "bit", "bool", "comp", "complex16", "complex32", "do", "else", "emit", "emits", "error", "false", "filter", "for", "fun",
    "if", "in", "int", "int8", "int16", "int32", "int64", "let", "map", "not", "read", "repeat", "return", "struct", "take", "takes",
    "then", "times", "true", "try", "until", "var", "viterbi", "while", "with", "write",
};

static const char *const signs[] = {
    "|>>>|", ">>>", "<<", ">>", "<-", ":=", "==", "!=", "<=", ">=", "&&", "||",
};

static const char *const ranks[][5] = {
    { "||" }, { "&&" }, { "|" }, { "^" }, { "&" }, { "==", "!=" }, { "<", "<=", ">", ">=" }, { "<<", ">>" }, { "+", "-" }, { "*", "/", "%" },
};
enum { RANKS = 10 };

static struct token *tokens;
static size_t count, at;

static void refuse(void)
{
    if (at < count)
        fprintf(stderr, "%u:%u: syntax\n", tokens[at].line, tokens[at].column);
    else
        fprintf(stderr, "syntax at the end\n");
    exit(2);
}

static int is(size_t i, const char *text)
{
    size_t length = strlen(text);
    return i < count && tokens[i].kind != 's' && tokens[i].length == length && memcmp(tokens[i].text, text, length) == 0;
}

static int eat(const char *text)
{
    if (!is(at, text))
        return 0;
    at++;
    return 1;
}

static struct token want(const char *text)
{
    struct token token = at < count ? tokens[at] : (struct token) { 0 };
    if (!eat(text))
        refuse();
    return token;
}

static struct token want_kind(int kind)
{
    if (at >= count || tokens[at].kind != kind)
        refuse();
    return tokens[at++];
}

static struct node *make(enum form form, struct token token)
{
    struct node *node = calloc(1, sizeof *node);
    if (node == NULL)
        exit(9);
    node->form = form;
    node->token = token;
    return node;
}

static struct node *add(struct node *node, struct node *part)
{
    if (node->last != NULL)
        node->last->next = part;
    else
        node->first = part;
    node->last = part;
    return node;
}

static struct node *expression(int rank);
static struct node *component(int write_ends);
static struct node *atom(void);
static struct node *statements(void);

static struct node *type(void)
{
    struct token token = at < count ? tokens[at] : (struct token) { 0 };
    if (eat("arr")) {
        want("[");
        struct node *node = make(ARRAY_TYPE, want_kind('i'));
        want("]");
        return add(node, type());
    }
    static const char *const bases[] = { "bit", "bool", "int8", "int16", "int32", "int64", "int", "complex16", "complex32" };
    for (size_t i = 0; i < sizeof bases / sizeof *bases; i++)
        if (eat(bases[i]))
            return make(TYPE, token);
    return make(TYPE, want_kind('n'));
}

static struct node *field(void)
{
    struct node *node = make(FIELD, want_kind('n'));
    want(":");
    return add(node, type());
}

static struct node *variable(enum form form)
{
    struct node *node = make(form, want_kind('n'));
    want(":");
    add(node, type());
    return eat(":=") ? add(node, expression(0)) : node;
}

static void arguments(struct node *node)
{
    want("(");
    if (eat(")"))
        return;
    do
        add(node, expression(0));
    while (eat(","));
    want(")");
}

static int is_conversion(size_t i)
{
    static const char *const bases[] = { "bit", "int8", "int16", "int32", "int64", "int", "complex16", "complex32" };
    for (size_t k = 0; k < sizeof bases / sizeof *bases; k++)
        if (is(i, bases[k]))
            return 1;
    return 0;
}

static struct node *primary(void)
{
    struct token token = at < count ? tokens[at] : (struct token) { 0 };
    if (at >= count)
        refuse();
    if (is_conversion(at)) {
        at++;
        struct node *node = make(CONVERT, token);
        want("(");
        add(node, expression(0));
        if (eat(","))
            add(node, expression(0));
        want(")");
        return node;
    }
    if (eat("true") || eat("false"))
        return make(WORD, token);
    if (eat("(")) {
        if (eat(")"))
            return make(UNIT, token);
        struct node *node = expression(0);
        want(")");
        return node;
    }
    if (eat("{")) {
        struct node *node = make(ARRAY, token);
        do
            add(node, expression(0));
        while (eat(","));
        want("}");
        return node;
    }
    if (token.kind == 'n') {
        at++;
        struct node *node = make(is(at, "(") ? CALL : NAME, token);
        if (node->form == CALL)
            arguments(node);
        return node;
    }
    if (token.kind != 'i' && token.kind != 'b')
        refuse();
    at++;
    return make(token.kind == 'i' ? NUMBER : WORD, token);
}

static struct node *posts(struct node *node)
{
    for (;;) {
        struct token token = at < count ? tokens[at] : (struct token) { 0 };
        if (eat("[")) {
            struct node *index = expression(0);
            struct node *post = make(eat(",") ? SLICE : INDEX, token);
            add(add(post, node), index);
            if (post->form == SLICE)
                add(post, make(NUMBER, want_kind('i')));
            want("]");
            node = post;
        } else if (eat(".")) {
            node = add(make(PART, want_kind('n')), node);
        } else {
            return node;
        }
    }
}

static struct node *unary(void)
{
    struct token token = at < count ? tokens[at] : (struct token) { 0 };
    if (eat("-") || eat("~") || eat("not"))
        return add(make(PREFIX, token), unary());
    return posts(primary());
}

static int has_rank(int rank)
{
    for (size_t i = 0; i < 5 && ranks[rank][i] != NULL; i++)
        if (is(at, ranks[rank][i]))
            return 1;
    return 0;
}

static struct node *expression(int rank)
{
    if (rank == RANKS)
        return unary();
    struct node *left = expression(rank + 1);
    while (has_rank(rank)) {
        struct node *node = make(BINARY, tokens[at++]);
        node->rank = rank;
        left = add(add(node, left), expression(rank + 1));
    }
    return left;
}

static void bounds(struct node *node)
{
    want("[");
    add(node, expression(0));
    want(",");
    add(node, expression(0));
    want("]");
}

/* The head of a loop that counts, behind its word. */
static struct node *counted(void)
{
    struct node *node = make(FOR, want_kind('n'));
    want("in");
    bounds(node);
    return node;
}

static struct node *condition(enum form form, struct token token)
{
    struct node *node = make(form, token);
    want("(");
    add(node, expression(0));
    want(")");
    return node;
}

static struct node *statement(void)
{
    struct token token = at < count ? tokens[at] : (struct token) { 0 };
    if (eat("var"))
        return variable(VAR);
    if (eat("error"))
        return make(ERROR, want_kind('s'));
    if (eat("if")) {
        struct node *node = make(IF, token);
        add(node, expression(0));
        want("then");
        add(node, statements());
        return eat("else") ? add(node, statements()) : node;
    }
    if (eat("while")) {
        struct node *node = condition(WHILE, token);
        return add(node, statements());
    }
    if (eat("for")) {
        struct node *node = counted();
        return add(node, statements());
    }
    token = want_kind('n');
    if (is(at, "(")) {
        struct node *node = make(CALL, token);
        arguments(node);
        return node;
    }
    struct node *node = make(ASSIGN, token);
    add(node, posts(make(NAME, token)));
    want(":=");
    return add(node, expression(0));
}

/* A list of statements, and where `returns` is set perhaps a `return` at its end. */
static struct node *list(int returns)
{
    struct node *node = make(BLOCK, want("{"));
    while (!is(at, "}")) {
        struct token token = tokens[at];
        if (returns && eat("return")) {
            add(node, add(make(RETURN, token), expression(0)));
            eat(";");
            break;
        }
        add(node, statement());
        if (!eat(";"))
            break;
    }
    want("}");
    return node;
}

static struct node *statements(void)
{
    return list(0);
}

static struct node *block(void)
{
    struct node *node = make(BLOCK, want("{"));
    do {
        if (eat("var"))
            add(node, variable(VAR));
        else if (at + 1 < count && tokens[at].kind == 'n' && is(at + 1, "<-")) {
            struct node *bind = make(BIND, tokens[at]);
            at += 2;
            add(node, add(bind, component(0)));
        } else
            add(node, component(0));
    } while (eat(";") && !is(at, "}"));
    want("}");
    return node;
}

static struct node *atom(void)
{
    struct token token = at < count ? tokens[at] : (struct token) { 0 };
    if (eat("take"))
        return make(TAKE, token);
    if (eat("takes"))
        return make(TAKES, want_kind('i'));
    if (eat("emit"))
        return add(make(EMIT, token), expression(0));
    if (eat("emits"))
        return add(make(EMITS, token), expression(0));
    if (eat("return"))
        return add(make(RETURN, token), expression(0));
    if (eat("do"))
        return add(make(DO, token), list(1));
    if (eat("repeat")) {
        if (eat("[")) {
            want_kind('i');
            want(",");
            want_kind('i');
            want("]");
        }
        return add(make(REPEAT, token), atom());
    }
    if (eat("while") || eat("until") || eat("times")) {
        struct node *node = condition(WHILE, token);
        return add(node, atom());
    }
    if (eat("for")) {
        struct node *node = counted();
        return add(node, atom());
    }
    if (eat("if")) {
        struct node *node = make(IF, token);
        add(node, expression(0));
        want("then");
        add(node, atom());
        want("else");
        return add(node, atom());
    }
    if (eat("map"))
        return make(MAP, want_kind('n'));
    if (eat("filter"))
        return make(FILTER, want_kind('n'));
    if (is(at, "{"))
        return block();
    if (eat("(")) {
        struct node *node = component(0);
        want(")");
        return node;
    }
    struct node *node = make(CALL, want_kind('n'));
    arguments(node);
    return node;
}

static struct node *serial(int write_ends)
{
    struct node *left = atom();
    while (is(at, ">>>") && !(write_ends && is(at + 1, "write"))) {
        struct node *node = make(LINK, tokens[at++]);
        node->rank = 1;
        left = add(add(node, left), atom());
    }
    return left;
}

static struct node *component(int write_ends)
{
    struct node *left = serial(write_ends);
    while (is(at, "|>>>|")) {
        struct node *node = make(LINK, tokens[at++]);
        left = add(add(node, left), serial(write_ends));
    }
    return left;
}

static struct node *function(void)
{
    int is_component = eat("comp");
    struct node *node = make(is_component ? COMPONENT : FUNCTION, want_kind('n'));
    struct node *parameters = make(NOTHING, node->token);
    want("(");
    if (!eat(")")) {
        do
            add(parameters, field());
        while (eat(","));
        want(")");
    }
    add(node, parameters);
    if (is_component)
        return add(node, block());
    add(node, eat(":") ? type() : make(NOTHING, node->token));
    return add(node, list(1));
}

static struct node *structure(void)
{
    struct node *node = make(STRUCTURE, want_kind('n'));
    want("=");
    want("{");
    do
        add(node, field());
    while (eat(";"));
    want("}");
    return node;
}

static struct node *program(void)
{
    struct node *node = make(PROGRAM, (struct token) { 0 });
    while (!is(at, "let")) {
        if (eat("var")) {
            add(node, variable(TOP_VAR));
            want(";");
        } else if (eat("struct"))
            add(node, structure());
        else {
            want("fun");
            add(node, function());
        }
    }
    want("let");
    want("comp");
    want("main");
    want("=");
    want("read");
    want("[");
    add(node, type());
    want("]");
    want(">>>");
    add(node, component(1));
    want(">>>");
    want("write");
    want("[");
    add(node, type());
    want("]");
    if (at < count)
        refuse();
    return node;
}

static void print(const struct node *node);

static void word(const char *text)
{
    fputs(text, stdout);
    putchar(' ');
}

static void token_text(const struct node *node)
{
    fwrite(node->token.text, 1, node->token.length, stdout);
    putchar(' ');
}

static void separated(const struct node *node, const char *sign)
{
    for (; node != NULL; node = node->next) {
        print(node);
        if (node->next != NULL)
            word(sign);
    }
}

static void enclosed(const struct node *node, int encloses)
{
    if (encloses)
        word("(");
    print(node);
    if (encloses)
        word(")");
}

/* How loose a form is: a primary 0, a prefix 1, and then the ranks from the tightest on. */
static int looseness(const struct node *node)
{
    return node->form == BINARY ? 1 + RANKS - node->rank : node->form == PREFIX;
}

static void atom_of(const struct node *node)
{
    enclosed(node, node->form == LINK);
}

static void print_loop(const struct node *node)
{
    const struct node *part = node->first;
    if (node->form == FOR) {
        word("for");
        token_text(node);
        word("in [");
        print(part);
        word(",");
        print(part->next);
        word("]");
        atom_of(part->next->next);
    } else {
        token_text(node);
        word("(");
        print(part);
        word(")");
        atom_of(part->next);
    }
}

static void print_if(const struct node *node)
{
    const struct node *then = node->first->next;
    word("if");
    print(node->first);
    word("then");
    atom_of(then);
    if (then->next != NULL) {
        word("else");
        atom_of(then->next);
    }
}

static void print_declaration(const struct node *node)
{
    const struct node *part = node->first;
    if (node->form == STRUCTURE) {
        word("struct");
        token_text(node);
        word("= {");
        separated(part, ";");
        word("}");
        return;
    }
    word(node->form == COMPONENT ? "fun comp" : "fun");
    token_text(node);
    word("(");
    separated(part->first, ",");
    word(")");
    if (node->form == FUNCTION && part->next->form != NOTHING) {
        word(":");
        print(part->next);
    }
    print(node->last);
}

static void print_program(const struct node *node)
{
    const struct node *part = node->first;
    for (; part->form != TYPE && part->form != ARRAY_TYPE; part = part->next) {
        print(part);
        fputs(part->form == TOP_VAR ? ";\n" : "\n", stdout);
    }
    word("let comp main = read [");
    print(part);
    word("] >>>");
    print(part->next);
    word(">>> write [");
    print(node->last);
    fputs("]\n", stdout);
}

static void print(const struct node *node)
{
    const struct node *part = node->first;
    switch (node->form) {
    case PROGRAM: print_program(node); break;
    case STRUCTURE: case FUNCTION: case COMPONENT: print_declaration(node); break;
    case TOP_VAR: case VAR: case FIELD:
        if (node->form != FIELD)
            word("var");
        token_text(node);
        word(":");
        print(part);
        if (part->next != NULL) {
            word(":=");
            print(part->next);
        }
        break;
    case ARRAY_TYPE:
        word("arr [");
        printf("%lu ] ", node->token.value);
        print(part);
        break;
    case TAKES:
        printf("takes %lu ", node->token.value);
        break;
    case EMIT: case EMITS: case RETURN: case DO:
        token_text(node);
        print(part);
        break;
    case REPEAT:
        word("repeat");
        atom_of(part);
        break;
    case WHILE: case FOR: print_loop(node); break;
    case IF: print_if(node); break;
    case MAP: case FILTER:
        word(node->form == MAP ? "map" : "filter");
        token_text(node);
        break;
    case CALL: case CONVERT:
        token_text(node);
        word("(");
        separated(part, ",");
        word(")");
        break;
    case BLOCK: case ARRAY:
        word("{");
        separated(part, node->form == BLOCK ? ";" : ",");
        word("}");
        break;
    case BIND:
        token_text(node);
        word("<-");
        print(part);
        break;
    case LINK:
        enclosed(part, part->form == LINK && part->rank < node->rank);
        token_text(node);
        enclosed(part->next, part->next->form == LINK && part->next->rank <= node->rank);
        break;
    case ASSIGN:
        print(part);
        word(":=");
        print(part->next);
        break;
    case ERROR:
        word("error");
        token_text(node);
        break;
    case NUMBER: printf("%lu ", node->token.value); break;
    case UNIT: word("( )"); break;
    case PREFIX:
        token_text(node);
        enclosed(part, looseness(part) > 1);
        break;
    case BINARY:
        enclosed(part, looseness(part) > looseness(node));
        token_text(node);
        enclosed(part->next, looseness(part->next) >= looseness(node));
        break;
    case INDEX: case SLICE:
        enclosed(part, looseness(part) > 0);
        word("[");
        separated(part->next, ",");
        word("]");
        break;
    case PART:
        enclosed(part, looseness(part) > 0);
        word(".");
        token_text(node);
        break;
    case TYPE: case TAKE: case NAME: case WORD: token_text(node); break;
    case NOTHING: break;
    }
}

static size_t length_of(const char *text, size_t left, struct token *token)
{
    size_t length = 1;
    token->kind = 'o';
    if (isalpha((unsigned char)*text) || *text == '_') {
        while (length < left && (isalnum((unsigned char)text[length]) || text[length] == '_'))
            length++;
        token->kind = 'n';
        for (size_t i = 0; i < sizeof keywords / sizeof *keywords; i++)
            if (strlen(keywords[i]) == length && memcmp(keywords[i], text, length) == 0)
                token->kind = 'k';
    } else if (isdigit((unsigned char)*text)) {
        while (length < left && isalnum((unsigned char)text[length]))
            length++;
        token->kind = 'i';
        token->value = strtoul(text, NULL, 0);
    } else if (*text == '\'') {
        length = 2;
        token->kind = 'b';
    } else if (*text == '"') {
        while (length < left && text[length] != '"')
            length++;
        length++;
        token->kind = 's';
    } else {
        for (size_t i = 0; i < sizeof signs / sizeof *signs; i++) {
            size_t size = strlen(signs[i]);
            if (size <= left && memcmp(signs[i], text, size) == 0)
                return size;
        }
    }
    return length;
}

static void lex(const char *text, size_t length)
{
    size_t room = 16;
    unsigned line = 1, column = 1;
    tokens = malloc(room * sizeof *tokens);
    for (size_t i = 0; i < length;) {
        if (text[i] == '\n') {
            i++, line++, column = 1;
        } else if (isspace((unsigned char)text[i])) {
            i++, column++;
        } else if (text[i] == '-' && i + 1 < length && text[i + 1] == '-') {
            while (i < length && text[i] != '\n')
                i++;
        } else {
            if (count == room)
                tokens = realloc(tokens, (room *= 2) * sizeof *tokens);
            struct token token = { .text = text + i, .line = line, .column = column };
            token.length = (unsigned)length_of(text + i, length - i, &token);
            tokens[count++] = token;
            i += token.length, column += token.length;
        }
    }
}

int main(int argc, char **argv)
{
    static char text[65537];
    FILE *file = argc == 2 ? fopen(argv[1], "rb") : NULL;
    if (file == NULL)
        return 1;
    lex(text, fread(text, 1, 65536, file));
    print(program());
    return 0;
}
