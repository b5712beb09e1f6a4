/* A plain lexer of the same tokens, to compare with: reads a text, prints how many tokens it has. */
#include <ctype.h>
#include <stdio.h>
#include <stdlib.h>
#include <string.h>

struct token {
    char *name;
    unsigned long value;
    unsigned line, column;
    int kind;
};

struct word {
    const char *text;
    size_t length;
};

#define WORD(text) { text, sizeof text - 1 }

static const struct word keywords[] = {
    WORD("arr"), WORD("bit"), WORD("bool"), WORD("comp"), WORD("do"), WORD("else"), WORD("emit"),
    WORD("emits"), WORD("external"), WORD("false"), WORD("for"), WORD("fun"), WORD("if"), WORD("in"),
    WORD("int"), WORD("int16"), WORD("int32"), WORD("int8"), WORD("let"), WORD("map"), WORD("not"),
    WORD("read"), WORD("repeat"), WORD("return"), WORD("seq"), WORD("struct"), WORD("take"), WORD("takes"),
    WORD("then"), WORD("times"), WORD("true"), WORD("try"), WORD("until"), WORD("var"), WORD("viterbi"),
    WORD("while"), WORD("with"), WORD("write"),
};

static const struct word signs[] = {
    WORD("|>>>|"), WORD(">>>"), WORD("<<"), WORD(">>"), WORD("<-"), WORD(":="), WORD("=="), WORD("!="),
    WORD("<="), WORD(">="), WORD("&&"), WORD("||"), WORD(".."),
};

static int keyword(const char *text, size_t length)
{
    for (size_t i = 0; i < sizeof keywords / sizeof *keywords; i++)
        if (keywords[i].length == length && memcmp(keywords[i].text, text, length) == 0)
            return (int)i + 1;
    return 0;
}

static size_t sign(const char *text, size_t left)
{
    for (size_t i = 0; i < sizeof signs / sizeof *signs; i++) {
        size_t length = signs[i].length;
        if (length <= left && memcmp(signs[i].text, text, length) == 0)
            return length;
    }
    return 1;
}

static size_t one_token(const char *text, size_t left, struct token *token)
{
    size_t length = 1;
    if (isalpha((unsigned char)*text) || *text == '_') {
        while (length < left && (isalnum((unsigned char)text[length]) || text[length] == '_'))
            length++;
        token->kind = keyword(text, length);
        if (token->kind == 0) {
            token->name = malloc(length);
            memcpy(token->name, text, length);
        }
        return length;
    }
    if (isdigit((unsigned char)*text)) {
        while (length < left && isdigit((unsigned char)text[length]))
            length++;
        token->value = strtoul(text, NULL, 10);
        return length;
    }
    if (*text == '\'')
        return 2;
    return sign(text, left);
}

int main(int argc, char **argv)
{
    static char text[65537];
    FILE *file = argc == 2 ? fopen(argv[1], "rb") : NULL;
    if (file == NULL)
        return 1;
    size_t length = fread(text, 1, 65536, file), count = 0, room = 16;
    struct token *tokens = malloc(room * sizeof *tokens);
    unsigned line = 1, column = 1;
    for (size_t at = 0; at < length;) {
        if (text[at] == '\n') {
            at++, line++, column = 1;
        } else if (isspace((unsigned char)text[at])) {
            at++, column++;
        } else {
            if (count == room)
                tokens = realloc(tokens, (room *= 2) * sizeof *tokens);
            struct token token = { .line = line, .column = column };
            size_t size = one_token(text + at, length - at, &token);
            tokens[count++] = token;
            at += size, column += (unsigned)size;
        }
    }
    printf("%zu\n", count);
    return 0;
}
