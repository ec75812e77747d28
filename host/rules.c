/* Makes rules as text, and says what reading and printing them has to answer: a model of its own, written apart from the proved reader.
 *
 *   rules make DIR COUNT   writes COUNT texts to DIR: N.txt, what reading it answers (N.book) and how it is printed (N.printed)
 *   rules damage DIR COUNT makes of each of the first COUNT texts a damaged one: N.bad, and what reading that answers (N.answer)
 *   rules read             prints what reading standard input answers
 */
#include <stdint.h>
#include <stdio.h>
#include <stdlib.h>
#include <string.h>

enum { FALSE, TRUE, ATOM, AND, OR, NOT, IMPLIES, HIST, ONCE, SINCE, WORDS };
static const char *const names[WORDS] = {"false", "true", "a", "and", "or", "not", "implies", "hist", "once", "since"};
#define MAX UINT64_MAX
#define LAST INT64_MAX
#define LONGEST 65536
#define MOST_ROWS 128
#define MOST_OPERANDS 128
#define MOST_PROPERTIES 16
#define MOST_TEMPORALS 32
#define MOST_ATOM 255

/* ---- the book that is read: rows as they are complete, each after its parts */
struct row { int word; uint64_t arg, lower, upper; };
static struct row rows[LONGEST];
static int row_count, operands[LONGEST], operand_count, properties[2][LONGEST], property_count[2];

/* ---- symbols */
enum { NAME, NUMBER, MARK, BAD, END };
struct symbol { int kind, word; uint64_t number; char mark; size_t at; };
static int blank(int c) { return c == ' ' || c == '\n'; }
static int letter(int c) { return (c >= 'a' && c <= 'z') || (c >= 'A' && c <= 'Z'); }
static int digit(int c) { return c >= '0' && c <= '9'; }

static struct symbol next_symbol(const unsigned char *text, size_t size, size_t *place) {
    struct symbol s = {END, 0, 0, 0, 0};
    size_t i = *place, end;
    while (i < size && blank(text[i])) i++;
    s.at = end = i;
    if (i == size) { *place = i; return s; }
    if (letter(text[i])) {
        while (end < size && letter(text[end])) end++;
        s.kind = BAD;
        for (int w = 0; w < WORDS; w++)
            if (strlen(names[w]) == end - i && !memcmp(names[w], text + i, end - i)) { s.kind = NAME; s.word = w; }
    } else if (digit(text[i])) {
        while (end < size && digit(text[end])) end++;
        s.kind = end - i > 20 || (text[i] == '0' && end - i > 1) ? BAD : NUMBER;
        for (size_t k = i; s.kind == NUMBER && k < end; k++) {
            uint64_t d = text[k] - '0';
            if (s.number > (MAX - d) / 10) s.kind = BAD; else s.number = s.number * 10 + d;
        }
    } else {
        end = i + 1;
        s.kind = strchr("[](),*", text[i]) && text[i] ? MARK : BAD;
        s.mark = (char)text[i];
    }
    *place = end;
    return s;
}

/* ---- reading: what is wanted next, and the operators that are open */
struct open { int word, parts, tops; uint64_t lower, upper; };
static struct open stack[LONGEST];
static int tops[LONGEST], top_count;

static void complete(int word, uint64_t arg, uint64_t lower, uint64_t upper, int from) {
    for (int i = from; i < top_count; i++) operands[operand_count++] = tops[i];
    rows[row_count] = (struct row){word, arg, lower, upper};
    top_count = from;
    tops[top_count++] = row_count++;
}

/* the place of the first symbol that cannot stand there, or -1 */
static long read_rules(const unsigned char *text, size_t size) {
    size_t place = 0;
    struct symbol s = next_symbol(text, size, &place);
    row_count = operand_count = top_count = 0;
    for (int section = 0; section < 2; section++) {
        if (s.kind != NUMBER) return (long)s.at;
        uint64_t left = s.number;
        s = next_symbol(text, size, &place);
        property_count[section] = 0;
        for (; left > 0; left--) {
            int depth = 0, done = 0;
            while (!done) {
                int after;                              /* a part is complete, so that , or ) may follow */
                if (s.kind == MARK && s.mark == ')' && depth > 0 && stack[depth - 1].parts == 0
                    && (stack[depth - 1].word == AND || stack[depth - 1].word == OR)) {
                    after = 1;                          /* no parts at all: closed below */
                } else {
                    if (s.kind != NAME) return (long)s.at;
                    int word = s.word;
                    s = next_symbol(text, size, &place);
                    after = word <= ATOM;
                    if (word <= TRUE) complete(word, 0, 0, 0, top_count);
                    else if (word == ATOM) {
                        if (s.kind != NUMBER) return (long)s.at;
                        complete(ATOM, s.number, 0, 0, top_count);
                        s = next_symbol(text, size, &place);
                    } else {
                        struct open o = {word, 0, top_count, 0, 0};
                        if (word >= HIST) {
                            const char form[] = "[n,u]";
                            for (int i = 0; i < 5; i++) {
                                int number = form[i] == 'n' || form[i] == 'u';
                                if (form[i] == 'u' && s.kind == MARK && s.mark == '*') o.upper = MAX;
                                else if (number ? s.kind != NUMBER : s.kind != MARK || s.mark != form[i]) return (long)s.at;
                                else if (form[i] == 'n') o.lower = s.number;
                                else if (form[i] == 'u') o.upper = s.number;
                                s = next_symbol(text, size, &place);
                            }
                        }
                        if (s.kind != MARK || s.mark != '(') return (long)s.at;
                        s = next_symbol(text, size, &place);
                        stack[depth++] = o;
                        continue;
                    }
                    if (depth > 0) stack[depth - 1].parts++;
                }
                while (after && !done) {
                    if (depth == 0) { done = 1; break; }
                    struct open *o = &stack[depth - 1];
                    int many = o->word == AND || o->word == OR, takes = o->word == IMPLIES || o->word == SINCE ? 2 : 1;
                    if (s.kind == MARK && s.mark == ')' && (many || o->parts == takes)) {
                        complete(o->word, top_count - o->tops, o->lower, o->upper, o->tops);
                        depth--;
                        if (depth > 0) stack[depth - 1].parts++;
                        s = next_symbol(text, size, &place);
                    } else if (s.kind == MARK && s.mark == ',' && (many || o->parts < takes)) {
                        s = next_symbol(text, size, &place);
                        if (many && s.kind != NAME) return (long)s.at;
                        after = 0;
                    } else return (long)s.at;
                }
            }
            properties[section][property_count[section]++] = tops[--top_count];
        }
    }
    return s.kind == END ? -1 : (long)s.at;
}

/* what an accepted form is refused with as a book */
static int judge(void) {
    int temporals = 0;
    if (row_count > MOST_ROWS || operand_count > MOST_OPERANDS) return 2;
    if (property_count[0] > MOST_PROPERTIES || property_count[1] > MOST_PROPERTIES) return 2;
    for (int i = 0; i < row_count; i++) {
        struct row r = rows[i];
        if (r.word == ATOM && r.arg > MOST_ATOM) return 3;
        if (r.lower > r.upper || r.lower > LAST || (r.upper != MAX && r.upper > LAST)) return 4;
        if (r.word >= HIST && ++temporals > MOST_TEMPORALS) return 2;
    }
    return 0;
}

static void answer(FILE *out, const unsigned char *text, size_t size) {
    if (size > LONGEST) { fputs("book 2\n", out); return; }
    long place = read_rules(text, size);
    if (place >= 0) { fprintf(out, "book 13 %ld\n", place); return; }
    int number = judge();
    fprintf(out, "book %d\n", number);
    if (number) return;
    fprintf(out, "%d\n", row_count);
    for (int i = 0; i < row_count; i++)
        fprintf(out, "%d %llu %llu %llu\n", rows[i].word, (unsigned long long)rows[i].arg, (unsigned long long)rows[i].lower,
                (unsigned long long)rows[i].upper);
    fprintf(out, "%d", operand_count);
    for (int i = 0; i < operand_count; i++) fprintf(out, " %d", operands[i]);
    for (int s = 0; s < 2; s++) {
        fprintf(out, "\n%d", property_count[s]);
        for (int i = 0; i < property_count[s]; i++) fprintf(out, " %d", properties[s][i]);
    }
    fputc('\n', out);
}

/* ---- making: symbols of a random property go to a text with blanks and to the printed one without */
static uint64_t seed;
static unsigned chance(unsigned n) {
    seed = seed * 6364136223846793005u + 1442695040888963407u;
    return (unsigned)((seed >> 33) % n);
}
static char text[LONGEST * 4], printed[LONGEST * 4];
static size_t text_size, printed_size;
static int rows_left, temporals_left;

static void put(const char *symbol) {
    int last = text_size ? text[text_size - 1] : ' ', first = symbol[0];
    int needed = (letter(last) && letter(first)) || (digit(last) && digit(first));
    for (unsigned k = needed + (chance(4) ? 0 : chance(3)); k > 0; k--) text[text_size++] = chance(2) ? ' ' : '\n';
    for (const char *c = symbol; *c; c++) text[text_size++] = printed[printed_size++] = *c;
}
static void put_number(uint64_t n) {
    char digits[24];
    snprintf(digits, sizeof digits, "%llu", (unsigned long long)n);
    put(digits);
}
static uint64_t bound(void) {
    switch (chance(4)) {
    case 0: return chance(3);
    case 1: return LAST - chance(3);
    default: return chance(1000);
    }
}
static void put_property(int depth) {
    int word = rows_left < 12 || depth > 9 ? (int)chance(3) : (int)chance(WORDS);
    if (word >= HIST && temporals_left == 0) word = NOT;
    rows_left--;
    put(names[word]);
    if (word == ATOM) put_number(chance(256));
    if (word <= ATOM) return;
    if (word >= HIST) {
        uint64_t lower = bound(), upper = bound(), low = lower < upper ? lower : upper, high = lower < upper ? upper : lower;
        temporals_left--;
        put("[");
        put_number(low);
        put(",");
        if (chance(3)) put_number(high);
        else if (chance(2)) put("*");
        else {                                          /* the largest number means the same; it is printed as a star */
            size_t before = printed_size;
            put_number(MAX);
            printed_size = before;
            printed[printed_size++] = '*';
        }
        put("]");
    }
    put("(");
    unsigned parts = word == AND || word == OR ? chance(4) : word == IMPLIES || word == SINCE ? 2 : 1;
    for (unsigned i = 0; i < parts; i++) {
        if (i) put(",");
        put_property(depth + 1);
    }
    put(")");
}
static void make(uint64_t number) {
    seed = number * 7919 + 1;
    text_size = printed_size = 0;
    rows_left = 100;
    temporals_left = MOST_TEMPORALS;
    for (int s = 0; s < 2; s++) {
        unsigned count = chance(5);
        put_number(count);
        printed[printed_size++] = '\n';
        for (unsigned i = 0; i < count; i++) {
            put_property(0);
            printed[printed_size++] = '\n';
        }
    }
    for (unsigned k = chance(3); k > 0; k--) text[text_size++] = '\n';
}

static FILE *file(const char *folder, uint64_t number, const char *ending) {
    char name[4096];
    snprintf(name, sizeof name, "%s/%llu.%s", folder, (unsigned long long)number, ending);
    FILE *f = fopen(name, "wb");
    if (!f) { perror(name); exit(1); }
    return f;
}
int main(int argc, char **argv) {
    if (argc == 2 && !strcmp(argv[1], "read")) {
        size_t size = fread(text, 1, sizeof text, stdin);
        answer(stdout, (unsigned char *)text, size);
        return 0;
    }
    if (argc != 4) return 2;
    uint64_t count = strtoull(argv[3], NULL, 10);
    int damaged = !strcmp(argv[1], "damage");
    for (uint64_t n = 1; n <= count; n++) {
        FILE *f;
        make(n);
        if (damaged) {
            static const char bytes[] = "a0(),[]*x 1\n9Z\t";
            for (unsigned k = 1 + chance(2); k > 0 && text_size > 0; k--) {
                size_t at = chance((unsigned)text_size);
                switch (chance(3)) {
                case 0: text[at] = bytes[chance(sizeof bytes - 1)]; break;
                case 1: memmove(text + at, text + at + 1, --text_size - at); break;
                default: text_size = at;
                }
            }
        }
        f = file(argv[2], n, damaged ? "bad" : "txt");
        fwrite(text, 1, text_size, f);
        fclose(f);
        f = file(argv[2], n, damaged ? "answer" : "book");
        answer(f, (unsigned char *)text, text_size);
        fclose(f);
        if (damaged) continue;
        f = file(argv[2], n, "printed");
        fwrite(printed, 1, printed_size, f);
        fclose(f);
    }
    return 0;
}
