/* Splits texts into words, computes what they say on a stack, and counts kinds of letters: switches with many cases,
   which the compiler turns into tables of jumps. */

#include "../start.h"

enum { ROOM = 16, STATUS = 23 };

struct stack { int used; long values[ROOM]; };

static void push(struct stack *stack, long value)
{
    if (stack->used < ROOM)
        stack->values[stack->used++] = value;
}

static long pop(struct stack *stack)
{
    return stack->used > 0 ? stack->values[--stack->used] : 0;
}

/* The next word of a text from a place on: sets where it begins, and gives its length; 0 where there's none left. */
static size_t next_word(const char *text, size_t *place)
{
    while (text[*place] == ' ')
        ++*place;
    size_t length = 0;
    while (text[*place + length] != ' ' && text[*place + length] != 0)
        length++;
    return length;
}

static int is_number(const char *word, size_t length)
{
    for (size_t at = 0; at < length; at++)
        if (word[at] < '0' || word[at] > '9')
            return 0;
    return 1;
}

static long number_of(const char *word, size_t length)
{
    long number = 0;
    for (size_t at = 0; at < length; at++)
        number = number * 10 + (word[at] - '0');
    return number;
}

/* Each operation is one letter. Gives 0 for a letter that is none. */
static int operate(struct stack *stack, char letter)
{
    long right = pop(stack);
    switch (letter) {
    case 'a': push(stack, pop(stack) + right); return 1;
    case 'b': push(stack, ~right); return 1;
    case 'c': push(stack, right), push(stack, right); return 1;
    case 'd': push(stack, right == 0 ? 0 : pop(stack) / right); return 1;
    case 'e': push(stack, right % 2 == 0); return 1;
    case 'f': push(stack, right < 0 ? -1 : right > 0); return 1;
    case 'g': push(stack, right * right); return 1;
    case 'h': push(stack, right / 2); return 1;
    case 'i': push(stack, right + 1); return 1;
    case 'j': push(stack, right - 1); return 1;
    case 'm': push(stack, pop(stack) * right); return 1;
    case 'n': push(stack, -right); return 1;
    case 'r': push(stack, right == 0 ? 0 : pop(stack) % right); return 1;
    case 's': push(stack, pop(stack) - right); return 1;
    case 'x': push(stack, pop(stack) ^ right); return 1;
    default: return 0;
    }
}

static void compute(const char *text)
{
    struct stack stack = { 0 };
    int unknown = 0;
    size_t place = 0;
    for (size_t length; (length = next_word(text, &place)) != 0; place += length)
        if (is_number(text + place, length))
            push(&stack, number_of(text + place, length));
        else if (length != 1 || !operate(&stack, text[place]))
            unknown++;
    print("[");
    print(text);
    print("] is ");
    print_signed(pop(&stack));
    print(", left ");
    print_unsigned(stack.used);
    print(", unknown ");
    print_unsigned(unknown);
    print("\n");
}

static const char *day_of(unsigned number)
{
    switch (number) {
    case 0: return "Sunday";
    case 1: return "Monday";
    case 2: return "Tuesday";
    case 3: return "Wednesday";
    case 4: return "Thursday";
    case 5: return "Friday";
    case 6: return "Saturday";
    default: return "no day";
    }
}

static void count_letters(const char *text)
{
    int vowels = 0, others = 0, digits = 0, blanks = 0, marks = 0;
    for (; *text != 0; text++)
        switch (*text) {
        case 'a': case 'e': case 'i': case 'o': case 'u':
            vowels++;
            break;
        case '0' ... '9':
            digits++;
            break;
        case ' ': case '\t': case '\n':
            blanks++;
            break;
        case '.': case ',': case ';': case '!': case '?':
            marks++;
            /* fall through */
        default:
            others++;
        }
    print_named("vowels", vowels);
    print_named("others", others);
    print_named("digits", digits);
    print_named("blanks", blanks);
    print_named("marks", marks);
}

int main(int count, char **arguments, char **environment)
{
    (void)environment;
    compute("");
    compute("12 30 a");
    compute("  7 6 m   100 s n ");
    compute("2 g g g g i 97 r");
    compute("1000 7 d c m 3 x b");
    compute("5 f 6 e a 9 h j what z");
    compute("1 2 3 4 5 6 7 8 9 10 11 12 13 14 15 16 17 18");
    for (int place = 1; place < count; place++)
        compute(arguments[place]);
    for (unsigned day = 0; day < 9; day += 2) {
        print(day_of(day));
        print(" ");
    }
    print("\n");
    count_letters("The quick brown fox, at 10 past 4, jumps over the lazy dog; does it?");
    return STATUS;
}
