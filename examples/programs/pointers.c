/* Tables of pointers in data: of functions, of texts, and a list. In a static-pie each of them is relocated at the start. */

#include "../start.h"

enum { STATUS = 19 };

static long add(long left, long right) { return left + right; }
static long subtract(long left, long right) { return left - right; }
static long multiply(long left, long right) { return left * right; }

struct operation { const char *name; long (*make)(long left, long right); };

static const struct operation operations[] = {
    { "add", add }, { "subtract", subtract }, { "multiply", multiply },
};

static const char *const days[] = {
    "Monday", "Tuesday", "Wednesday", "Thursday", "Friday", "Saturday", "Sunday",
};

struct node { int value; struct node *next; };

extern struct node first;
static struct node third = { 3, &first };
static struct node second = { 2, &third };
struct node first = { 1, &second };

static long numbers[4] = { 10, 20, 30, 40 };
static long *into_the_middle = &numbers[2];
static long **to_the_pointer = &into_the_middle;

/* Found through the program's table of addresses where the compiler can't know that it lies near. */
int shared = 5;

int main(int count, char **arguments, char **environment)
{
    (void)arguments, (void)environment;
    for (int place = 0; place < 3; place++) {
        print(operations[place].name);
        print(" ");
        print_signed(operations[place].make(count + 6, 8));
        print("\n");
    }
    for (int day = 0; day < 7; day++) {
        print(days[day]);
        print(day < 6 ? " " : "\n");
    }
    struct node *node = &first;
    for (int step = 0; step < 7; step++) {
        print_unsigned(node->value);
        node = node->next;
    }
    print("\n");
    **to_the_pointer += 5;
    into_the_middle++;
    print_named("moved", **to_the_pointer);
    print_named("before", numbers[2]);
    print_named("in a circle", node == first.next);
    print_named("shared", shared++);
    print_named("the table is aligned", (uintptr_t)operations % 8 == 0);
    return STATUS;
}
