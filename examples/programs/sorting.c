/* Sorts 300 numbers in three ways, and records by a part of them with a sort that keeps the order of equals. */

#include "../start.h"

enum { COUNT = 300, STATUS = 11 };

static uint32_t numbers[COUNT], by_insertion[COUNT], by_parts[COUNT], by_heap[COUNT];

/* A number from the one before it: a linear congruential generator, of which the upper bits are used. */
static uint32_t next_random(uint64_t *state)
{
    *state = *state * 6364136223846793005u + 1442695040888963407u;
    return *state >> 40;
}

static void sort_by_insertion(uint32_t *values, int count)
{
    for (int end = 1; end < count; end++) {
        uint32_t value = values[end];
        int place = end;
        for (; place > 0 && values[place - 1] > value; place--)
            values[place] = values[place - 1];
        values[place] = value;
    }
}

static void swap(uint32_t *left, uint32_t *right)
{
    uint32_t value = *left;
    *left = *right;
    *right = value;
}

static void sort_by_parts(uint32_t *values, int count)
{
    if (count < 2)
        return;
    uint32_t middle = values[count / 2];
    int low = 0;
    int high = count - 1;
    while (low <= high) {
        while (values[low] < middle)
            low++;
        while (values[high] > middle)
            high--;
        if (low <= high)
            swap(&values[low++], &values[high--]);
    }
    sort_by_parts(values, high + 1);
    sort_by_parts(values + low, count - low);
}

static void sink(uint32_t *values, int place, int count)
{
    for (;;) {
        int child = 2 * place + 1;
        if (child >= count)
            return;
        if (child + 1 < count && values[child + 1] > values[child])
            child++;
        if (values[place] >= values[child])
            return;
        swap(&values[place], &values[child]);
        place = child;
    }
}

static void sort_by_heap(uint32_t *values, int count)
{
    for (int place = count / 2; place-- > 0;)
        sink(values, place, count);
    for (int end = count - 1; end > 0; end--) {
        swap(&values[0], &values[end]);
        sink(values, 0, end);
    }
}

struct record { uint8_t key; uint16_t number; };

static struct record records[COUNT], merged[COUNT];

static void sort_by_merging(struct record *values, struct record *room, int count)
{
    if (count < 2)
        return;
    int half = count / 2;
    sort_by_merging(values, room, half);
    sort_by_merging(values + half, room, count - half);
    int left = 0;
    int right = half;
    for (int place = 0; place < count; place++)
        if (right == count || (left < half && values[left].key <= values[right].key))
            room[place] = values[left++];
        else
            room[place] = values[right++];
    for (int place = 0; place < count; place++)
        values[place] = room[place];
}

static int are_sorted(void)
{
    for (int place = 1; place < COUNT; place++) {
        const struct record *before = &records[place - 1];
        const struct record *here = &records[place];
        if (before->key > here->key || (before->key == here->key && before->number > here->number))
            return 0;
    }
    return 1;
}

int main(int count, char **arguments, char **environment)
{
    (void)count, (void)arguments, (void)environment;
    uint64_t state = 2024;
    for (int place = 0; place < COUNT; place++) {
        numbers[place] = next_random(&state);
        by_insertion[place] = by_parts[place] = by_heap[place] = numbers[place];
        records[place] = (struct record){ numbers[place] % 7, place };
    }
    sort_by_insertion(by_insertion, COUNT);
    sort_by_parts(by_parts, COUNT);
    sort_by_heap(by_heap, COUNT);
    sort_by_merging(records, merged, COUNT);
    print_named("least", by_insertion[0]);
    print_named("middle", by_insertion[COUNT / 2]);
    print_named("greatest", by_insertion[COUNT - 1]);
    print_named("the same by parts", memcmp(by_insertion, by_parts, sizeof by_parts) == 0);
    print_named("the same by a heap", memcmp(by_insertion, by_heap, sizeof by_heap) == 0);
    print_named("records in order", are_sorted());
    for (int place = 0; place < COUNT; place += 50) {
        print_unsigned(records[place].key);
        print(" ");
        print_named("is the key of number", records[place].number);
    }
    return STATUS;
}
