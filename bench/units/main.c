static long main_compare_calls;

static int main_compare(const void *a, const void *b)
{
    const long *x = a, *y = b;

    main_compare_calls++;
    return *x < *y ? -1 : *x > *y;
}

static _Bool main_is_odd(const void *item, void *context)
{
    (void)context;
    return *(const long *)item & 1;
}

static int main_check(const char *what, long found, long expected)
{
    if (found == expected)
        return 0;
    fprintf(stderr, "%s: found %ld, expected %ld\n", what, found, expected);
    return 1;
}

int main_run(int count, char *arguments[])
{
    static long numbers[] = { 9, 4, 7, 1, 8, 2, 6, 3, 5, 0, -1, 1000000, -2147483647 - 1 };
    struct table_map *map = table_create(16);
    struct text_buffer buffer = { 0 };
    list_t list;
    long value = 0;
    int failures = 0;

    if (!map)
        return 1;
    list_init(&list, main_compare);
    for (unsigned i = 0; i < sizeof numbers / sizeof numbers[0]; ++i)
        failures += !list_push(&list, &numbers[i]);
    list_sort(&list);
    failures += main_check("odd", (long)list_remove(&list, main_is_odd, ((void *)0)), 6);
    for (int i = 1; i < count; i++) {
        if (!calc_run(arguments[i], &value) || table_put(map, arguments[i], value) < 0)
            failures += 1;
        text_put_quoted(&buffer, text_trim(arguments[i]));
    }
    while (list.length > 0) {
        long *item = list_pop(&list);

        text_put_number(&buffer, (unsigned long)*item, 10u);
        text_put(&buffer, ", ", 2);
    }
    failures += main_check("words", (long)text_count_words("two words"), 2);
    failures += main_check("number", text_parse_number("-123", &value) ? value : 0, -123);
    failures += main_check("mixed", text_mix("a", 1) != text_mix("b", 1), 1);
    puts(buffer.bytes ? buffer.bytes : "");
    printf("%ld in all, %ld comparisons\n", table_sum(map, ((void *)0), ((void *)0)), main_compare_calls);
    table_destroy(map);
    return failures != 0;
}
