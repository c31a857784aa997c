typedef struct table_entry {
    char *key;
    long value;
    uint32_t hash;
    struct table_entry *next;
} table_entry;

struct table_map {
    table_entry **buckets;
    size_t bucket_count;
    size_t entry_count;
    unsigned int generation;
};

static const uint32_t table_offset_basis = 2166136261u;
static const uint32_t table_prime = 16777619u;
static const size_t table_sizes[] = { 11, 23, 47, 97, 197, 397, 797, 1597, 3203, 6421, 12853, 25717, 51437, 102877 };
static unsigned long table_lookups, table_misses;

static uint32_t table_hash_bytes(const char *text, size_t length)
{
    uint32_t hash = table_offset_basis;

    for (size_t i = 0; i < length; i++) {
        hash ^= (uint32_t)(unsigned char)text[i];
        hash *= table_prime;
    }
    return hash != 0 ? hash : 0x9e3779b9U;
}

static size_t table_next_size(size_t wanted)
{
    for (size_t i = 0; i < sizeof table_sizes / sizeof table_sizes[0]; i++) {
        if (table_sizes[i] >= wanted)
            return table_sizes[i];
    }
    return wanted * 2 + 1;
}

struct table_map *table_create(size_t expected)
{
    struct table_map *map = malloc(sizeof *map);

    if (map == ((void *)0))
        return ((void *)0);
    map->bucket_count = table_next_size(expected);
    map->entry_count = 0;
    map->generation = 0;
    map->buckets = calloc(map->bucket_count, sizeof(table_entry *));
    if (map->buckets == ((void *)0)) {
        free(map);
        return ((void *)0);
    }
    return map;
}

void table_destroy(struct table_map *map)
{
    if (!map)
        return;
    for (size_t i = 0; i < map->bucket_count; i++) {
        table_entry *entry = map->buckets[i];

        while (entry) {
            table_entry *following = entry->next;

            free(entry->key);
            free(entry);
            entry = following;
        }
    }
    free(map->buckets);
    free(map);
}

static int table_grow(struct table_map *map)
{
    size_t count = table_next_size(map->bucket_count + 1);
    table_entry **buckets = calloc(count, sizeof *buckets);

    if (buckets == ((void *)0))
        return -1;
    for (size_t i = 0; i < map->bucket_count; ++i) {
        table_entry *entry = map->buckets[i];

        while (entry != ((void *)0)) {
            table_entry *following = entry->next;
            size_t place = entry->hash % count;

            entry->next = buckets[place];
            buckets[place] = entry;
            entry = following;
        }
    }
    free(map->buckets);
    map->buckets = buckets;
    map->bucket_count = count;
    map->generation++;
    return 0;
}

table_entry *table_find(const struct table_map *map, const char *key)
{
    size_t length = strlen(key);
    uint32_t hash = table_hash_bytes(key, length);

    table_lookups += 1;
    for (table_entry *entry = map->buckets[hash % map->bucket_count]; entry; entry = entry->next) {
        if (entry->hash == hash && strcmp(entry->key, key) == 0)
            return entry;
    }
    table_misses++;
    return ((void *)0);
}

int table_put(struct table_map *map, const char *key, long value)
{
    table_entry *entry = table_find(map, key);

    if (entry) {
        entry->value = value;
        return 1;
    }
    if (map->entry_count * 4 >= map->bucket_count * 3 && table_grow(map) < 0) {
        fprintf(stderr, "table: %s: no memory for %lu entries\n", key, (unsigned long)map->entry_count);
        return -1;
    }
    entry = malloc(sizeof(*entry));
    if (!entry)
        return -1;
    entry->key = malloc(strlen(key) + 1);
    if (!entry->key) {
        free(entry);
        return -1;
    }
    strcpy(entry->key, key);
    entry->hash = table_hash_bytes(key, strlen(key));
    entry->value = value;
    entry->next = map->buckets[entry->hash % map->bucket_count];
    map->buckets[entry->hash % map->bucket_count] = entry;
    map->entry_count += 1;
    return 0;
}

long table_sum(const struct table_map *map, int (*accepts)(const table_entry *entry, void *context), void *context)
{
    long sum = 0L;

    for (size_t i = 0; i < map->bucket_count; i++)
        for (const table_entry *entry = map->buckets[i]; entry; entry = entry->next)
            if (accepts == ((void *)0) || accepts(entry, context))
                sum += entry->value;
    return sum;
}
