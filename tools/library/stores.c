/* What a program's store has: parts by rising key. */
#include "library.h"

void change(parts *store, part it) {
    size_t low = 0, high = store->count;
    while (low < high) {
        size_t middle = (low + high) / 2;
        if (store->at[middle].key < it.key) low = middle + 1;
        else high = middle;
    }
    bool is_there = low < store->count && store->at[low].key == it.key;
    must(is_there || !it.gone, "what is taken out is not there");
    if (is_there && !it.gone) {
        store->at[low] = it;
    } else if (is_there) {
        memmove(store->at + low, store->at + low + 1, (store->count - low - 1) * sizeof it);
        store->count--;
    } else {
        add(store, it);
        memmove(store->at + low + 1, store->at + low, (store->count - 1 - low) * sizeof it);
        store->at[low] = it;
    }
}

bytes record_of(const parts *store, int version) {
    bytes record = {0};
    put_number(&record, (uint64_t)version, 1);
    put_number(&record, store->count, 4);
    for (size_t place = 0; place < store->count; place++) {
        put_number(&record, store->at[place].key, 8);
        put_number(&record, store->at[place].value.size, 4);
        put(&record, store->at[place].value.at, store->at[place].value.size);
    }
    return record;
}

static uint64_t number_at(const uint8_t *at, int size) {
    uint64_t it = 0;
    while (size-- > 0) it = it << 8 | *at++;
    return it;
}

parts parts_in(bytes record) {
    parts all = {0};
    uint64_t count = number_at(record.at + 1, 4);
    size_t place = 5;
    while (count-- > 0) {
        part it = {.key = number_at(record.at + place, 8)};
        size_t size = (size_t)number_at(record.at + place + 8, 4);
        put(&it.value, record.at + place + 12, size);
        add(&all, it);
        place += 12 + size;
    }
    must(place == record.size, "the test reads a record otherwise");
    return all;
}
