// A table with keys of a C++ program of its own, over picolibc: templates, virtual functions, operators and moves.
#include <stdint.h>
#include <stdio.h>
#include <string.h>

class Text {
    char *letters;
public:
    Text(const char *from = "") : letters(new char[strlen(from) + 1]) { strcpy(letters, from); }
    Text(const Text &other) : Text(other.letters) {}
    Text(Text &&other) : letters(other.letters) { other.letters = nullptr; }
    Text &operator=(Text other) { char *old = letters; letters = other.letters; other.letters = old; return *this; }
    ~Text() { delete[] letters; }
    const char *shown() const { return letters; }
    bool operator==(const Text &other) const { return strcmp(letters, other.letters) == 0; }
    Text operator+(const Text &other) const
    {
        Text sum;
        delete[] sum.letters;
        sum.letters = new char[strlen(letters) + strlen(other.letters) + 1];
        strcpy(sum.letters, letters);
        strcat(sum.letters, other.letters);
        return sum;
    }
};

static unsigned hash_of(const Text &text)
{
    unsigned hash = 2166136261u;
    for (const char *at = text.shown(); *at; at++)
        hash = (hash ^ (unsigned char)*at) * 16777619u;
    return hash;
}

template <class Key, class Value> class Table {
    struct Entry { Key key; Value value; Entry *next; };
    Entry **places;
    unsigned room, count = 0;
    void grow()
    {
        Entry **old = places;
        places = new Entry *[room * 2]();
        for (unsigned at = 0; at < room; at++)
            while (Entry *entry = old[at]) {
                old[at] = entry->next;
                Entry *&place = places[hash_of(entry->key) % (room * 2)];
                entry->next = place;
                place = entry;
            }
        delete[] old;
        room *= 2;
    }
public:
    explicit Table(unsigned room = 4) : places(new Entry *[room]()), room(room) {}
    ~Table()
    {
        for (unsigned at = 0; at < room; at++)
            while (Entry *entry = places[at]) {
                places[at] = entry->next;
                delete entry;
            }
        delete[] places;
    }
    Value &operator[](const Key &key)
    {
        for (Entry *entry = places[hash_of(key) % room]; entry; entry = entry->next)
            if (entry->key == key)
                return entry->value;
        if (++count > room)
            grow();
        Entry *&place = places[hash_of(key) % room];
        place = new Entry{key, Value(), place};
        return place->value;
    }
    unsigned size() const { return count; }
};

struct Writer { virtual void write(const char *) {} virtual ~Writer() = default; };
struct Plain : Writer { void write(const char *text) override { fputs(text, stdout); } };
struct Framed : Writer {
    Writer &inner;
    explicit Framed(Writer &inner) : inner(inner) {}
    void write(const char *text) override { inner.write("<"); inner.write(text); inner.write(">"); }
};

int main()
{
    Table<Text, int> counts;
    const char *words[] = { "tide", "berth", "tide", "quay", "mole", "buoy", "berth", "tide", "lock", "pier", "dock" };
    for (const char *word : words)
        counts[Text(word) + "s"]++;
    Plain plain;
    Writer *framed = new Framed(plain);
    for (const char *word : words) {
        char line[40];
        snprintf(line, sizeof line, "%s %d %.2f", word, counts[Text(word) + "s"], counts[Text(word) + "s"] / 3.0);
        framed->write(line);
    }
    delete framed;
    printf("\n%u\n", counts.size());
    return 0;
}
