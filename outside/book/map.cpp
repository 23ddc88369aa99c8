/*
 * The tally book as a std::unordered_map from the key: makes the calls on
 * standard input and prints the lines of `sheet` (../CASES.md; not r and d,
 * which end the calls). A total goes through the whole map.
 *
 * The words of the book stand beside the map, since w lays them. A call that
 * comes after a w brings the map to what they tell: rows are put in or taken
 * out where only word 0 was laid, and else it is made again.
 */
#include <array>
#include <cinttypes>
#include <cstdint>
#include <cstdio>
#include <unordered_map>

namespace {

constexpr uint32_t ROOM = 4096;
constexpr uint32_t WORDS = 3 * ROOM + 1;
constexpr size_t INPUT = 262144;

/* What is called, and not taken into its caller, as a library's functions are. */
#define CALLED __attribute__((noinline))

/* An answer: what it is, and the number of those that have one. */
enum class What { Nothing, Entered, AlreadyHeld, Refused, Held, NotHeld, Total, Entries, Cleared };

struct Said {
    What what;
    uint64_t number;
};

/* The hash of a key: all its bits mixed. */
struct Mixed {
    size_t operator()(uint64_t key) const noexcept
    {
        key ^= key >> 32;
        key *= 0x9e3779b97f4a7c15;
        key ^= key >> 29;
        key *= 0xd1342543de82ef95;
        return key ^ key >> 32;
    }
};

class Book {
public:
    /* Enters an entry: a new key where there is room. */
    CALLED Said enter(uint32_t unit, uint32_t number, uint32_t count)
    {
        if (rows == ROOM) {
            auto found = entries.find(key(unit, number));
            return found == entries.end() ? Said{What::Refused, 14} : again(found->second, count);
        }
        auto [found, fresh] = entries.try_emplace(key(unit, number), Entry{rows, count, count});
        if (!fresh)
            return again(found->second, count);
        words[1 + rows] = number;
        words[1 + ROOM + rows] = unit;
        words[1 + 2 * ROOM + rows] = count;
        words[0] = ++rows;
        return {What::Entered, 0};
    }

    /* Which count is held under a key. */
    CALLED Said ask(uint32_t unit, uint32_t number) const
    {
        auto found = entries.find(key(unit, number));
        if (found == entries.end())
            return {What::NotHeld, 0};
        return {What::Held, found->second.count};
    }

    /* The total for a unit. */
    CALLED uint64_t total(uint32_t unit) const
    {
        uint64_t sum = 0;
        for (const auto &pair : entries)
            if (pair.first >> 32 == unit)
                sum += pair.second.sum;
        return sum;
    }

    /* How many entries the book holds. */
    uint32_t held() const { return rows; }

    /* Lays words from a place on: a first number, and each next one by a step more. */
    void lay(uint32_t from, uint32_t to, uint32_t first, uint32_t step)
    {
        for (uint32_t at = from; at < to && at < WORDS; at++, first += step) {
            words[at] = first;
            anew |= at > 0;
        }
    }

    /* Brings the map to what the words tell. */
    void settle()
    {
        uint32_t told = words[0] < ROOM ? words[0] : ROOM;
        if (anew || told == 0) {
            entries.clear();
            rows = 0;
            anew = false;
        }
        while (rows > told)
            take_out(--rows);
        while (rows < told)
            put_in(rows++);
    }

private:
    /* The first row of a key, the count there, and the sum of the counts in all its rows; only w makes several. */
    struct Entry {
        uint32_t row, count;
        uint64_t sum;
    };

    std::array<uint32_t, WORDS> words{};
    std::unordered_map<uint64_t, Entry, Mixed> entries;
    uint32_t rows = 0;
    bool anew = false;

    static uint64_t key(uint32_t unit, uint32_t number) { return static_cast<uint64_t>(unit) << 32 | number; }
    uint64_t key_of(uint32_t row) const { return key(words[1 + ROOM + row], words[1 + row]); }
    uint32_t count_of(uint32_t row) const { return words[1 + 2 * ROOM + row]; }

    /* Entering under a key that is held. */
    static Said again(const Entry &entry, uint32_t count)
    {
        return entry.count == count ? Said{What::AlreadyHeld, 0} : Said{What::Refused, 13};
    }

    void put_in(uint32_t row)
    {
        auto [found, fresh] = entries.try_emplace(key_of(row), Entry{row, count_of(row), 0});
        found->second.sum += count_of(row);
    }

    void take_out(uint32_t row)
    {
        auto found = entries.find(key_of(row));
        found->second.sum -= count_of(row);
        if (found->second.row == row)
            entries.erase(found);
    }
};

/* How many bytes stand behind the byte of a call's kind, or -1 for no kind. */
long size(uint8_t kind)
{
    switch (kind) {
    case 'e': return 12;
    case 'h': return 8;
    case 't': case 'm': return 4;
    case 'n': case 'c': return 0;
    case 'w': return 16;
    default: return -1;
    }
}

/* Word i of a call's numbers. */
uint32_t word(const uint8_t *numbers, int i)
{
    const uint8_t *s = numbers + 4 * i;
    return s[0] | uint32_t{s[1]} << 8 | uint32_t{s[2]} << 16 | uint32_t{s[3]} << 24;
}

/* What a call answers. */
CALLED Said make(Book &book, uint8_t kind, const uint8_t *numbers)
{
    switch (kind) {
    case 'e':
        return book.enter(word(numbers, 0), word(numbers, 1), word(numbers, 2));
    case 'h':
        return book.ask(word(numbers, 0), word(numbers, 1));
    case 't':
        return {What::Total, book.total(word(numbers, 0))};
    case 'n':
        return {What::Entries, book.held()};
    case 'w':
        book.lay(word(numbers, 0), word(numbers, 1), word(numbers, 2), word(numbers, 3));
        return {What::Nothing, 0};
    default:
        book.lay(0, 1, 0, 0);
        return {What::Cleared, 0};
    }
}

/* Prints the line of an answer. */
void say(Said said)
{
    switch (said.what) {
    case What::Nothing: break;
    case What::Entered: std::fputs("entered\n", stdout); break;
    case What::AlreadyHeld: std::fputs("already held\n", stdout); break;
    case What::Refused: std::printf("refused %" PRIu64 "\n", said.number); break;
    case What::Held: std::printf("held %" PRIu64 "\n", said.number); break;
    case What::NotHeld: std::fputs("not held\n", stdout); break;
    case What::Total: std::printf("total %" PRIu64 "\n", said.number); break;
    case What::Entries: std::printf("entries %" PRIu64 "\n", said.number); break;
    case What::Cleared: std::fputs("cleared\n", stdout); break;
    }
}

}

int main()
{
    static uint8_t calls[INPUT];
    Book book;
    size_t end = std::fread(calls, 1, INPUT, stdin);
    uint32_t more = 0;
    size_t at = 0;

    while (at < end) {
        uint8_t kind = calls[at++];
        long bytes = size(kind);
        if (bytes < 0 || end - at < static_cast<size_t>(bytes))
            break;
        if (kind == 'm') {
            more = word(calls + at, 0);
        } else {
            if (kind != 'w' && kind != 'c')
                book.settle();
            for (; more > 0; more--)
                make(book, kind, calls + at);
            say(make(book, kind, calls + at));
        }
        at += static_cast<size_t>(bytes);
    }
    return 0;
}
