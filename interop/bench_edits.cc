// The edits of crates/bench_edits on a plain pool: the same calls with the same checks, on masks alone. What an edit costs here says about
// what the machine can do.
#include <cstdint>
#include <cstdio>
#include <cstdlib>
#include <vector>

namespace {

constexpr unsigned SEATS = 16, ENTRIES = 64, DEPTH = 200, LAST_SERIAL = 1000000, NOBODY = 255;
constexpr int64_t REACH = 100000000000000000;
constexpr unsigned long EDITS_OF_A_POOL = 6336;

struct Version {
    int64_t value;
    uint8_t seat;
    uint32_t serial;
};

enum class State : uint8_t { idle, editing, voting, commit, abort };

// What a call answers: its number for no, or 0 and what it says.
struct Answer {
    int refused;
    int64_t says;
};

Answer no(int number) { return {number, 0}; }
Answer yes(int64_t says = 0) { return {0, says}; }

class Pool {
public:
    Pool() : cells(ENTRIES * DEPTH)
    {
        for (unsigned entry = 0; entry < ENTRIES; entry++)
            cells[entry * DEPTH] = {0, NOBODY, 0};
    }

    Answer begin(unsigned seat)
    {
        if (seat >= SEATS) return no(1);
        Seat &it = seats[seat];
        if (it.state != State::idle) return no(3);
        if (it.serial >= LAST_SERIAL) return no(4);
        it.state = State::editing;
        return yes(++it.serial);
    }

    Answer read(unsigned seat, unsigned entry)
    {
        if (seat >= SEATS) return no(1);
        if (entry >= ENTRIES) return no(2);
        if (seats[seat].state != State::editing) return no(3);
        Row &row = rows[entry];
        if (row.writer == seat) return yes(row.staged.value);
        if (row.writer != NOBODY) return no(5);
        row.readers |= bit(seat);
        seats[seat].held |= mark(entry);
        return yes(last(entry).value);
    }

    Answer write(unsigned seat, unsigned entry, int64_t value)
    {
        if (seat >= SEATS) return no(1);
        if (entry >= ENTRIES) return no(2);
        if (seats[seat].state != State::editing) return no(3);
        Row &row = rows[entry];
        if ((row.writer != NOBODY && row.writer != seat) || (row.readers & ~bit(seat)) != 0) return no(5);
        if (value > REACH || value < -REACH) return no(6);
        if (row.length >= DEPTH) return no(7);
        row.staged = {value, (uint8_t)seat, seats[seat].serial};
        row.writer = (uint8_t)seat;
        row.readers = 0;
        seats[seat].held |= mark(entry);
        return yes();
    }

    Answer prepare(unsigned seat)
    {
        if (seat >= SEATS) return no(1);
        if (seats[seat].state != State::editing) return no(3);
        seats[seat].state = State::voting;
        return yes();
    }

    Answer vote(unsigned seat, unsigned entry)
    {
        if (seat >= SEATS) return no(1);
        if (entry >= ENTRIES) return no(2);
        Seat &it = seats[seat];
        if (it.state != State::voting) return no(3);
        if ((it.held & mark(entry)) == 0) return no(8);
        if ((it.voted & mark(entry)) != 0) return no(9);
        Row &row = rows[entry];
        bool allows = row.writer != seat || (row.smallest <= row.staged.value && row.staged.value <= row.largest);
        it.voted |= mark(entry);
        if (!allows) it.against |= mark(entry);
        return yes(allows);
    }

    // Says 1 for a commit and 0 for an abort.
    Answer decide(unsigned seat)
    {
        if (seat >= SEATS) return no(1);
        Seat &it = seats[seat];
        if (it.state != State::voting) return no(3);
        if (it.against != 0) {
            it.state = State::abort;
            return yes(0);
        }
        if ((it.held & ~it.voted) != 0) return no(10);
        it.state = State::commit;
        return yes(1);
    }

    Answer finish(unsigned seat, unsigned entry)
    {
        if (seat >= SEATS) return no(1);
        if (entry >= ENTRIES) return no(2);
        Seat &it = seats[seat];
        if (it.state != State::commit && it.state != State::abort) return no(3);
        if ((it.held & mark(entry)) == 0) return no(8);
        Row &row = rows[entry];
        if (row.writer == seat) {
            if (it.state == State::commit)
                cells[entry * DEPTH + row.length++] = row.staged;
            row.writer = NOBODY;
        }
        row.readers &= (uint16_t)~bit(seat);
        it.held &= ~mark(entry);
        it.voted &= ~mark(entry);
        it.against &= ~mark(entry);
        return yes();
    }

    Answer close(unsigned seat)
    {
        if (seat >= SEATS) return no(1);
        Seat &it = seats[seat];
        if (it.state != State::commit && it.state != State::abort) return no(3);
        if (it.held != 0) return no(11);
        it.state = State::idle;
        return yes();
    }

    const Version &last(unsigned entry) const { return cells[entry * DEPTH + rows[entry].length - 1]; }

private:
    struct Seat {
        State state = State::idle;
        uint32_t serial = 0;
        uint64_t held = 0, voted = 0, against = 0;
    };

    struct Row {
        unsigned length = 1;
        Version staged = {0, NOBODY, 0};
        uint8_t writer = NOBODY;
        uint16_t readers = 0;
        int64_t smallest = -REACH, largest = REACH;
    };

    static uint16_t bit(unsigned seat) { return (uint16_t)(1u << seat); }
    static uint64_t mark(unsigned entry) { return (uint64_t)1 << entry; }

    std::vector<Version> cells;
    Seat seats[SEATS];
    Row rows[ENTRIES];
};

int64_t said(Answer answer)
{
    if (answer.refused != 0) {
        fprintf(stderr, "refused %d\n", answer.refused);
        exit(1);
    }
    return answer.says;
}

int64_t sum_of_edit(Pool &pool, unsigned seat, unsigned one, unsigned other)
{
    int64_t sum = said(pool.begin(seat));
    int64_t value = said(pool.read(seat, one));
    said(pool.write(seat, one, value + 1));
    int64_t other_value = said(pool.read(seat, other));
    said(pool.write(seat, other, other_value + 1));
    said(pool.prepare(seat));
    sum += said(pool.vote(seat, one));
    sum += said(pool.vote(seat, other));
    sum += said(pool.decide(seat));
    said(pool.finish(seat, one));
    said(pool.finish(seat, other));
    said(pool.close(seat));
    return sum + value + other_value;
}

int64_t sum_of_edits(unsigned long edits)
{
    Pool pool;
    int64_t sum = 0;
    for (unsigned long i = 0; i < edits; i++) {
        unsigned one = i % ENTRIES, other = (one + 1 + i / ENTRIES % (ENTRIES - 1)) % ENTRIES;
        sum += sum_of_edit(pool, i % SEATS, one, other);
    }
    for (unsigned entry = 0; entry < ENTRIES; entry++)
        sum += pool.last(entry).value + pool.last(entry).seat + pool.last(entry).serial;
    return sum;
}

} // namespace

int main(int argc, char **argv)
{
    unsigned long edits = argc > 1 ? strtoul(argv[1], nullptr, 10) : 64;
    int64_t sum = 0;
    for (unsigned long first = 0; first < edits; first += EDITS_OF_A_POOL)
        sum += sum_of_edits(edits - first < EDITS_OF_A_POOL ? edits - first : EDITS_OF_A_POOL);
    printf("%lld\n", (long long)sum);
}
