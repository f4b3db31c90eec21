// The same by an engineer who tunes: flat tables, digits by pairs, one small buffer. It is the limit that we know on
// one thread.
//
//     fast PLANT
#include "plant.hpp"
#include <cstdio>
#include <cstring>

// An arc into a station: the dates from which its tokens come.
struct Input {
    const Date *dates;
    Date tokens, delay;
    bool worked;
};

// Lines of dates, written out whenever the buffer is full.
class Lines {
  public:
    explicit Lines(size_t longest_label) : buffer(FULL + longest_label + 64), end(buffer.data()) {
        for (int i = 0; i < 100; i++) {
            pairs[2 * i] = static_cast<char>('0' + i / 10);
            pairs[2 * i + 1] = static_cast<char>('0' + i % 10);
        }
    }

    void put(const std::string &label, Date job, Date date) {
        memcpy(end, label.data(), label.size());
        end += label.size();
        *end++ = ' ';
        put_number(job);
        *end++ = ' ';
        put_number(date);
        *end++ = '\n';
        if (static_cast<size_t>(end - buffer.data()) >= FULL) flush();
    }

    void flush() {
        fwrite(buffer.data(), 1, end - buffer.data(), stdout);
        end = buffer.data();
    }

  private:
    static constexpr size_t FULL = 1 << 16;
    char pairs[200];
    std::vector<char> buffer;
    char *end;

    void put_number(Date number) {
        char digits[24], *last = digits + 24, *first = last;
        while (number >= 100) {
            first -= 2;
            memcpy(first, pairs + 2 * (number % 100), 2);
            number /= 100;
        }
        if (number >= 10) {
            first -= 2;
            memcpy(first, pairs + 2 * number, 2);
        } else {
            *--first = static_cast<char>('0' + number);
        }
        memcpy(end, first, last - first);
        end += last - first;
    }
};

int main(int, char **words) {
    Plant plant;
    read_plant(words[1], plant);
    size_t stations = plant.labels.size(), jobs = plant.demands.size();
    std::vector<int> order = order_of(plant);
    if (order.size() < stations) return 4;

    std::vector<Date> flat(stations * jobs);
    std::vector<Date *> rows(stations);
    for (size_t station = 0; station < stations; station++) rows[station] = flat.data() + station * jobs;
    std::vector<std::vector<Input>> into(stations);
    for (const Arc &arc : plant.arcs) into[arc.to].push_back({rows[arc.from], arc.tokens, arc.delay, arc.worked});
    std::vector<Date> fixed(stations);
    std::vector<const Date *> each(stations);
    for (size_t station = 0; station < stations; station++)
        if (const Machine *machine = plant.machines[station]) {
            fixed[station] = machine->time;
            if (!machine->times.empty()) each[station] = machine->times.data();
        }
    for (size_t job = 0; job < jobs; job++)
        for (int station : order) {
            if (station == 0) {
                rows[0][job] = plant.demands[job];
                continue;
            }
            Date time = each[station] ? each[station][job] : fixed[station], greatest = 0;
            for (const Input &input : into[station]) {
                Date term = input.worked ? time : 0;
                if (job >= input.tokens) term += input.dates[job - input.tokens] + input.delay;
                greatest = std::max(greatest, term);
            }
            rows[station][job] = greatest;
        }

    size_t longest = 0;
    for (const auto &label : plant.labels) longest = std::max(longest, label.size());
    Lines lines(longest);
    for (size_t station = 0; station < stations; station++)
        for (size_t job = 0; job < jobs; job++) lines.put(plant.labels[station], job + 1, rows[station][job]);
    lines.flush();
    Dates dates(stations);
    for (size_t station = 0; station < stations; station++) dates[station].assign(rows[station], rows[station] + jobs);
    std::string out = totals(plant, dates);
    fwrite(out.data(), 1, out.size(), stdout);
}
