// What a good C++ engineer would write in an afternoon: reads a plant file, evaluates the rules of the line job by job
// in an order of the arcs without tokens, and writes the whole report.
//
//     line PLANT
#include "plant.hpp"
#include <cstdio>

int main(int, char **words) {
    Plant plant;
    read_plant(words[1], plant);
    size_t stations = plant.labels.size(), jobs = plant.demands.size();
    std::vector<int> order = order_of(plant);
    if (order.size() < stations) return 4;
    std::vector<std::vector<int>> into(stations);
    for (size_t arc = 0; arc < plant.arcs.size(); arc++) into[plant.arcs[arc].to].push_back(static_cast<int>(arc));

    Dates dates(stations, std::vector<Date>(jobs));
    for (size_t job = 0; job < jobs; job++)
        for (int station : order) {
            if (station == 0) {
                dates[0][job] = plant.demands[job];
                continue;
            }
            Date time = plant.time(station, job), greatest = 0;
            for (int number : into[station]) {
                const Arc &arc = plant.arcs[number];
                Date term = arc.worked ? time : 0;
                if (job >= arc.tokens) term += dates[arc.from][job - arc.tokens] + arc.delay;
                greatest = std::max(greatest, term);
            }
            dates[station][job] = greatest;
        }

    std::string out;
    out.reserve(stations * jobs * 24);
    for (size_t station = 0; station < stations; station++)
        for (size_t job = 0; job < jobs; job++) {
            out += plant.labels[station];
            out += ' ';
            append(out, job + 1);
            out += ' ';
            append(out, dates[station][job]);
            out += '\n';
        }
    out += totals(plant, dates);
    fwrite(out.data(), 1, out.size(), stdout);
}
