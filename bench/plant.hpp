// What both programs share: a plant file is read by toml++, and becomes a graph of stations and arcs, in the order of
// docs/CHECKPOINTS.md; and the end of the report, which takes no time worth tuning.
#pragma once
#include <algorithm>
#include <charconv>
#include <map>
#include <string>
#include <toml++/toml.h>
#include <vector>

using Date = unsigned long long;

// An arc between two stations, with the tokens that lie on it at the start and the delay that it adds.
struct Arc {
    int from, to;
    Date tokens;
    bool worked;
    Date delay;
};

struct Machine {
    std::string name;
    Date servers, time;
    std::vector<Date> times;
};

struct Stage {
    std::string name;
    int feeds = -1;
    Date cards, stock, travel, card_time;
    std::vector<Machine> machines;
    int release = 0, last = 0;  // its stations
};

// A plant as a graph. Station 0 is the feed, the last one the delivery.
struct Plant {
    std::string policy;
    Date cards;
    std::vector<Date> demands, observed;
    std::vector<Stage> stages;
    std::vector<std::string> labels;
    std::vector<const Machine *> machines;  // of each station, or none
    std::vector<Arc> arcs;

    int delivery() const { return static_cast<int>(labels.size()) - 1; }
    int next(const Stage &stage) const { return stage.feeds < 0 ? delivery() : stages[stage.feeds].release; }
    Date starting_stock(const Stage &stage) const { return policy == "kanban" ? stage.cards : stage.stock; }
    Date time(int station, size_t job) const {
        const Machine *machine = machines[station];
        if (!machine) return 0;
        return machine->times.empty() ? machine->time : machine->times[job];
    }
};

inline Date number(const toml::table &table, const char *key, int64_t absent = 0) {
    return table[key].value_or<int64_t>(int64_t{absent});
}

inline std::vector<Date> numbers(const toml::table &table, const char *key) {
    std::vector<Date> found;
    if (const auto *list = table[key].as_array())
        for (const auto &value : *list) found.push_back(*value.value<int64_t>());
    return found;
}

inline std::string text(const toml::table &table, const char *key) { return *table[key].value<std::string>(); }

inline std::vector<Stage> read_stages(const toml::table &file, std::map<std::string, int> &numbers_of) {
    std::vector<Stage> stages;
    for (const auto &entry : *file["stage"].as_array()) {
        const auto &table = *entry.as_table();
        Stage stage;
        stage.name = text(table, "name");
        stage.cards = number(table, "cards");
        stage.stock = number(table, "stock");
        stage.travel = number(table, "travel");
        stage.card_time = number(table, "card_time");
        for (const auto &made : *table["machine"].as_array()) {
            const auto &machine = *made.as_table();
            stage.machines.push_back({text(machine, "name"), number(machine, "servers", 1), number(machine, "time"),
                                      numbers(machine, "times")});
        }
        numbers_of[stage.name] = static_cast<int>(stages.size());
        stages.push_back(std::move(stage));
    }
    int number_of = 0;
    for (const auto &entry : *file["stage"].as_array()) {
        if (auto fed = (*entry.as_table())["feeds"].value<std::string>()) stages[number_of].feeds = numbers_of[*fed];
        number_of++;
    }
    return stages;
}

inline void name_stations(Plant &plant) {
    plant.labels = {"feed"};
    plant.machines = {nullptr};
    for (Stage &stage : plant.stages) {
        stage.release = static_cast<int>(plant.labels.size());
        plant.labels.push_back(stage.name);
        plant.machines.push_back(nullptr);
        for (const Machine &machine : stage.machines) {
            plant.labels.push_back(stage.name + "." + machine.name);
            plant.machines.push_back(&machine);
        }
        stage.last = static_cast<int>(plant.labels.size()) - 1;
    }
    plant.labels.push_back("deliver");
    plant.machines.push_back(nullptr);
}

inline void add_stage_arcs(Plant &plant) {
    for (const Stage &stage : plant.stages) {
        int station = stage.release + 1;
        plant.arcs.push_back({stage.release, station, 0, true, 0});
        for (const Machine &machine : stage.machines) {
            plant.arcs.push_back({station, station, machine.servers, true, 0});
            plant.arcs.push_back({station, station, 1, false, 0});
            if (station != stage.last)
                plant.arcs.push_back({station, station + 1, 0, true, 0});
            else
                plant.arcs.push_back({station, plant.next(stage), plant.starting_stock(stage), false, stage.travel});
            station++;
        }
    }
    plant.arcs.push_back({0, plant.delivery(), 0, false, 0});
}

// The starting stock from a stage on, to the end or to another stage.
inline Date stock_from(const Plant &plant, int first, int last) {
    Date sum = 0;
    for (int stage = first; stage >= 0; stage = plant.stages[stage].feeds) {
        sum += plant.starting_stock(plant.stages[stage]);
        if (stage == last) break;
    }
    return sum;
}

inline void add_policy_arcs(Plant &plant, Date card_time) {
    std::vector<bool> fed(plant.stages.size());
    for (const Stage &stage : plant.stages)
        if (stage.feeds >= 0) fed[stage.feeds] = true;
    for (size_t i = 0; i < plant.stages.size(); i++) {
        const Stage &stage = plant.stages[i];
        if (plant.policy == "kanban")
            plant.arcs.push_back({plant.next(stage), stage.release, 0, false, stage.card_time});
        if (plant.policy == "base-stock" || plant.policy == "extended")
            plant.arcs.push_back({0, stage.release, 0, false, 0});
        if (plant.policy == "extended")
            plant.arcs.push_back({plant.next(stage), stage.release, stage.cards - stage.stock, false, stage.card_time});
        if (plant.policy == "conwip" && !fed[i])
            plant.arcs.push_back({plant.delivery(), stage.release,
                                  plant.cards - stock_from(plant, static_cast<int>(i), -1), false, card_time});
    }
}

inline void add_loop_arcs(Plant &plant, const toml::table &file, std::map<std::string, int> &numbers_of) {
    const auto *loops = file["loop"].as_array();
    if (!loops) return;
    for (const auto &entry : *loops) {
        const auto &loop = *entry.as_table();
        int first = numbers_of[text(loop, "from")], last = numbers_of[text(loop, "to")];
        plant.arcs.push_back({plant.next(plant.stages[last]), plant.stages[first].release,
                              number(loop, "cards") - stock_from(plant, first, last), false,
                              number(loop, "card_time")});
    }
}

// The plant of a file, which is taken to be sound.
inline void read_plant(const char *path, Plant &plant) {
    auto file = toml::parse_file(path);
    std::map<std::string, int> numbers_of;
    plant.policy = text(file, "policy");
    plant.cards = number(file, "cards");
    plant.demands = numbers(file, "demands");
    plant.observed = numbers(file, "observe");
    plant.stages = read_stages(file, numbers_of);
    name_stations(plant);
    add_stage_arcs(plant);
    add_policy_arcs(plant, number(file, "card_time"));
    add_loop_arcs(plant, file, numbers_of);
}

// An order of the stations in which arcs without a token go upwards; shorter than all where there is none.
inline std::vector<int> order_of(const Plant &plant) {
    size_t count = plant.labels.size();
    std::vector<int> waits(count), order;
    for (const Arc &arc : plant.arcs)
        if (!arc.tokens) waits[arc.to]++;
    for (size_t station = 0; station < count; station++)
        if (!waits[station]) order.push_back(static_cast<int>(station));
    for (size_t k = 0; k < order.size(); k++)
        for (const Arc &arc : plant.arcs)
            if (arc.from == order[k] && !arc.tokens && !--waits[arc.to]) order.push_back(arc.to);
    return order;
}

inline void append(std::string &out, Date number) {
    char digits[32];
    out.append(digits, std::to_chars(digits, digits + 32, number).ptr);
}

using Dates = std::vector<std::vector<Date>>;

// How many jobs of a station have a date up to this one.
inline Date done(const std::vector<Date> &dates, Date date) {
    return std::upper_bound(dates.begin(), dates.end(), date) - dates.begin();
}

inline void append_observed(std::string &out, const Plant &plant, const Dates &dates) {
    for (Date date : plant.observed) {
        for (const Stage &stage : plant.stages) {
            Date made = done(dates[stage.last], date);
            Date arrived = stage.travel > date ? 0 : done(dates[stage.last], date - stage.travel);
            out += "at ";
            append(out, date);
            out += ' ' + stage.name + " process ";
            append(out, done(dates[stage.release], date) - made);
            if (stage.travel) {
                out += " move ";
                append(out, made - arrived);
            }
            out += " stock ";
            append(out, plant.starting_stock(stage) + arrived - done(dates[plant.next(stage)], date));
            out += '\n';
        }
        out += "at ";
        append(out, date);
        out += " backlog ";
        append(out, done(dates[0], date) - done(dates[plant.delivery()], date));
        out += '\n';
    }
}

// The most that stands in a stage: looked at from date 0 on, wherever the last of several releases at one date is.
inline Date peak(const Plant &plant, const Dates &dates, const Stage &stage) {
    const auto &in = dates[stage.release], &out = dates[plant.next(stage)];
    Date stock = plant.starting_stock(stage), most = stock + done(in, 0) - done(out, 0);
    size_t left = 0;
    for (size_t job = 0; job < in.size(); job++) {
        if (job + 1 < in.size() && in[job + 1] <= in[job]) continue;
        while (left < out.size() && out[left] <= in[job]) left++;
        most = std::max(most, stock + job + 1 - left);
    }
    return most;
}

// The end of the report, behind its dates.
inline std::string totals(const Plant &plant, const Dates &dates) {
    std::string out;
    append_observed(out, plant, dates);
    for (const Stage &stage : plant.stages) {
        out += "peak " + stage.name + ' ';
        append(out, peak(plant, dates, stage));
        out += " of ";
        if (plant.policy == "base-stock")
            out += "none";
        else
            append(out, plant.policy == "conwip" ? plant.cards : stage.cards);
        out += '\n';
    }
    Date waiting = 0, last = 0;
    for (size_t job = 0; job < plant.demands.size(); job++)
        waiting += dates[plant.delivery()][job] - dates[0][job];
    for (const auto &row : dates) last = std::max(last, *std::max_element(row.begin(), row.end()));
    out += "waiting ";
    append(out, waiting);
    out += "\nlast ";
    append(out, last);
    out += '\n';
    return out;
}
