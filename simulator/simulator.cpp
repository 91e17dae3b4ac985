// A slot-by-slot simulator of periodic tasks on identical CPUs.
//
// It reads a timing sheet, follows the schedule one slot at a time under four policies, and prints a
// line for each: the same lines that the program strapverdict prints. Or it reads a script, a list of
// calls of a bench, makes them one after another, and prints what each is answered. It is written from
// the rules alone (docs/RULES.md, docs/SHEET.md and docs/CALLS.md) and shares no code with the proved
// program, so that each can be held against the other.
//
//   simulator < sheet             judge one sheet, given as bytes
//   simulator --hex < lines       judge many sheets, a line each
//   simulator --slots ...         print, in place of the lines, how many slots each policy took
//   simulator --script < script   make the calls of a script
//
// A line of --hex spells a sheet: two hex digits of either case for each byte. The empty sheet is a line
// of nothing or of "-" alone. A line that spells no sheet is answered with "unreadable". As in a script,
// one carriage return at the end of a line does not count.
//
// A script has one call to a line; blank lines and lines that begin with # are passed over. Words stand
// one or more spaces apart, and a carriage return at the end of a line does not count.
//
//   bench POLICY                            ok, or refused K; POLICY is deadline, rank or
//                                           heavy A B POLICY, with at most two layers
//   enter NUMBER NAME RANK O C D T          ok, or refused K; NAME is 16 hex digits
//   withdraw NUMBER                         ok, or refused K
//   load HEX                                ok CPUS, or refused S K PLACE, or refused T K PLACE;
//                                           HEX is - for no bytes
//   save CPUS LENGTH                        ok LENGTH HEX, or refused K
//   start CPUS                              ok, or refused K
//   run N                                   the verdict, or refused K
//   halt                                    ok, or refused K
//   verdict                                 the verdict, or refused K
//   set                                     ok WORD COUNT, or refused K
//   line LENGTH                             ok LENGTH TEXT, or refused K
//
// LENGTH is that of the buffer in the call, and of what was written in the answer. Numbers are decimal
// and may be of any length; but a RANK above 255 or an N above 32 bits cannot be handed to a bench, and
// such a line is no call. A line that is no call, or that comes before there is a bench, is answered
// with "unreadable". A bench line that is refused leaves the bench before it in use.
//
// Build: g++ -std=c++17 -O3 -Wall -Wextra -o simulator simulator.cpp

#include <algorithm>
#include <array>
#include <cstdint>
#include <cstdio>
#include <iostream>
#include <numeric>
#include <optional>
#include <sstream>
#include <string>
#include <utility>
#include <variant>
#include <vector>

namespace {

using Instant = std::uint64_t;
using Bytes = std::vector<unsigned char>;

constexpr std::size_t kBytesRead = 4096;           // no more of an input is looked at
constexpr unsigned kNumbers = 32;                  // task numbers are 0 to 31
constexpr unsigned kMostCpus = 8;
constexpr std::uint32_t kLongestPeriod = 60'000;
constexpr std::uint32_t kLargestOffset = 1'000'000;
constexpr Instant kLongestHyperperiod = 10'000'000;
constexpr Instant kMostSlots = 1'000 * Instant{1'000'000};  // for each policy that judges a sheet
constexpr unsigned kLargestB = 1'000;              // of a threshold a/b
constexpr std::size_t kLayers = 2;                 // heavy-first layers that a script may pile
constexpr std::uint64_t kShortestForLine = 48;     // bytes of a buffer
constexpr std::uint64_t kShortestForSave = 709;
constexpr std::uint64_t kBeyond = std::uint64_t{1} << 32;  // stands for all numbers above 32 bits

// ---------------------------------------------------------------------------------------------------
// Tasks and sheets

// The fields are wide enough for tasks that are refused.
struct Task {
    std::uint64_t number;
    std::string name;  // eight bytes
    unsigned rank;
    std::uint64_t offset;
    std::uint64_t runtime;
    std::uint64_t deadline;
    std::uint64_t period;
};

struct Sheet {
    unsigned cpus = 0;
    std::vector<Task> tasks;  // in rising numbers, once the sheet is read
};

// Why a sheet cannot be loaded or judged: the number of the refusal, the layer that speaks ('S' the
// sheet's layout, 'T' the table, 'B' the start of a bench) and, for the first two, a place in the sheet.
struct Fault {
    char layer;
    unsigned number;
    std::size_t place;
};

using Loaded = std::variant<Sheet, Fault>;

std::uint32_t bigEndian(const Bytes& bytes, std::size_t from, std::size_t count) {
    std::uint32_t value = 0;
    for (std::size_t i = 0; i < count; ++i) value = value * 256 + bytes[from + i];
    return value;
}

bool goodName(const std::string& name) {
    for (unsigned char c : name)
        if (c < 0x20 || c > 0x7E) return false;
    return name[0] != 0x20;
}

// The first refusal that the table has for one more task, or 0 if it takes the task.
unsigned refusalOf(const Task& task, const std::vector<Task>& table) {
    if (task.number >= kNumbers) return 9;
    for (const Task& other : table)
        if (other.number == task.number) return 10;
    if (!goodName(task.name)) return 12;
    for (const Task& other : table)
        if (other.name == task.name) return 13;
    if (task.period == 0 || task.period > kLongestPeriod) return 14;
    if (task.deadline == 0 || task.deadline > task.period) return 15;
    if (task.runtime == 0 || task.runtime > task.deadline) return 16;
    if (task.offset > kLargestOffset) return 17;
    return 0;
}

bool goodCpus(std::uint64_t cpus) { return cpus >= 1 && cpus <= kMostCpus; }

bool lowerNumber(const Task& a, const Task& b) { return a.number < b.number; }

// Reads a sheet record by record. The first record that is not in order decides the fault.
Loaded readSheet(const Bytes& bytes) {
    enum class Mark { CP, TK, EN };
    Sheet sheet;
    std::size_t at = 0;  // the place of the mark of the record in hand
    for (bool first = true;; first = false) {
        // The mark.
        if (bytes.size() - at < 2) return Fault{'S', 3, at};
        const std::string letters{static_cast<char>(bytes[at]), static_cast<char>(bytes[at + 1])};
        Mark mark;
        if (letters == "CP") mark = Mark::CP;
        else if (letters == "TK") mark = Mark::TK;
        else if (letters == "EN") mark = Mark::EN;
        else return Fault{'S', 4, at};

        // A CP record stands first, and nowhere else.
        if (first != (mark == Mark::CP)) return Fault{'S', 5, at};

        // The record is there whole.
        const std::size_t length = mark == Mark::CP ? 3 : mark == Mark::TK ? 22 : 2;
        if (bytes.size() - at < length) return Fault{'S', 6, at};

        switch (mark) {
        case Mark::EN:
            if (bytes.size() > at + length) return Fault{'S', 7, at + length};
            std::sort(sheet.tasks.begin(), sheet.tasks.end(), lowerNumber);
            return sheet;
        case Mark::CP:
            sheet.cpus = bytes[at + 2];
            if (!goodCpus(sheet.cpus)) return Fault{'T', 8, at};
            break;
        case Mark::TK: {
            Task task;
            task.number = bytes[at + 2];
            task.name.assign(bytes.begin() + at + 3, bytes.begin() + at + 11);
            task.rank = bytes[at + 11];
            task.offset = bigEndian(bytes, at + 12, 4);
            task.runtime = bigEndian(bytes, at + 16, 2);
            task.deadline = bigEndian(bytes, at + 18, 2);
            task.period = bigEndian(bytes, at + 20, 2);
            if (const unsigned refusal = refusalOf(task, sheet.tasks)) return Fault{'T', refusal, at};
            sheet.tasks.push_back(task);
            break;
        }
        }
        at += length;
    }
}

void putBigEndian(Bytes& bytes, std::uint64_t value, unsigned count) {
    while (count > 0) bytes.push_back(static_cast<unsigned char>(value >> (8 * --count)));
}

// The sheet of a table, with the records of its tasks in rising numbers.
Bytes writeSheet(std::uint64_t cpus, const std::vector<Task>& table) {
    Bytes bytes{'C', 'P'};
    putBigEndian(bytes, cpus, 1);
    for (const Task& task : table) {
        bytes.insert(bytes.end(), {'T', 'K'});
        putBigEndian(bytes, task.number, 1);
        bytes.insert(bytes.end(), task.name.begin(), task.name.end());
        putBigEndian(bytes, task.rank, 1);
        putBigEndian(bytes, task.offset, 4);
        putBigEndian(bytes, task.runtime, 2);
        putBigEndian(bytes, task.deadline, 2);
        putBigEndian(bytes, task.period, 2);
    }
    bytes.insert(bytes.end(), {'E', 'N'});
    return bytes;
}

// The least common multiple of the periods, or nothing if it is above the longest hyperperiod. The
// multiple only grows as tasks are taken in, so it may stop at the first that is too large; before
// that, both factors are small and their product fits easily.
std::optional<Instant> hyperperiod(const std::vector<Task>& tasks) {
    Instant multiple = 1;
    for (const Task& task : tasks) {
        multiple = std::lcm(multiple, task.period);
        if (multiple > kLongestHyperperiod) return std::nullopt;
    }
    return multiple;
}

// ---------------------------------------------------------------------------------------------------
// Policies

// A threshold a/b.
struct Threshold {
    std::uint64_t a;
    std::uint64_t b;
};

bool goodThreshold(const Threshold& threshold) {
    return threshold.b >= 1 && threshold.b <= kLargestB && threshold.a <= threshold.b;
}

// A task is heavy at a/b when C x b > a x T.
bool heavy(const Task& task, const Threshold& at) { return task.runtime * at.b > at.a * task.period; }

// The deadline policy or the rank policy, with heavy-first layers over it.
struct Policy {
    bool byRank;
    std::vector<Threshold> layers;  // the outermost first
};

// The policies that judge a sheet.
const std::array<Policy, 4> kPolicies{{{false, {}}, {true, {}}, {false, {{1, 2}}}, {true, {{1, 2}}}}};

// The group of a task under the layers of a policy: of two tasks in different groups, the one in the
// smaller is heavy, and the other light, in the outermost layer in which they differ.
unsigned groupOf(const Task& task, const Policy& policy) {
    unsigned group = 0;
    for (const Threshold& threshold : policy.layers) group = group * 2 + (heavy(task, threshold) ? 0 : 1);
    return group;
}

// An active job, by what orders it.
struct Job {
    unsigned task;       // the place of its task in the list, which is in rising numbers
    unsigned group;      // by the layers
    std::uint64_t key;   // the time to the deadline, which is not past, or the rank
};

// Whether job a stands before job b: by the group, then by the key, then by the task number.
bool standsBefore(const Job& a, const Job& b) {
    if (a.group != b.group) return a.group < b.group;
    if (a.key != b.key) return a.key < b.key;
    return a.task < b.task;
}

// ---------------------------------------------------------------------------------------------------
// The schedule

struct Verdict {
    enum class Kind { Holds, Missed, Running } kind;
    Instant first;   // holds: the earlier boundary; missed: the task's number; running: the instant
    Instant second;  // holds: the later boundary; missed: the instant
};

// The schedule of a table that is not empty, from instant 0 to the instant at which it is decided, made
// slot by slot.
class Schedule {
public:
    // The tasks are in rising numbers, and P is their hyperperiod.
    Schedule(const std::vector<Task>& tasks, unsigned cpus, const Policy& policy, Instant P)
        : tasks_(tasks), count_(static_cast<unsigned>(tasks.size())), cpus_(cpus), byRank_(policy.byRank),
          P_(P) {
        for (unsigned i = 0; i < count_; ++i) {
            group_[i] = groupOf(tasks_[i], policy);
            nextRelease_[i] = tasks_[i].offset;
            boundary_ = std::max(boundary_, nextRelease_[i]);
        }
        arrive();
    }

    // The instant, which is the number of slots made.
    Instant now() const { return now_; }

    Verdict verdict() const { return decision_ ? *decision_ : Verdict{Verdict::Kind::Running, now_, 0}; }

    // The numbers of the tasks whose jobs ran in the last slot; none before the first.
    std::vector<std::uint64_t> ran() const {
        std::vector<std::uint64_t> numbers;
        if (now_ > 0)
            for (unsigned k = 0; k < running_; ++k) numbers.push_back(tasks_[runs_[k]].number);
        return numbers;
    }

    // Makes `most` slots, or fewer if the schedule is decided before.
    void run(Instant most) {
        for (; most > 0 && !decision_; --most) makeSlot();
    }

private:
    void makeSlot() {
        if (!chosen_) choose();
        for (unsigned k = 0; k < running_; ++k)
            if (--left_[runs_[k]] == 0) chosen_ = false;
        ++now_;
        if (now_ == nextEvent_) arrive();
    }

    // Rule 3: of the active jobs, those run before which fewer than `cpus_` others stand. They are chosen only where a job was
    // released, finished or came to its deadline: in between all jobs grow older alike, so that their order stays.
    void choose() {
        unsigned active = 0;
        for (unsigned i = 0; i < count_; ++i)
            if (left_[i] > 0)
                jobs_[active++] = {i, group_[i], byRank_ ? tasks_[i].rank : lastRelease_[i] + tasks_[i].deadline - now_};
        if (active > cpus_) {
            std::partial_sort(jobs_.begin(), jobs_.begin() + cpus_, jobs_.begin() + active, standsBefore);
            active = cpus_;
        }
        running_ = active;
        for (unsigned k = 0; k < active; ++k) runs_[k] = jobs_[k].task;
        chosen_ = true;
    }

    // What happens at an instant, before its slot.
    void arrive() {
        // Rule 1: a job that is at its deadline and has something left misses it.
        for (unsigned i = 0; i < count_; ++i)
            if (left_[i] > 0 && lastRelease_[i] + tasks_[i].deadline == now_) {
                decision_ = Verdict{Verdict::Kind::Missed, tasks_[i].number, now_};
                return;
            }

        // Rule 2: then jobs are released.
        for (unsigned i = 0; i < count_; ++i)
            if (nextRelease_[i] == now_) {
                left_[i] = tasks_[i].runtime;
                lastRelease_[i] = now_;
                nextRelease_[i] = now_ + tasks_[i].period;
                chosen_ = false;
            }

        // At a boundary the configuration is held against the one before.
        if (now_ == boundary_) {
            if (someKept_ && kept_ == left_) decision_ = Verdict{Verdict::Kind::Holds, now_ - P_, now_};
            kept_ = left_;
            someKept_ = true;
            boundary_ += P_;
        }

        // The next instant at which anything happens but a job's end.
        nextEvent_ = boundary_;
        for (unsigned i = 0; i < count_; ++i) {
            nextEvent_ = std::min(nextEvent_, nextRelease_[i]);
            if (left_[i] > 0) nextEvent_ = std::min(nextEvent_, lastRelease_[i] + tasks_[i].deadline);
        }
    }

    std::vector<Task> tasks_;
    unsigned count_;  // of the tasks
    unsigned cpus_;
    bool byRank_;
    Instant P_;

    // Of each task: its group, what its job has left to run, when that job was released, and when the next
    // is. One job of a task is enough, since no deadline is beyond the period.
    std::array<unsigned, kNumbers> group_{};
    std::array<std::uint64_t, kNumbers> left_{};
    std::array<Instant, kNumbers> lastRelease_{};
    std::array<Instant, kNumbers> nextRelease_{};

    Instant now_ = 0;
    Instant nextEvent_ = 0;                       // of a release, a deadline of an active job, a boundary
    std::array<Job, kNumbers> jobs_{};            // the active ones, while those that run are chosen
    std::array<unsigned, kNumbers> runs_{};       // the tasks of the jobs that run, `running_` of them
    unsigned running_ = 0;
    bool chosen_ = false;                         // whether they run in the next slot
    Instant boundary_ = 0;                        // the next boundary, at first the largest offset
    std::array<std::uint64_t, kNumbers> kept_{};  // the configuration at the boundary before
    bool someKept_ = false;
    std::optional<Verdict> decision_;
};

// ---------------------------------------------------------------------------------------------------
// What is printed for a sheet

std::string textOf(const Fault& fault) {
    std::ostringstream text;
    text << fault.layer << ' ' << fault.number;
    if (fault.layer != 'B') text << ' ' << fault.place;
    return text.str();
}

std::string textOf(const Verdict& verdict) {
    std::ostringstream text;
    switch (verdict.kind) {
    case Verdict::Kind::Holds: text << "HOLDS " << verdict.first << ' ' << verdict.second; break;
    case Verdict::Kind::Missed: text << "MISSED " << verdict.first << ' ' << verdict.second; break;
    case Verdict::Kind::Running: text << "RUNNING " << verdict.first; break;
    }
    return text.str();
}

// Judges one sheet and prints its four lines or its fault; or, if `slots`, the slots of each policy
// (none for a sheet that is refused).
void judge(Bytes bytes, bool slots) {
    if (bytes.size() > kBytesRead) bytes.resize(kBytesRead);
    const Loaded loaded = readSheet(bytes);
    std::optional<Fault> fault;
    std::optional<Instant> P;
    if (const Fault* found = std::get_if<Fault>(&loaded)) {
        fault = *found;
    } else if (const Sheet& sheet = std::get<Sheet>(loaded); sheet.tasks.empty()) {
        fault = Fault{'B', 18, 0};
    } else if (P = hyperperiod(sheet.tasks); !P) {
        fault = Fault{'B', 19, 0};
    }
    if (fault) {
        if (!slots) std::cout << "REFUSED " << textOf(*fault) << '\n';
        return;
    }
    const Sheet& sheet = std::get<Sheet>(loaded);
    for (const Policy& policy : kPolicies) {
        Schedule schedule(sheet.tasks, sheet.cpus, policy, *P);
        schedule.run(kMostSlots);
        if (slots) std::cout << schedule.now() << '\n';
        else std::cout << textOf(schedule.verdict()) << '\n';
    }
}

// ---------------------------------------------------------------------------------------------------
// A bench

std::string refused(unsigned number) { return "refused " + std::to_string(number); }

std::string refused(const Fault& fault) { return "refused " + textOf(fault); }

std::string hexOf(const Bytes& bytes) {
    std::string text;
    for (const unsigned char byte : bytes)
        for (const unsigned half : {byte / 16u, byte % 16u}) text += "0123456789ABCDEF"[half];
    return text;
}

// A bench is open until it is started, and open again once it is halted. Each call gives back what is
// printed for it. A call makes its checks first, in the order of their numbers; one that is refused
// changes nothing.
class Bench {
public:
    explicit Bench(Policy policy) : policy_(std::move(policy)) {}

    std::string enter(const Task& task) {
        if (schedule_) return refused(1);
        if (const unsigned refusal = refusalOf(task, table_)) return refused(refusal);
        table_.insert(std::upper_bound(table_.begin(), table_.end(), task, lowerNumber), task);
        return "ok";
    }

    std::string withdraw(std::uint64_t number) {
        if (schedule_) return refused(1);
        if (number >= kNumbers) return refused(9);
        for (auto task = table_.begin(); task != table_.end(); ++task)
            if (task->number == number) {
                table_.erase(task);
                return "ok";
            }
        return refused(11);
    }

    std::string load(const Bytes& bytes) {
        if (schedule_) return refused(Fault{'T', 1, 0});
        const Loaded loaded = readSheet(bytes);
        if (const Fault* fault = std::get_if<Fault>(&loaded)) return refused(*fault);
        const Sheet& sheet = std::get<Sheet>(loaded);
        table_ = sheet.tasks;
        return "ok " + std::to_string(sheet.cpus);
    }

    std::string save(std::uint64_t cpus, std::uint64_t length) const {
        if (schedule_) return refused(1);
        if (!goodCpus(cpus)) return refused(8);
        if (length < kShortestForSave) return refused(21);
        const Bytes bytes = writeSheet(cpus, table_);
        return "ok " + std::to_string(bytes.size()) + ' ' + hexOf(bytes);
    }

    std::string start(std::uint64_t cpus) {
        if (schedule_) return refused(1);
        if (!goodCpus(cpus)) return refused(8);
        if (table_.empty()) return refused(18);
        const std::optional<Instant> P = hyperperiod(table_);
        if (!P) return refused(19);
        schedule_.emplace(table_, static_cast<unsigned>(cpus), policy_, *P);
        return "ok";
    }

    std::string run(std::uint64_t n) {
        if (!schedule_) return refused(2);
        schedule_->run(n);
        return textOf(schedule_->verdict());
    }

    std::string halt() {
        if (!schedule_) return refused(2);
        schedule_.reset();
        return "ok";
    }

    std::string verdict() const {
        if (!schedule_) return refused(2);
        return textOf(schedule_->verdict());
    }

    // The running set as a word with bit i for task i, and how many tasks are in it.
    std::string set() const {
        if (!schedule_) return refused(2);
        const std::vector<std::uint64_t> ran = schedule_->ran();
        std::uint32_t word = 0;
        for (const std::uint64_t number : ran) word |= std::uint32_t{1} << number;
        Bytes bytes;
        putBigEndian(bytes, word, 4);
        return "ok " + hexOf(bytes) + ' ' + std::to_string(ran.size());
    }

    std::string line(std::uint64_t length) const {
        if (!schedule_) return refused(2);
        if (length < kShortestForLine) return refused(21);
        const std::string text = textOf(schedule_->verdict());
        return "ok " + std::to_string(text.size() + 1) + ' ' + text;  // the end of the line is one byte
    }

private:
    Policy policy_;
    std::vector<Task> table_;           // in rising numbers
    std::optional<Schedule> schedule_;  // there while the bench is started
};

// ---------------------------------------------------------------------------------------------------
// Input

Bytes readInput() {
    Bytes bytes(kBytesRead);
    bytes.resize(std::fread(bytes.data(), 1, bytes.size(), stdin));
    return bytes;
}

int digit(char c) {
    if (c >= '0' && c <= '9') return c - '0';
    if (c >= 'a' && c <= 'f') return c - 'a' + 10;
    if (c >= 'A' && c <= 'F') return c - 'A' + 10;
    return -1;
}

// The bytes that a text spells, or nothing if it is neither "-" nor pairs of hex digits.
std::optional<Bytes> spelled(const std::string& text) {
    if (text == "-") return Bytes{};
    if (text.empty() || text.size() % 2 != 0) return std::nullopt;
    Bytes bytes;
    for (std::size_t i = 0; i < text.size(); i += 2) {
        const int high = digit(text[i]), low = digit(text[i + 1]);
        if (high < 0 || low < 0) return std::nullopt;
        bytes.push_back(static_cast<unsigned char>(high * 16 + low));
    }
    return bytes;
}

// The number that a word of decimal digits gives, or nothing for another word. All numbers from
// kBeyond on give kBeyond: it is above every bound that a number is held against.
std::optional<std::uint64_t> numberOf(const std::string& word) {
    if (word.empty()) return std::nullopt;
    std::uint64_t value = 0;
    for (const char c : word) {
        if (c < '0' || c > '9') return std::nullopt;
        value = std::min(value * 10 + static_cast<unsigned>(c - '0'), kBeyond);
    }
    return value;
}

// ---------------------------------------------------------------------------------------------------
// Scripts

using Words = std::vector<std::string>;

Words wordsOf(const std::string& line) {
    Words words;
    for (std::size_t from = 0; from < line.size();) {
        const std::size_t to = std::min(line.find(' ', from), line.size());
        if (to > from) words.push_back(line.substr(from, to - from));
        from = to + 1;
    }
    return words;
}

// The numbers that the words from `from` on give, or nothing if one of them is no number.
std::optional<std::vector<std::uint64_t>> numbersOf(const Words& words, std::size_t from) {
    std::vector<std::uint64_t> numbers;
    for (std::size_t i = from; i < words.size(); ++i) {
        const std::optional<std::uint64_t> number = numberOf(words[i]);
        if (!number) return std::nullopt;
        numbers.push_back(*number);
    }
    return numbers;
}

// The policy of a bench line, whose thresholds may be bad ones; or nothing if the line does not read.
std::optional<Policy> policyOf(const Words& words) {
    Policy policy{};
    std::size_t at = 1;
    for (; at + 2 < words.size() && words[at] == "heavy"; at += 3) {
        const auto a = numberOf(words[at + 1]), b = numberOf(words[at + 2]);
        if (!a || !b) return std::nullopt;
        policy.layers.push_back({*a, *b});
    }
    if (policy.layers.size() > kLayers || at + 1 != words.size()) return std::nullopt;
    if (words[at] != "deadline" && words[at] != "rank") return std::nullopt;
    policy.byRank = words[at] == "rank";
    return policy;
}

// The task of an enter line, which may be one to refuse; or nothing if the line does not read.
std::optional<Task> taskOf(const Words& words) {
    if (words.size() != 8 || words[2].size() != 16) return std::nullopt;
    const auto number = numberOf(words[1]);
    const auto name = spelled(words[2]);
    const auto rest = numbersOf(words, 3);
    if (!number || !name || !rest || (*rest)[0] > 255) return std::nullopt;
    return Task{*number, std::string(name->begin(), name->end()), static_cast<unsigned>((*rest)[0]),
                (*rest)[1], (*rest)[2], (*rest)[3], (*rest)[4]};
}

// Makes the call of one line, and gives back its answer, or nothing if the line does not read. There is
// at least one word.
std::optional<std::string> call(std::optional<Bench>& bench, const Words& words) {
    const std::string& name = words[0];
    if (name == "bench") {
        const std::optional<Policy> policy = policyOf(words);
        if (!policy) return std::nullopt;
        if (!std::all_of(policy->layers.begin(), policy->layers.end(), goodThreshold)) return refused(20);
        bench.emplace(*policy);
        return "ok";
    }
    if (!bench) return std::nullopt;
    if (name == "enter") {
        const std::optional<Task> task = taskOf(words);
        if (!task) return std::nullopt;
        return bench->enter(*task);
    }
    if (name == "load") {
        const std::optional<Bytes> bytes = words.size() == 2 ? spelled(words[1]) : std::nullopt;
        if (!bytes) return std::nullopt;
        return bench->load(*bytes);
    }

    // All other calls are given numbers only.
    const auto numbers = numbersOf(words, 1);
    if (!numbers) return std::nullopt;
    const auto is = [&](const char* which, std::size_t count) {
        return name == which && numbers->size() == count;
    };
    if (is("withdraw", 1)) return bench->withdraw((*numbers)[0]);
    if (is("save", 2)) return bench->save((*numbers)[0], (*numbers)[1]);
    if (is("start", 1)) return bench->start((*numbers)[0]);
    if (is("run", 1) && (*numbers)[0] < kBeyond) return bench->run((*numbers)[0]);
    if (is("halt", 0)) return bench->halt();
    if (is("verdict", 0)) return bench->verdict();
    if (is("set", 0)) return bench->set();
    if (is("line", 1)) return bench->line((*numbers)[0]);
    return std::nullopt;
}

void followScript(std::istream& script) {
    std::optional<Bench> bench;
    for (std::string line; std::getline(script, line);) {
        if (!line.empty() && line.back() == '\r') line.pop_back();
        const Words words = wordsOf(line);
        if (words.empty() || line[0] == '#') continue;
        std::cout << call(bench, words).value_or("unreadable") << '\n';
    }
}

// Judges the sheets that the lines spell, and tells which lines spell none (nothing, if `slots`).
void judgeLines(std::istream& lines, bool slots) {
    for (std::string line; std::getline(lines, line);) {
        if (!line.empty() && line.back() == '\r') line.pop_back();
        const std::optional<Bytes> bytes = line.empty() ? Bytes{} : spelled(line);
        if (bytes) judge(*bytes, slots);
        else if (!slots) std::cout << "unreadable\n";
    }
}

}  // namespace

int main(int argc, char** argv) {
    bool hex = false, slots = false, script = false, usable = true;
    for (int i = 1; i < argc; ++i) {
        const std::string word = argv[i];
        if (word == "--hex") hex = true;
        else if (word == "--slots") slots = true;
        else if (word == "--script") script = true;
        else usable = false;
    }
    if (!usable || (script && (hex || slots))) {
        std::cerr << "usage: simulator [--hex] [--slots] < input\n"
                     "       simulator --script < script\n";
        return 2;
    }
    if (script) {
        followScript(std::cin);
        return 0;
    }
    if (hex) judgeLines(std::cin, slots);
    else judge(readInput(), slots);
    return 0;
}
