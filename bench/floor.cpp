// What a run of a script costs at least: the same files with the same syncs and the same text, from a program that
// proves, keeps and checks nothing. It trusts its input, which is a script of upserts.py, keeps rows where the parser
// left them, and reads nothing back.
//
// Build: g++ -O2 -std=c++17 floor.cpp -lsimdjson -o floor
// Run:   floor FOLDER [bare] <script
// With `bare` it makes the same files with the fewest calls, and syncs nothing.
#include <fcntl.h>
#include <simdjson.h>
#include <sys/stat.h>
#include <unistd.h>

#include <algorithm>
#include <chrono>
#include <cstdio>
#include <cstdlib>
#include <cstring>
#include <ctime>
#include <deque>
#include <string>
#include <string_view>
#include <vector>

using std::string;
using std::string_view;

// The table of such a script: its one partition, and in that its one file group.
static const string FILE_ID = "0000ffff-4f01-52df-a6be-557d177dca72-0";
static const string LOG = "x/." + FILE_ID + "_20000101000000000.log.1_0-0-0";
static const string OWN_FIELDS =
    "{\"name\":\"id\",\"type\":\"string\"},{\"name\":\"p\",\"type\":\"string\"},{\"name\":\"v\",\"type\":\"long\"},"
    "{\"name\":\"body\",\"type\":\"string\"}";
static const string PROPERTIES =
    "hoodie.table.name=t\n"
    "hoodie.table.type=MERGE_ON_READ\n"
    "hoodie.table.version=6\n"
    "hoodie.table.recordkey.fields=id\n"
    "hoodie.table.partition.fields=p\n"
    "hoodie.table.precombine.field=v\n"
    "hoodie.timeline.layout.version=1\n"
    "profile.buckets=1\n"
    "profile.schema={\"fields\":[" + OWN_FIELDS + "],\"name\":\"r\",\"type\":\"record\"}\n";

// The schema of a record in the log: five columns before the row's own.
static const string RECORD_SCHEMA =
    "{\"fields\":[{\"name\":\"_hoodie_commit_time\",\"type\":\"string\"},"
    "{\"name\":\"_hoodie_commit_seqno\",\"type\":\"string\"},{\"name\":\"_hoodie_record_key\",\"type\":\"string\"},"
    "{\"name\":\"_hoodie_partition_path\",\"type\":\"string\"},{\"name\":\"_hoodie_file_name\",\"type\":\"string\"},"
    + OWN_FIELDS + "],\"name\":\"r\",\"type\":\"record\"}";

// What metadata says of the one group, up to the number of its writes.
static const string GROUP = "{\"base\":\"20000101000000000\",\"file\":\"" + FILE_ID + "\",\"partition\":\"x\"";

struct Row {
    string_view key, partition;
    int64_t rank;
    string_view body;
    uint32_t commit, place;
};

static bool bare = false;
static int root, timeline, partition, log_file = -1;

static void must(bool held, const char *what) {
    if (!held) {
        perror(what);
        exit(1);
    }
}

static void put(int file, const string &bytes, const char *name) {
    for (size_t at = 0; at < bytes.size();) {
        ssize_t wrote = write(file, bytes.data() + at, bytes.size() - at);
        must(wrote > 0, name);
        at += wrote;
    }
}

static void make(const string &name, const string &bytes) {
    if (bare && bytes.empty()) {
        must(mknodat(timeline, name.c_str(), S_IFREG | 0644, 0) == 0, name.c_str());
        return;
    }
    int file = openat(timeline, name.c_str(), O_WRONLY | O_CREAT | O_EXCL, 0644);
    must(file >= 0, name.c_str());
    put(file, bytes, name.c_str());
    if (!bare && !bytes.empty()) must(fsync(file) == 0, name.c_str());
    close(file);
    if (!bare) must(fsync(timeline) == 0, "sync of the timeline");
}

static void append(const string &bytes) {
    bool first = log_file < 0;
    if (first) log_file = openat(root, LOG.c_str(), O_WRONLY | O_CREAT | O_APPEND, 0644);
    must(log_file >= 0, LOG.c_str());
    put(log_file, bytes, LOG.c_str());
    if (bare) return;
    must(fsync(log_file) == 0, LOG.c_str());
    if (first) must(fsync(partition) == 0, "sync of the partition");
}

static string time_text(int64_t ms) {
    time_t seconds = ms / 1000;
    tm parts;
    gmtime_r(&seconds, &parts);
    char text[40];
    size_t length = strftime(text, sizeof text, "%Y%m%d%H%M%S", &parts);
    snprintf(text + length, sizeof text - length, "%03d", int(ms % 1000));
    return text;
}

static void put_number(string &out, uint64_t number, int bytes) {
    for (int i = bytes - 1; i >= 0; i--) out.push_back(char(number >> (8 * i)));
}

// The same in place of what stands there.
static void fill_number(string &out, size_t at, uint64_t number, int bytes) {
    for (int i = 0; i < bytes; i++) out[at + i] = char(number >> (8 * (bytes - 1 - i)));
}

static void put_sized(string &out, string_view bytes) {
    put_number(out, bytes.size(), 4);
    out.append(bytes);
}

// A number in Avro's form: zigzag, then seven bits a byte, least first.
static void put_long(string &out, int64_t number) {
    uint64_t left = uint64_t(number) << 1 ^ uint64_t(number >> 63);
    for (; left > 127; left >>= 7) out.push_back(char(left | 128));
    out.push_back(char(left));
}

static void put_string(string &out, string_view text) {
    put_long(out, int64_t(text.size()));
    out.append(text);
}

// A record behind its length, which is put once it is known.
static void put_record(string &out, const string &time, const Row &row) {
    size_t at = out.size();
    char seqno[40];
    size_t length = snprintf(seqno, sizeof seqno, "%s_0_%u", time.c_str(), row.place);
    out.append(4, '\0');
    put_string(out, time);
    put_string(out, string_view(seqno, length));
    put_string(out, row.key);
    put_string(out, row.partition);
    put_string(out, FILE_ID);
    put_string(out, row.key);
    put_string(out, row.partition);
    put_long(out, row.rank);
    put_string(out, row.body);
    fill_number(out, at, out.size() - at - 4, 4);
}

// A data block: its magic, length, version, type, header, content, footer and size.
static void put_block(string &out, const string &time, const Row *rows, size_t count) {
    out.append("#HUDI#");
    put_number(out, 0, 8);
    put_number(out, 1, 4);
    put_number(out, 3, 4);
    put_number(out, 2, 4);
    put_number(out, 0, 4);
    put_sized(out, time);
    put_number(out, 2, 4);
    put_sized(out, RECORD_SCHEMA);
    put_number(out, 0, 8);
    size_t content = out.size();
    put_number(out, 3, 4);
    put_number(out, count, 4);
    for (size_t i = 0; i < count; i++) put_record(out, time, rows[i]);
    fill_number(out, content - 8, out.size() - content, 8);
    put_number(out, 0, 4);
    fill_number(out, 6, out.size() + 8 - 14, 8);
    put_number(out, out.size(), 8);
}

static void put_text(string &out, string_view text) {
    out.push_back('"');
    for (unsigned char c : text) {
        const char *found = c < 32 ? strchr("b\bf\fn\nr\rt\t", c) : nullptr;
        if (c == '"' || c == '\\') {
            out.push_back('\\');
            out.push_back(c);
        } else if (c != 0 && found) {
            out.push_back('\\');
            out.push_back(found[-1]);
        } else if (c < 32) {
            char escape[8];
            snprintf(escape, sizeof escape, "\\u%04x", c);
            out.append(escape);
        } else {
            out.push_back(c);
        }
    }
    out.push_back('"');
}

// The winner of each key, in the order of the keys.
static void put_rows(string &out, const std::vector<Row> &rows, const std::vector<string> &times) {
    std::vector<const Row *> order(rows.size());
    for (size_t i = 0; i < rows.size(); i++) order[i] = &rows[i];
    std::stable_sort(order.begin(), order.end(), [](const Row *a, const Row *b) { return a->key < b->key; });
    out.push_back('[');
    for (size_t i = 0; i < order.size();) {
        const Row *best = order[i];
        size_t first = i;
        for (; i < order.size() && order[i]->key == best->key; i++)
            if (order[i]->rank >= best->rank) best = order[i];
        if (first > 0) out.push_back(',');
        const string &time = times[best->commit];
        out.append("{\"_hoodie_commit_seqno\":\"").append(time).append("_0_").append(std::to_string(best->place));
        out.append("\",\"_hoodie_commit_time\":\"").append(time).append("\",\"body\":");
        put_text(out, best->body);
        out.append(",\"id\":");
        put_text(out, best->key);
        out.append(",\"p\":");
        put_text(out, best->partition);
        out.append(",\"v\":").append(std::to_string(best->rank)).push_back('}');
    }
    out.push_back(']');
}

static string read_all() {
    string input;
    char piece[65536];
    for (ssize_t got; (got = read(0, piece, sizeof piece)) > 0;) input.append(piece, got);
    return input;
}

static int folder(int above, const char *name) {
    mkdirat(above, name, 0755);
    int opened = openat(above, name, O_RDONLY | O_DIRECTORY);
    must(opened >= 0, name);
    if (!bare) fsync(above);
    return opened;
}

static int64_t now() {
    using namespace std::chrono;
    return duration_cast<milliseconds>(system_clock::now().time_since_epoch()).count();
}

int main(int count, char **words) {
    must(count >= 2, "floor FOLDER");
    bare = count > 2;
    root = folder(AT_FDCWD, words[1]);
    timeline = folder(root, ".hoodie");
    partition = folder(root, "x");
    string input = read_all();
    input.reserve(input.size() + simdjson::SIMDJSON_PADDING);
    std::deque<simdjson::dom::parser> parsers;
    std::vector<Row> rows;
    std::vector<string> times;
    string text, marks, block;
    int64_t last = 0;
    size_t number = 0, placed = 0, pins = 0;
    for (size_t at = 0, end; at < input.size(); at = end + 1) {
        end = std::min(input.find('\n', at), input.size());
        number++;
        if (end == at) continue;
        string line = std::to_string(number);
        parsers.emplace_back();
        auto job = parsers.back().parse(input.data() + at, end - at, true);
        string_view kind = job["job"].get_string().value();
        if (kind == "init") {
            make("hoodie.properties", PROPERTIES);
            text.append(line).append(" init made\n");
            continue;
        }
        if (kind == "snapshot") {
            string pin = std::to_string(++pins);
            text.append(line).append(" snapshot rows ").append(times.empty() ? "none" : times.back()).push_back(' ');
            put_rows(text, rows, times);
            text.push_back('\n');
            marks.append("mark 1 ").append(line).append(" pin pinned ");
            marks.append(std::to_string(last)).append(" ").append(pin);
            for (size_t piece = 0; piece < placed; piece += 16777216)
                marks.append("\nmark 1 ").append(line).append(" read bytes 0 ").append(std::to_string(piece));
            marks.append("\nmark 1 ").append(line).append(" unpin done ").append(pin).append(" 0\n");
            continue;
        }
        int64_t ms = std::max(last + 1, now());
        last = ms;
        string time = time_text(ms), instant = std::to_string(ms);
        size_t first = rows.size();
        for (auto row : job["rows"].get_array())
            rows.push_back({row["id"].get_string().value(), row["p"].get_string().value(), row["v"].get_int64().value(),
                            row["body"].get_string().value(), uint32_t(times.size()), uint32_t(rows.size() - first)});
        times.push_back(time);
        make(time + ".deltacommit.requested", "");
        make(time + ".deltacommit.inflight", "{\"groups\":[" + GROUP + "}]}");
        block.clear();
        put_block(block, time, rows.data() + first, rows.size() - first);
        append(block);
        string writes = ",\"writes\":" + std::to_string(rows.size() - first);
        make(time + ".deltacommit", "{\"checkpoint\":null,\"groups\":[" + GROUP + writes + "}]}");
        text.append(line).append(" upsert committed ").append(time).push_back('\n');
        string mark = "mark 1 " + line + " ";
        marks.append(mark).append("begin began ").append(instant).append(" 0\n");
        marks.append(mark).append("enter entered 1 0\n");
        marks.append(mark).append("append placed 1 ").append(std::to_string(placed)).append("\n");
        marks.append(mark).append("finish completed ").append(instant).append(" 0\n");
        placed += block.size();
    }
    text.append(marks);
    for (size_t at = 0; at < text.size();) {
        ssize_t wrote = write(1, text.data() + at, text.size() - at);
        must(wrote > 0, "the text");
        at += wrote;
    }
}
