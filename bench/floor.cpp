// floor.cpp: plain loops that do the work of hostile queries and of large updates; floor.sh has the
// rest.
#include <algorithm>
#include <cstdint>
#include <cstdio>
#include <cstdlib>
#include <map>
#include <string>
#include <time.h>
#include <vector>

using std::map, std::string, std::vector;

// As many annotations as bench/hostile.sh makes, and as many words as one update of
// bench/growth.sh has.
const size_t ROWS = 200000, LISTS = 30, WORDS = 100000, TRIES = 8;

double milliseconds() {
  timespec t;
  clock_gettime(CLOCK_THREAD_CPUTIME_ID, &t);
  return t.tv_sec * 1e3 + t.tv_nsec / 1e6;
}

// The least time of several runs.
template <class Run> double least(Run run) {
  double best = 1e9;
  for (size_t at = 0; at < TRIES; at++) {
    double begun = milliseconds();
    run();
    best = std::min(best, milliseconds() - begun);
  }
  return best;
}

// ---- further words that every annotation has

void walk() {
  vector<uint32_t> list(ROWS);
  for (size_t at = 0; at < ROWS; at++) list[at] = at;
  vector<size_t> places, common;
  double took = least([&] {
    places.assign(list.begin(), list.end());
    for (size_t word = 0; word < LISTS; word++) {
      common.clear();
      common.reserve(places.size());
      size_t at = 0;
      for (size_t place : places) {
        while (at < ROWS && list[at] < place) at++;
        if (at < ROWS && list[at] == place) common.push_back(place);
      }
      std::swap(places, common);
    }
  });
  printf("%zu lists of %zu places, walked along: %.1f ms\n", LISTS, ROWS, took);
}

// ---- filters

// A row in memory as a store has it: its parts stand apart, and much that nobody asks for between.
struct Text { char *bytes; size_t length; };
struct Parts { char counts[80]; Text motivations; uint32_t *ends; char more[120]; };
struct Row { char names[88]; Parts *parts; Text *creator; long created; char more[60]; };

Text text(const char *from) {
  string s(from);
  Text made{static_cast<char *>(malloc(s.size())), s.size()};
  std::copy(s.begin(), s.end(), made.bytes);
  return made;
}

vector<Row *> rows() {
  vector<Row *> made;
  for (size_t at = 0; at < ROWS; at++) {
    Row *row = static_cast<Row *>(malloc(sizeof(Row)));
    *static_cast<char *>(malloc(420)) = 1;
    row->parts = static_cast<Parts *>(malloc(sizeof(Parts)));
    *static_cast<char *>(malloc(1200)) = 1;
    row->parts->motivations = text("commenting");
    row->parts->ends = static_cast<uint32_t *>(malloc(sizeof(uint32_t)));
    *row->parts->ends = 10;
    row->creator = static_cast<Text *>(malloc(sizeof(Text)));
    *row->creator = text("http://a.example/u/mara");
    row->created = at;
    made.push_back(row);
  }
  return made;
}

// How many of nine in ten rows have the text that the reading finds.
template <class Read> size_t matching(const vector<Row *> &all, const string &wanted, Read read) {
  size_t count = 0;
  for (size_t at = 0; at < ROWS; at++) {
    if (at % 10 == 0) continue;
    Text found = read(all[at]);
    count += string::traits_type::compare(found.bytes, wanted.data(), found.length) == 0;
  }
  return count;
}

void filters() {
  vector<Row *> all = rows();
  size_t found = 0;
  double creators = least([&] {
    found += matching(all, "http://a.example/u/mara", [](Row *row) { return *row->creator; });
  });
  double motivations = least([&] {
    found += matching(all, "commenting", [](Row *row) {
      return Text{row->parts->motivations.bytes, *row->parts->ends};
    });
  });
  printf("creators of nine in ten of %zu rows: %.1f ms\n", ROWS, creators);
  printf("motivations of nine in ten of %zu rows: %.1f ms (%zu)\n", ROWS, motivations, found);
}

// ---- an update by new words

struct Postings { vector<uint32_t> places; uint64_t count = 0; };

// A word of six letters and more for each number, which is no word of another one.
string word(size_t number) {
  string made;
  for (; number || made.size() < 6; number /= 16) made += "bcdfghjklmnpqrst"[number % 16];
  return made;
}

vector<string> counted(const vector<string> &words) {
  map<string, uint64_t> totals;
  for (const string &each : words) totals[each]++;
  vector<string> terms;
  for (const auto &[term, total] : totals) terms.push_back(term);
  return terms;
}

// Takes room for the new terms, takes the old ones out, and puts the new ones in.
void replace(map<string, Postings> &index, const vector<string> &gone,
             const vector<string> &terms) {
  for (const string &term : terms) index[term].places.reserve(1);
  for (const string &term : gone) {
    auto at = index.find(term);
    at->second.places.clear();
    index.erase(at);
  }
  for (const string &term : terms) {
    Postings &postings = index.find(term)->second;
    postings.places.push_back(1);
    postings.count++;
  }
}

void update() {
  map<string, Postings> first, second;
  vector<string> gone;
  double counting = 1e9, index = 1e9;
  for (size_t turn = 0; turn < TRIES; turn++) {
    vector<string> words;
    for (size_t at = 0; at < WORDS; at++) words.push_back(word(turn * WORDS + at));
    double begun = milliseconds();
    vector<string> terms = counted(words);
    double between = milliseconds();
    replace(first, gone, terms);
    replace(second, gone, terms);
    // The first turn takes nothing out.
    if (turn > 0) {
      counting = std::min(counting, between - begun);
      index = std::min(index, milliseconds() - between);
    }
    gone = terms;
  }
  printf("%zu new words for as many old ones: counted in %.1f ms, in two copies of an index in"
         " %.1f ms\n", WORDS, counting, index);
}

int main() {
  walk();
  filters();
  update();
}
