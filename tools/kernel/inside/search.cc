// Runs a text under every order of its shared accesses, breadth first, so that an order that is told is a shortest one.
#ifdef WITH_MACHINE
#include "alone.h"
#else
#include "tell.h"
#endif

enum Verdict { HOLDS = 0, GOES_WRONG = 1, WRONG_WORDS = 2, DIFFERS = 4, NOT_DECIDED = 5 };

static vector<uint32_t> parent; // of each state, the one that it came from
static vector<Choice> by;       // and by which choice
static string first_state;

static double seconds() { return clock() / (double)CLOCKS_PER_SEC; }

static vector<Choice> path_to(uint32_t id, const Choice *last)
{
	vector<Choice> path;
	if (last)
		path.push_back(*last);
	for (uint32_t i = id; i; i = parent[i])
		path.push_back(by[i]);
	std::reverse(path.begin(), path.end());
	return path;
}

static void print_path(const vector<Choice> &path, const string &title)
{
	printf("%s; a shortest order, of %zu steps:\n", title.c_str(), path.size());
	load(first_state);
	for (Choice c : path) {
		go(c);
		print_step(c);
	}
	printf("  then: %s%s%s\n", words_text().c_str(), broken.empty() ? "" : "; ", broken.c_str());
}

#ifdef WITH_MACHINE
static bool has_schedule()
{
	bool begins_open = !path_option("waiting") && !path_option("stopped");
	return begins_open && path_children() == 1 && !path_has_bulk() && !path_has_control() && path_quota == 64 && options.model == SEQUENTIAL;
}

// Brings the machine to its end: each seat ends its call, soft interrupts and wakes come.
static void finish_schedule()
{
	Machine &m = machine.of[0];
	for (int round = 0; round < 1000; round++) {
		bool moved = false;
		for (int t = 0; t < seat_count; t++) {
			MachineSeat &s = m.seats[t];
			if (s.at == lq::IDLE && s.raised) {
				s.raised = 0;
				begins(0, t, lq::INTERRUPT, " softirq");
			}
			for (; s.at != lq::IDLE; moved = true)
				move(0, t, s.at == lq::PUT && m.q.ring[s.band].held >= m.q.len ? lq::FULL : lq::PLAIN);
			moved |= s.raised;
		}
		if (!moved && !m.q.xoff[0])
			return;
		if (!moved) {
			schedule_line("0 wake");
			m.seats[0].at = lq::WAKE, m.seats[0].how = lq::WAKER;
		}
	}
}

// The same order as a schedule of the machine, as far as it goes, and on to the end.
static void print_schedule(const vector<Choice> &path)
{
	if (!has_schedule()) {
		printf("No schedule: it has one queue, one discipline, the quota of 64, no control, an open queue without packets at first, and sequentially consistent steps.\n");
		return;
	}
	load(first_state);
	schedule.wanted = true;
	string said;
	for (size_t i = 0; i < path.size() && said.empty(); i++) {
		go(path[i]);
		said = follow(path[i]);
	}
	schedule_steps();
	if (!said.empty())
		schedule.lines.push_back("# here the text parts from the machine: " + said);
	finish_schedule();
	schedule_steps();
	view v{};
	load(first_state);
	path_view(0, &v);
	printf("As a schedule of the machine:\nseats %d len %d bypass %d\n", seat_count, v.len, path_bypass());
	for (auto &line : schedule.lines)
		printf("%s\n", line.c_str());
	printf("end of the schedule\n");
}

// What the last step does that the machine doesn't, or nothing.
static string parts_from_machine(Choice c)
{
	string said = options.compare ? follow(c) : "";
	if (options.compare && said.empty() && path_children() == 1)
		reached.add(key_of(beside()));
	return said;
}

static void report_machine()
{
	if (!options.compare)
		return;
	printf("Each operation was a step of the machine or one of these, and after each step the words were the same.\n");
	report_steps();
	if (path_children() == 1 && !path_has_control()) {
		load(first_state);
		report_machine_alone(beside());
	}
}

static void init_machine()
{
	if (options.model || options.fine > 1 || path_has_bulk())
		options.compare = 0;
	bounds = {path_option("sends"), path_option("total"), path_option("bands"), path_option("wakes"), path_option("stops"), path_option("busy")};
	machine_init();
	reached.add(key_of(beside()));
}
#else
static void print_schedule(const vector<Choice> &) {}
static string parts_from_machine(Choice) { return ""; }
static string machine_text() { return ""; }
static void report_machine() {}
static void init_machine() {}
#endif

static int goes_wrong(uint32_t id, const Choice *last, const string &title)
{
	auto path = path_to(id, last);
	print_path(path, title);
	print_schedule(path);
	return GOES_WRONG;
}

// What is wrong with the state that a step came to; empty where nothing is.
static string judge()
{
	int left = left_behind();
	if (left)
		return to_string(left) + (left == 1 ? " packet is " : " packets are ") + world_left_text();
	return is_stuck(choices()) ? "no seat can go on, and one is in a call" : "";
}

class Search {
	typedef pair<string, uint32_t> State;
	Keys seen;
	vector<State> level, next;

	// After a step that went well: beside the machine, and whether the state is new. Returns a verdict where the search ends.
	int came(uint32_t from, Choice c)
	{
		string differs = parts_from_machine(c);
		if (!differs.empty()) {
			print_path(path_to(from, &c), "DIFFERS: " + differs);
			printf("  the machine: %s\n", machine_text().c_str());
			return DIFFERS;
		}
		string state = save();
		if (!seen.add(key_of(state)))
			return HOLDS;
		parent.push_back(from);
		by.push_back(c);
		uint32_t id = parent.size() - 1;
		string wrong = judge();
		if (!wrong.empty())
			return goes_wrong(id, nullptr, "WRONG: " + wrong);
		next.push_back({std::move(state), id});
		if ((long)seen.count <= options.most)
			return HOLDS;
		printf("not decided: stopped after %zu states, %d steps deep; nothing was wrong so far\n", seen.count, depth);
		return NOT_DECIDED;
	}

	int expand(const State &state)
	{
		load(state.first);
		auto may = choices();
		ends += may.empty();
		for (Choice c : may) {
			load(state.first);
			edges++;
			if (!go(c))
				return goes_wrong(state.second, &c, "WRONG: " + string(broken));
			if (int verdict = came(state.second, c))
				return verdict;
		}
		return HOLDS;
	}

public:
	long edges = 0, ends = 0;
	int depth = 0;
	Search()
	{
		seen.add(key_of(first_state));
		parent.push_back(0);
		by.push_back({0, 0});
		level.push_back({first_state, 0});
	}
	size_t states() const { return seen.count; }
	int run()
	{
		for (; !level.empty(); depth++) {
			next.clear();
			for (auto &state : level)
				if (int verdict = expand(state))
					return verdict;
			level.swap(next);
		}
		return HOLDS;
	}
};

static int search()
{
	double began = seconds();
	Search it;
	int verdict = it.run();
	if (verdict == HOLDS)
		printf("nothing goes wrong: %zu states, %ld steps between them, %ld ends, at most %d steps in an order, memory %s, %.1f s\n", it.states(), it.edges, it.ends,
		       it.depth - 1, model_names[options.model], seconds() - began);
	else if (verdict != NOT_DECIDED)
		printf("  found after %zu states, %.1f s\n", it.states(), seconds() - began);
	if (verdict == HOLDS)
		report_machine();
	if (!unnamed.empty()) {
		printf("Words without a name that were used, by their place:");
		for (int place : unnamed)
			printf(" %d", place);
		printf("\n");
	}
	return verdict;
}

// Orders at random, of more seats and packets than a search has time for. A seat goes on for a while before another does.
static int walks()
{
	uint64_t random = options.seed * 0x9e3779b97f4a7c15ull + 1;
	auto below = [&](uint64_t n) { random ^= random << 13, random ^= random >> 7, random ^= random << 17; return (random >> 11) % n; };
	double began = seconds();
	long steps = 0;
	for (long walk = 0; walk < options.walks; walk++) {
		load(first_state);
		string wrong;
		vector<Choice> path;
		int last = 0, stay = 1 + below(6);
		for (auto may = choices(); !may.empty() && wrong.empty(); may = choices(), steps++) {
			Choice c = may[below(may.size())];
			for (int tries = 0; below(stay) && tries < 8 && c.seat != last; tries++)
				c = may[below(may.size())];
			last = c.seat;
			path.push_back(c);
			wrong = go(c) ? judge() : broken;
			string differs = wrong.empty() ? parts_from_machine(c) : "";
			if (!differs.empty()) {
				print_path(path, "DIFFERS: " + differs);
				return DIFFERS;
			}
		}
		if (!wrong.empty()) {
			print_path(path, "WRONG: " + wrong + "; not");
			return GOES_WRONG;
		}
	}
	printf("nothing goes wrong: %ld random orders, %ld steps, seed %ld, memory %s, %.1f s\n", options.walks, steps, options.seed, model_names[options.model],
	       seconds() - began);
	return HOLDS;
}

static bool take_option(const string &text)
{
	size_t equals = text.find('=');
	string name = text.substr(0, equals);
	char *end;
	long value = equals == string::npos ? 1 : strtol(text.c_str() + equals + 1, &end, 0);
	if (equals != string::npos && (*end || end == text.c_str() + equals + 1))
		return false;
	if (!option_of.count(name))
		return world_option(name.c_str(), value);
	*option_of.at(name) = value;
	return true;
}

int main(int count, char **arguments)
{
	program = arguments[0];
	for (int i = 1; i < count; i++)
		if (!take_option(arguments[i])) {
			fprintf(stderr, "no option of the search: %s\n", arguments[i]);
			return WRONG_WORDS;
		}
	world_init();
	name_words();
	init_machine();
	make_seats();
	first_state = save();
	return options.walks ? walks() : search();
}
