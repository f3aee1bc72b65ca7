// An order in words: each shared access with the kernel's function, file and line.
#pragma once
#include "states.h"

static string program;

static string value_text(const Op &o, int64_t v)
{
	if (o.word < 0)
		return to_string(v);
	const word &w = words[o.word];
	if (w.is_pointer)
		return v ? "set" : "null";
	string text;
	for (int i = 0; w.bits && w.bits[i]; i++)
		if (v >> i & 1)
			text += (text.empty() ? "" : "+") + string(w.bits[i]);
	return text.empty() ? to_string(v) : text;
}

static string bit_text(const Op &o)
{
	const char *const *bits = o.word < 0 ? nullptr : words[o.word].bits;
	for (int i = 0; bits && bits[i]; i++)
		if (i == o.arg)
			return bits[i];
	return to_string(o.arg);
}

static string place_text(const Op &o)
{
	string text = o.word < 0 ? "a word without a name" : words[o.word].name;
	return o.word >= 0 && words[o.word].is_pointer && words[o.word].size > 8 ? text + "[" + to_string(o.index / 8) + "]" : text;
}

static string text_of(const Op &o)
{
	static const char *const bits[] = {"set", "clear", "test", "test_and_set", "test_and_clear"};
	static const char *const barriers[] = {"smp_mb", "smp_wmb", "smp_rmb", "smp_mb__before_atomic", "smp_mb__after_atomic"};
	char text[MOST_TEXT] = "";
	string w = place_text(o);
	switch (o.kind) {
	case READ: return (o.is_volatile ? "READ_ONCE " : "load ") + w + ": " + value_text(o, o.result);
	case WRITE: return (o.is_volatile ? "WRITE_ONCE " : "store ") + w + " = " + value_text(o, o.arg);
	case SETB: case CLRB: return bits[o.kind - SETB] + ("_bit(" + bit_text(o) + ", " + w + ")");
	case TESTB: case TAS: case TAC: return bits[o.kind - SETB] + ("_bit(" + bit_text(o) + ", " + w + "): ") + to_string(o.result);
	case TRYLOCK: return "spin_trylock(" + w + "): " + (o.result ? "got" : "held");
	case LOOKLOCK: return "looks at " + w + ": " + (o.result ? "held" : "free");
	case LOCK: return "spin_lock(" + w + ")";
	case UNLOCK: return "spin_unlock(" + w + ")";
	case ASK: world_answer_text(o.index, o.arg, o.result, text); return text;
	case CALL: world_call_text(o.call, text); return string(text) + " begins";
	case END: return "the call ends";
	case FLUSH: return "(others see its store to " + w + ")";
	case BARRIER: return barriers[o.arg];
	default: return "";
	}
}

static const char *path_of(const char *location)
{
	for (const char *folder : {"include/", "net/"})
		if (const char *found = strstr(location, folder))
			return found;
	const char *slash = strrchr(location, '/');
	return slash ? slash + 1 : location;
}

// Function, file and line of a place in the code, and of the function that it was inlined into.
static string where(void *pc)
{
	static map<void *, string> known;
	if (!pc)
		return "";
	auto it = known.find(pc);
	if (it != known.end())
		return it->second;
	string text;
	char place[40], function[200], location[400];
	snprintf(place, sizeof place, "%p", (char *)pc - 1); // within the call, not behind it
	string command = "addr2line -f -i -e '" + program + "' " + place;
	FILE *f = popen(command.c_str(), "r");
	for (int depth = 0; f && depth < 2 && fgets(function, sizeof function, f) && fgets(location, sizeof location, f); depth++) {
		function[strcspn(function, "\n")] = 0, location[strcspn(location, " \n")] = 0;
		text += (depth ? " in " : "") + string(function) + " " + path_of(location);
	}
	if (f)
		pclose(f);
	return known[pc] = text;
}

// What an order has of a step: shared accesses, calls and answers.
static bool is_told(const Op &o) { return o.word == -1 ? o.kind != READ && o.kind != WRITE : kind_of(o) == SHARED; }

static void print_step(Choice c)
{
	for (auto &o : stepped)
		if (is_told(o))
			printf("  seat %d  %-52s %s\n", c.seat, text_of(o).c_str(), where(o.pc).c_str());
}

static string words_text()
{
	char text[MOST_TEXT] = "";
	world_text(text);
	return text;
}
