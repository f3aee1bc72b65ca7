/* What a world gives to the search, and what the search gives to it.
 *
 * A world is a C text whose shared accesses are searched in every order: its bytes, the names of its words, the calls that a seat may begin, and
 * what is asked when nobody comes any more. A seat plays the part of a processor. */
#ifndef INSIDE_WORLD_H
#define INSIDE_WORLD_H

enum { MOST_SEATS = 4, MOST_WORDS = 160, MOST_STARTS = 24, MOST_ANSWERS = 4, MOST_TEXT = 200 };

/* who uses a word: several seats at once; the holder of a lock alone; the seat that may; all, and it doesn't change; nobody */
enum word_kind { SHARED = 1, GUARDED, OWN, CONSTANT, NEVER };

struct word {
	const char *name;
	int offset, size;
	enum word_kind kind;
	int guard;                /* of a GUARDED word: the place of its lock among the words */
	const char *const *bits;  /* the names of its bits, the last one NULL */
	int is_pointer, child;    /* child: the queueing discipline whose word it is, or -1 */
};

/* a question from A_WAIT on is a wait, whose answer 0 says that it is over: then all sees what the calls that have ended stored */
enum { A_WAIT = 64 };

/* a call that a seat may begin; what `a` and `b` are is the world's */
struct start { int call, a, b; };

/* given by a world */
int world_option(const char *name, long value);   /* 0: there is no such option */
int world_seats(void);
int world_size(void);
int world_words(struct word *words);
void world_init(void);
int world_starts(int seat, struct start *starts); /* what an idle seat may begin now */
void world_begin(int seat, struct start it);      /* it begins: what that leaves to begin */
void world_run(int seat, struct start it);        /* the call, on the seat's own stack */
int world_answers(int seat, int question, int about, int *answers);
void world_answered(int seat, int question, int about, int answer);
int world_alone(void);                            /* the seat that may use guarded words without their lock, or -1 */
int world_left(void);                             /* all seats are idle: how many packets are left where nobody comes for them */
const char *world_left_text(void);
void world_call_text(struct start it, char *text);
void world_answer_text(int question, int about, int answer, char *text);
void world_text(char *text);                      /* the words, at the end of an order */

/* given by the search */
int ask(int question, int about);                 /* an answer of world_answers, each in an order of its own */
void wrong(const char *what);                     /* what no order may come to */
int seat_now(void);

#endif
