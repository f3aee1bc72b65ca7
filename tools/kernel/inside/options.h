/* The options of a world, which WORLD_OPTIONS lists by their constants and names; sizes.py gives the value of each. */
#define AS_CONSTANT(constant, name) constant,
#define AS_NAME(constant, name) name,
enum { WORLD_OPTIONS(AS_CONSTANT) OPTIONS };
static const char *const option_names[] = {WORLD_OPTIONS(AS_NAME)};
static int option[OPTIONS];
#define OPTION(n) option[n]

PLAIN int world_option(const char *name, long value)
{
	for (int i = 0; i < OPTIONS; i++)
		if (!strcmp(option_names[i], name))
			return option[i] = value, 1;
	return 0;
}
