/* What the jobs in C share: the packets of a capture of little-endian microseconds, and the files that tell of them. */

enum { FILE_HEADER = 24, RECORD_HEADER = 16, MAX_FRAME = 262144, PIECE = 65536 };

struct packet {
	uint32_t place, len;
	uint8_t band;
};

static struct packet *packets;
static uint32_t count;
static uint8_t *capture;
static size_t capture_len;

/* What a job needs of a frame. */
static void classify(struct packet *p, const uint8_t *frame, uint32_t len);

static double seconds(void)
{
	struct timespec t;

	clock_gettime(CLOCK_MONOTONIC, &t);
	return t.tv_sec + t.tv_nsec * 1e-9;
}

static void die(int status, const char *what)
{
	fprintf(stderr, "%s\n", what);
	exit(status);
}

static void *have(void *p)
{
	if (!p)
		die(6, "no memory");
	return p;
}

static void read_capture(const char *name)
{
	FILE *file = fopen(name, "rb");

	if (!file || fseek(file, 0, SEEK_END))
		die(5, name);
	capture_len = ftell(file);
	rewind(file);
	setvbuf(file, NULL, _IONBF, 0);
	capture = have(malloc(capture_len));
	if (fread(capture, 1, capture_len, file) != capture_len)
		die(5, name);
	fclose(file);
}

static void read_packets(void)
{
	uint32_t room = 1024, len;
	size_t place = FILE_HEADER;

	packets = have(malloc(room * sizeof(*packets)));
	for (; place + RECORD_HEADER <= capture_len; place += RECORD_HEADER + len) {
		memcpy(&len, capture + place + 8, sizeof(len));
		if (len > MAX_FRAME || place + RECORD_HEADER + len > capture_len)
			die(4, "no capture");
		if (count == room)
			packets = have(realloc(packets, (room *= 2) * sizeof(*packets)));
		packets[count].place = place;
		packets[count].len = RECORD_HEADER + len;
		classify(&packets[count++], capture + place + RECORD_HEADER, len);
	}
}

static FILE *create(const char *out, const char *suffix)
{
	char name[4096];
	FILE *file;

	snprintf(name, sizeof(name), "%s%s", out, suffix);
	file = fopen(name, "wb");
	if (!file)
		die(5, name);
	setvbuf(file, NULL, _IOFBF, 65536);
	return file;
}

/* A capture of these packets. */
static void write_packets(const char *out, const char *suffix, const uint32_t *numbers, uint32_t many)
{
	FILE *file = create(out, suffix);

	fwrite(capture, 1, FILE_HEADER, file);
	for (uint32_t i = 0; i < many; i++)
		fwrite(capture + packets[numbers[i]].place, 1, packets[numbers[i]].len, file);
	if (fclose(file))
		die(5, "the capture");
}

static char *put_number(char *at, uint64_t n)
{
	char digits[20];
	int first = sizeof(digits);

	do
		digits[--first] = '0' + n % 10;
	while (n /= 10);
	memcpy(at, digits + first, sizeof(digits) - first);
	return at + sizeof(digits) - first;
}

/* The text of the fates: put_fate writes what stands behind the packet's number. */
static void write_fates(const char *out, char *(*put_fate)(char *at, uint32_t n))
{
	static char text[PIECE + 64];
	char *at = text;
	FILE *file = create(out, ".fates");

	for (uint32_t n = 0; n < count; n++) {
		at = put_fate(put_number(at, n), n);
		*at++ = '\n';
		if (at >= text + PIECE) {
			fwrite(text, 1, at - text, file);
			at = text;
		}
	}
	fwrite(text, 1, at - text, file);
	if (fclose(file))
		die(5, "the fates");
}

/* Runs threads from a number up to an end, beside them the caller's own part, and behind them what is left; tells how many seconds that took. */
static void run_threads(uint32_t first, uint32_t end, void *(*run)(void *), void *(*own)(void *), void (*behind)(void))
{
	pthread_t threads[64];
	double start = seconds();

	for (uint32_t i = first; i < end; i++)
		if (pthread_create(&threads[i], NULL, run, (void *)(uintptr_t)i))
			die(6, "no thread");
	own(NULL);
	for (uint32_t i = first; i < end; i++)
		pthread_join(threads[i], NULL);
	if (behind)
		behind();
	fprintf(stderr, "%.6f\n", seconds() - start);
}
