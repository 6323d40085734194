/* A peer to measure beside the program: the same guests under ordinary mutexes.

   peer FUEL [history] < GUEST runs a guest's file (docs/GUIDE.md). Each thread of the guest is a thread
   of the host, each lock a pthread mutex, and nothing is delegated: a thread that wants a lock waits for
   its mutex and runs its section itself. What the two have in common is what the guest sees, and the log:
   each thread keeps its blocks, which end by the rule of docs/GUIDE.md and have stamps of one clock. A
   lock has no journal. SLEEP ends a block and does not wait.

   It prints a report without the lines of the blocks, and with the word history a whole one: that of a
   run in which one worker took each section. So `replay` of the program must accept these lines and print
   the same report, which is how bench peer knows that the peer runs guests as it must. FUEL is that of
   each thread. A file that is no guest is status 3, a want of memory or of threads of the host 5. */
#include <pthread.h>
#include <stdatomic.h>
#include <stdint.h>
#include <stdio.h>
#include <stdlib.h>
#include <string.h>

enum { FILE_BYTES = 1048576, MOST_RANGES = 16, MOST = 32, MOST_HELD = 4, MOST_TURNS = 4096, MOST_SLEPT = 255 };
enum { STACK = 0x7FFFC000, STACK_BYTES = 0x4000 };
enum { EXECUTABLE = 1, WRITABLE = 2 }; /* flags of a program header */
enum { LOCK = 1, UNLOCK = 2, SLEEP = 3, EXIT = 93 }; /* guest calls, by x17 */
enum { ECALL = 0x73, EBREAK = 0x100073 };
enum { NOBODY = -1 };

/* The faults of docs/GUIDE.md, from 1 on. */
enum fault { ILLEGAL = 1, FETCH, TARGET, LOAD, STORE, WIDTH, UNGUARDED, BREAK, BAD_CALL, BAD_LOCK, ORDER, NOT_HELD };

/* How a block ends; WENT where it doesn't. Behind SPENT the thread has ended too. */
enum end { WENT, WANTS, UNLOCKED, SLEPT, CUT, EXITED, FAULTED, SPENT };

struct block {
	uint32_t stamp, pc, held;
	uint16_t turns;
	uint8_t end, number; /* of the lock that it wants or unlocked, or of the fault */
	uint8_t takes;
};

/* Addresses whose bytes stand in one piece. Of a guard's bytes it says which lock opens it. */
struct place {
	uint32_t start, length;
	uint8_t *bytes;
	int lock, flags;
};

struct range {
	uint32_t start, length;
	uint8_t *bytes;
	int flags;
};

/* A lock with its guard. All but the guard's place is looked at under the mutex alone. */
struct lock {
	pthread_mutex_t mutex;
	uint32_t start, length, sections;
	int broken;
	uint8_t *bytes;
};

struct thread {
	uint32_t x[32], pc, fuel, held;
	const uint8_t *next; /* the word at pc, or NULL where there is no code */
	struct place *code, *last; /* the places of the last instruction and of the last access */
	enum end end;
	enum fault fault;
	struct block *blocks;
	size_t count, room;
	int places;
	struct place place[MOST_RANGES + 2 * MOST + 1]; /* by address: ranges, cut by guards, and the stack */
	uint8_t stack[STACK_BYTES];
	pthread_t host;
};

static struct range ranges[MOST_RANGES];
static struct lock locks[MOST];
static struct thread *threads[MOST];
static int range_count, lock_count, thread_count;
static atomic_uint stamps;

static void stop(int status, const char *why)
{
	fprintf(stderr, "peer: %s\n", why);
	exit(status);
}

static void *memory(void *given)
{
	if (given == NULL)
		stop(5, "memory was refused");
	return given;
}

static uint32_t word_at(const uint8_t *bytes)
{
	uint32_t word; /* both the guest and the hosts that this is for are little-endian */
	memcpy(&word, bytes, 4);
	return word;
}

/* Where an address lies, or NULL. The place that is known is tried first. */
static struct place *place_of(struct thread *thread, struct place *known, uint32_t address)
{
	if (address - known->start < known->length)
		return known;
	int from = 0, to = thread->places;
	while (to - from > 1) {
		int middle = (from + to) / 2;
		if (thread->place[middle].start <= address)
			from = middle;
		else
			to = middle;
	}
	known = &thread->place[from];
	return address - known->start < known->length ? known : NULL;
}

/* The bytes from an address on, where so many stand in one place; else NULL. */
static uint8_t *bytes_of(struct place *place, uint32_t address, uint32_t width)
{
	if (place == NULL || place->length - (address - place->start) < width)
		return NULL;
	return place->bytes + (address - place->start);
}

/* Looks for the word at pc. */
static void look_ahead(struct thread *thread)
{
	struct place *place = place_of(thread, thread->code, thread->pc);
	thread->next = NULL;
	if (place != NULL && place->flags & EXECUTABLE) {
		thread->code = place;
		thread->next = bytes_of(place, thread->pc, 4);
	}
}

/* Why a LOCK faults, or 0. */
static enum fault lock_fault(struct thread *thread, uint32_t lock)
{
	if (lock >= (uint32_t)lock_count || __builtin_popcount(thread->held) >= MOST_HELD)
		return BAD_LOCK;
	return thread->held >> lock ? ORDER : 0;
}

static enum fault unlock_fault(struct thread *thread, uint32_t lock)
{
	if (lock >= (uint32_t)lock_count)
		return BAD_LOCK;
	return thread->held >> lock & 1 ? 0 : NOT_HELD;
}

/* The lock that the next turn takes, or NOBODY. */
static int next_lock(struct thread *thread)
{
	if (thread->next == NULL || word_at(thread->next) != ECALL || thread->x[17] != LOCK || thread->fuel == 0)
		return NOBODY;
	return lock_fault(thread, thread->x[10]) ? NOBODY : (int)thread->x[10];
}

static enum end faulted(struct thread *thread, enum fault fault)
{
	thread->fault = fault;
	return FAULTED;
}

/* Keeps a value in rd, where that is not x0, and goes on behind the instruction. */
static enum end set(struct thread *thread, unsigned rd, uint32_t value)
{
	if (rd != 0)
		thread->x[rd] = value;
	thread->pc += 4;
	return WENT;
}

/* Goes on at another address, and keeps in rd where it would have gone on. */
static enum end jump(struct thread *thread, unsigned rd, uint32_t target)
{
	if (target % 4 != 0)
		return faulted(thread, TARGET);
	set(thread, rd, thread->pc + 4);
	thread->pc = target;
	return WENT;
}

/* How far a JAL and a branch go. */
static uint32_t jal_offset(uint32_t word)
{
	uint32_t sign = (uint32_t)((int32_t)word >> 31);
	return (sign << 20) | (word & 0xFF000) | (word >> 9 & 0x800) | (word >> 20 & 0x7FE);
}

static uint32_t branch_offset(uint32_t word)
{
	uint32_t sign = (uint32_t)((int32_t)word >> 31);
	return (sign << 12) | (word << 4 & 0x800) | (word >> 20 & 0x7E0) | (word >> 7 & 0x1E);
}

/* Whether a branch is taken; -1 where there is no such branch. */
static int is_taken(unsigned kind, uint32_t a, uint32_t b)
{
	switch (kind) {
	case 0: return a == b;
	case 1: return a != b;
	case 4: return (int32_t)a < (int32_t)b;
	case 5: return (int32_t)a >= (int32_t)b;
	case 6: return a < b;
	case 7: return a >= b;
	default: return -1;
	}
}

/* RV32I's operations on two numbers; the other one is SUB or SRA. */
static uint32_t operation(unsigned kind, int other, uint32_t a, uint32_t b)
{
	switch (kind) {
	case 0: return other ? a - b : a + b;
	case 1: return a << (b & 31);
	case 2: return (int32_t)a < (int32_t)b;
	case 3: return a < b;
	case 4: return a ^ b;
	case 5: return other ? (uint32_t)((int32_t)a >> (b & 31)) : a >> (b & 31);
	case 6: return a | b;
	default: return a & b;
	}
}

/* The operations of the M extension. */
static uint32_t product(unsigned kind, uint32_t a, uint32_t b)
{
	int overflows = a == 0x80000000u && b == 0xFFFFFFFFu;
	switch (kind) {
	case 0: return a * b;
	case 1: return (uint32_t)((int64_t)(int32_t)a * (int32_t)b >> 32);
	case 2: return (uint32_t)((int64_t)(int32_t)a * (int64_t)b >> 32);
	case 3: return (uint32_t)((uint64_t)a * b >> 32);
	case 4: return b == 0 ? 0xFFFFFFFFu : overflows ? a : (uint32_t)((int32_t)a / (int32_t)b);
	case 5: return b == 0 ? 0xFFFFFFFFu : a / b;
	case 6: return b == 0 ? a : overflows ? 0 : (uint32_t)((int32_t)a % (int32_t)b);
	default: return b == 0 ? a : a % b;
	}
}

/* The bytes of an access; NULL where it faults. It faults by LOAD or by STORE where nothing has it. */
static uint8_t *access_to(struct thread *thread, uint32_t address, uint32_t width, enum fault outside)
{
	thread->fault = WIDTH;
	if (address % width != 0)
		return NULL;
	struct place *place = place_of(thread, thread->last, address);
	uint8_t *bytes = bytes_of(place, address, width);
	thread->fault = outside;
	if (bytes == NULL || (outside == STORE && !(place->flags & WRITABLE)))
		return NULL;
	thread->fault = UNGUARDED;
	if (place->lock != NOBODY && !(thread->held >> place->lock & 1))
		return NULL;
	thread->last = place;
	return bytes;
}

/* What a load brings to its register. */
static uint32_t loaded(unsigned kind, const uint8_t *bytes)
{
	uint32_t half = kind & 1 ? (uint32_t)(bytes[0] | bytes[1] << 8) : 0;
	switch (kind) {
	case 0: return (uint32_t)(int8_t)bytes[0];
	case 1: return (uint32_t)(int16_t)half;
	case 2: return word_at(bytes);
	case 4: return bytes[0];
	default: return half;
	}
}

static enum end load(struct thread *thread, unsigned kind, unsigned rd, uint32_t address)
{
	if (kind == 3 || kind > 5)
		return faulted(thread, ILLEGAL);
	const uint8_t *bytes = access_to(thread, address, 1u << (kind & 3), LOAD);
	return bytes == NULL ? FAULTED : set(thread, rd, loaded(kind, bytes));
}

static enum end store(struct thread *thread, unsigned kind, uint32_t value, uint32_t address)
{
	if (kind > 2)
		return faulted(thread, ILLEGAL);
	uint8_t *bytes = access_to(thread, address, 1u << kind, STORE);
	if (bytes == NULL)
		return FAULTED;
	memcpy(bytes, &value, (size_t)1 << kind);
	return set(thread, 0, 0);
}

/* Waits for a lock's mutex. */
static uint32_t take(struct thread *thread, uint32_t number)
{
	struct lock *lock = &locks[number];
	pthread_mutex_lock(&lock->mutex);
	lock->sections++;
	thread->held |= 1u << number;
	return (uint32_t)lock->broken;
}

/* ECALL. A lock that is unlocked is told; its mutex is given back when the block has its stamp. */
static enum end guest_call(struct thread *thread, uint8_t *lock)
{
	uint32_t argument = thread->x[10], answer = 0;
	enum fault fault = 0;
	enum end end = WENT;
	switch (thread->x[17]) {
	case LOCK:
		fault = lock_fault(thread, argument);
		if (!fault)
			answer = take(thread, argument);
		break;
	case UNLOCK:
		fault = unlock_fault(thread, argument);
		*lock = (uint8_t)argument;
		end = UNLOCKED;
		break;
	case SLEEP:
		fault = argument > MOST_SLEPT ? BAD_CALL : 0;
		end = SLEPT;
		break;
	case EXIT:
		return EXITED;
	default:
		fault = BAD_CALL;
	}
	if (fault)
		return faulted(thread, fault);
	if (end == UNLOCKED)
		thread->held &= ~(1u << argument);
	thread->x[10] = answer;
	thread->pc += 4;
	return end;
}

static enum end branch(struct thread *thread, uint32_t word, unsigned kind, uint32_t a, uint32_t b)
{
	switch (is_taken(kind, a, b)) {
	case 0: return set(thread, 0, 0);
	case 1: return jump(thread, 0, thread->pc + branch_offset(word));
	default: return faulted(thread, ILLEGAL);
	}
}

/* An operation with a number of the word. Where it shifts, the number's upper bits are a kind. */
static enum end act_with_number(struct thread *thread, unsigned rd, unsigned kind, unsigned high, uint32_t a, uint32_t number)
{
	if ((kind == 1 && high != 0) || (kind == 5 && high != 0 && high != 32))
		return faulted(thread, ILLEGAL);
	return set(thread, rd, operation(kind, kind == 5 && high == 32, a, number));
}

static enum end act_with_register(struct thread *thread, unsigned rd, unsigned kind, unsigned high, uint32_t a, uint32_t b)
{
	if (high == 1)
		return set(thread, rd, product(kind, a, b));
	if (high != 0 && !(high == 32 && (kind == 0 || kind == 5)))
		return faulted(thread, ILLEGAL);
	return set(thread, rd, operation(kind, high == 32, a, b));
}

/* One instruction of RV32IM. */
static enum end act(struct thread *thread, uint32_t word, uint8_t *lock)
{
	unsigned rd = word >> 7 & 31, kind = word >> 12 & 7, high = word >> 25;
	uint32_t a = thread->x[word >> 15 & 31], b = thread->x[word >> 20 & 31];
	uint32_t number = (uint32_t)((int32_t)word >> 20);
	switch (word & 127) {
	case 0x37: /* LUI */
		return set(thread, rd, word & 0xFFFFF000);
	case 0x17: /* AUIPC */
		return set(thread, rd, thread->pc + (word & 0xFFFFF000));
	case 0x6F: /* JAL */
		return jump(thread, rd, thread->pc + jal_offset(word));
	case 0x67: /* JALR */
		return kind == 0 ? jump(thread, rd, (a + number) & ~1u) : faulted(thread, ILLEGAL);
	case 0x63:
		return branch(thread, word, kind, a, b);
	case 0x03:
		return load(thread, kind, rd, a + number);
	case 0x23:
		return store(thread, kind, b, a + ((number & ~31u) | rd));
	case 0x13:
		return act_with_number(thread, rd, kind, high, a, number);
	case 0x33:
		return act_with_register(thread, rd, kind, high, a, b);
	case 0x0F: /* FENCE */
		return kind == 0 ? set(thread, 0, 0) : faulted(thread, ILLEGAL);
	case ECALL:
		if (word == ECALL)
			return guest_call(thread, lock);
		return faulted(thread, word == EBREAK ? BREAK : ILLEGAL);
	default:
		return faulted(thread, ILLEGAL);
	}
}

/* One turn, and the look for what comes next. */
static enum end turn(struct thread *thread, uint8_t *lock)
{
	if (thread->fuel == 0)
		return SPENT;
	thread->fuel--;
	if (thread->next == NULL)
		return faulted(thread, FETCH);
	enum end end = act(thread, word_at(thread->next), lock);
	look_ahead(thread);
	return end;
}

/* Runs turns up to the end of a block. */
static struct block run_block(struct thread *thread)
{
	int taken = next_lock(thread);
	struct block block = { .pc = thread->pc, .held = thread->held, .takes = taken != NOBODY };
	if (taken != NOBODY)
		block.held |= 1u << taken;
	enum end end;
	do {
		end = turn(thread, &block.number);
		block.turns++;
		int wanted = end == WENT ? next_lock(thread) : NOBODY;
		if (wanted != NOBODY) {
			end = WANTS;
			block.number = (uint8_t)wanted;
		} else if (end == WENT && block.turns == MOST_TURNS) {
			end = CUT;
		}
	} while (end == WENT);
	if (end == FAULTED)
		block.number = (uint8_t)thread->fault;
	block.end = (uint8_t)end;
	return block;
}

/* Puts a block into the log. Its locks are held still, so the stamps of a lock's blocks rise. */
static void keep(struct thread *thread, struct block block)
{
	if (thread->count == thread->room) {
		thread->room = thread->room ? 2 * thread->room : 64;
		thread->blocks = memory(realloc(thread->blocks, thread->room * sizeof block));
	}
	block.stamp = atomic_fetch_add(&stamps, 1);
	thread->blocks[thread->count++] = block;
}

/* Gives the locks back that a thread had at its end, as broken ones. */
static void break_locks(struct thread *thread)
{
	for (int number = 0; number < lock_count; number++)
		if (thread->held >> number & 1) {
			locks[number].broken = 1;
			pthread_mutex_unlock(&locks[number].mutex);
		}
}

static void *run(void *given)
{
	struct thread *thread = given;
	look_ahead(thread);
	do {
		struct block block = run_block(thread);
		keep(thread, block);
		thread->end = block.end;
		if (thread->end == UNLOCKED)
			pthread_mutex_unlock(&locks[block.number].mutex);
	} while (thread->end < EXITED);
	break_locks(thread);
	return NULL;
}

/* Text on its way to standard output. */
static char text[65536];
static size_t text_length;

static void flush_text(void)
{
	if (fwrite(text, 1, text_length, stdout) != text_length)
		stop(4, "standard output failed");
	text_length = 0;
}

static void put(const char *part)
{
	while (*part)
		text[text_length++] = *part++;
}

static void put_number(uint32_t number)
{
	char digits[10];
	int count = 0;
	do
		digits[count++] = (char)('0' + number % 10);
	while (number /= 10);
	while (count > 0)
		text[text_length++] = digits[--count];
}

/* The low digits of a number, so many. */
static void put_hex(uint32_t number, int digits)
{
	while (digits-- > 0)
		text[text_length++] = "0123456789abcdef"[number >> 4 * digits & 15];
}

/* A text and a number; here there is always room for a line more. */
static void put_with(const char *part, uint32_t number)
{
	if (text_length > sizeof text - 1024)
		flush_text();
	put(part);
	put_number(number);
}

static void put_held(uint32_t held)
{
	const char *between = " held ";
	if (held == 0)
		put(" held -");
	for (; held != 0; held &= held - 1, between = ",")
		put_with(between, (uint32_t)__builtin_ctz(held));
}

static void put_end(enum end end, uint32_t number)
{
	static const char *const words[] = { "", "wants ", "unlocked ", "slept", "cut", "exit", "fault ", "spent" };
	put(words[end]);
	if (end == WANTS || end == UNLOCKED || end == FAULTED)
		put_number(number);
}

static void put_block(uint32_t thread, const struct block *block, int is_first)
{
	put_with("block ", block->stamp);
	put_with(" thread ", thread);
	put_with(" turns ", block->turns);
	put_held(block->held);
	put(block->takes ? " kind taken" : is_first ? " kind start" : " kind on");
	put(" worker 0 pc ");
	put_hex(block->pc, 8);
	put(" end ");
	put_end(block->end, block->number);
	put("\n");
}

/* The blocks of all threads in the order of their stamps: each is the next one of its thread. */
static void put_history(void)
{
	uint8_t *owners = memory(malloc((size_t)stamps + 1));
	size_t next[MOST] = { 0 };
	for (int number = 0; number < thread_count; number++)
		for (size_t i = 0; i < threads[number]->count; i++)
			owners[threads[number]->blocks[i].stamp] = (uint8_t)number;
	for (uint32_t stamp = 0; stamp < stamps; stamp++) {
		uint32_t owner = owners[stamp];
		put_block(owner, &threads[owner]->blocks[next[owner]], next[owner] == 0);
		next[owner]++;
	}
	free(owners);
}

static void put_thread(uint32_t number)
{
	struct thread *thread = threads[number];
	put_with("thread ", number);
	put(" ");
	put_end(thread->end, thread->fault);
	put_with(" fuel ", thread->fuel);
	put(" pc ");
	put_hex(thread->pc, 8);
	for (uint32_t i = 0; i < 32; i++) {
		if (i % 8 == 0)
			put_with("\nx", i);
		put(" ");
		put_hex(thread->x[i], 8);
	}
	put("\n");
}

static void put_lock(uint32_t number)
{
	struct lock *lock = &locks[number];
	put_with("lock ", number);
	put_with(" sections ", lock->sections);
	put_with(" broken ", (uint32_t)lock->broken);
	put_with(" bytes ", lock->length);
	for (uint32_t i = 0; i < lock->length; i++) {
		if (i % 32 == 0) {
			if (text_length > sizeof text - 1024)
				flush_text();
			put("\ndata ");
			put_hex(lock->start + i, 8);
			put(" ");
		}
		put_hex(lock->bytes[i], 2);
	}
	put("\n");
}

static void put_report(uint32_t fuel, int with_history)
{
	put_with("tclocks 2\nguest threads ", (uint32_t)thread_count);
	put_with(" guards ", (uint32_t)lock_count);
	put_with("\nrun workers 1 fuel ", fuel);
	put(" batch 0\n");
	if (with_history)
		put_history();
	for (int number = 0; number < thread_count; number++)
		put_thread((uint32_t)number);
	for (int number = 0; number < lock_count; number++)
		put_lock((uint32_t)number);
	put("end\n");
	flush_text();
}

/* The file, with zeros behind it. What is read past its end is refused. */
static uint8_t file[FILE_BYTES + 4];
static size_t file_length;

static uint32_t field(size_t at)
{
	if (at + 4 > file_length)
		stop(3, "this is no guest");
	return word_at(file + at);
}

/* So many bytes of the file. */
static const uint8_t *part(uint32_t offset, uint32_t length)
{
	if (offset > file_length || length > file_length - offset)
		stop(3, "this is no guest");
	return file + offset;
}

/* A PT_LOAD at this place of the file. */
static void load_range(size_t header)
{
	uint32_t given = field(header + 16), length = field(header + 20);
	if (length == 0)
		return;
	if (range_count == MOST_RANGES || given > length || length > FILE_BYTES)
		stop(3, "this is no guest");
	struct range *range = &ranges[range_count++];
	*range = (struct range){ field(header + 8), length, memory(calloc(1, length)), (int)field(header + 24) };
	memcpy(range->bytes, part(field(header + 4), given), given);
}

static struct thread *new_thread(uint32_t number, uint32_t entry, uint32_t argument)
{
	struct thread *thread = memory(calloc(1, sizeof *thread));
	thread->pc = entry;
	thread->x[2] = (uint32_t)STACK + STACK_BYTES;
	thread->x[10] = argument;
	thread->x[11] = number;
	return thread;
}

/* The note on threads and guards, from the words behind its name on. */
static void load_note(size_t at)
{
	uint32_t count = field(at + 4), guards = field(at + 8);
	if (count < 1 || count > MOST || guards > MOST)
		stop(3, "this is no guest");
	thread_count = (int)count;
	lock_count = (int)guards;
	at += 12;
	for (uint32_t number = 0; number < count; number++, at += 8)
		threads[number] = new_thread(number, field(at), field(at + 4));
	for (uint32_t number = 0; number < guards; number++, at += 8) {
		locks[number].start = field(at);
		locks[number].length = field(at + 4);
	}
}

/* The notes of a PT_NOTE, one behind the other. */
static void load_notes(size_t header)
{
	size_t at = field(header + 4), end = at + field(header + 16);
	part((uint32_t)at, (uint32_t)(end - at));
	while (at + 12 <= end) {
		uint32_t name = field(at), length = field(at + 4), type = field(at + 8);
		size_t words = at + 12 + (((size_t)name + 3) & ~(size_t)3);
		if (name == 8 && type == 1 && memcmp(part((uint32_t)at + 12, 8), "TCLOCKS", 8) == 0)
			load_note(words);
		at = words + (((size_t)length + 3) & ~(size_t)3);
	}
}

static void load_file(void)
{
	file_length = fread(file, 1, FILE_BYTES, stdin);
	uint32_t entry = field(24), headers = field(28), count = field(44) & 0xFFFF;
	if (field(0) != 0x464C457F || count > MOST_RANGES)
		stop(3, "this is no guest");
	for (uint32_t i = 0; i < count; i++) {
		size_t header = (size_t)headers + 32 * i;
		if (field(header) == 1)
			load_range(header);
		if (field(header) == 4)
			load_notes(header);
	}
	if (thread_count == 0) {
		thread_count = 1;
		threads[0] = new_thread(0, entry, 0);
	}
}

/* Gives a lock the bytes that its guard has at the start. */
static void start_lock(struct lock *lock)
{
	for (int i = 0; i < range_count; i++) {
		uint32_t before = lock->start - ranges[i].start;
		if (lock->start >= ranges[i].start && before < ranges[i].length && lock->length <= ranges[i].length - before) {
			lock->bytes = memory(malloc(lock->length + 1));
			memcpy(lock->bytes, ranges[i].bytes + before, lock->length);
		}
	}
	if (lock->bytes == NULL)
		stop(3, "this is no guest");
	if (pthread_mutex_init(&lock->mutex, NULL) != 0)
		stop(5, "a mutex was refused");
}

static void add_place(struct thread *thread, struct place place)
{
	if (place.length > 0)
		thread->place[thread->places++] = place;
}

/* Cuts a guard out of the place in which it lies. */
static void cut_out(struct thread *thread, int number)
{
	struct lock *lock = &locks[number];
	for (int i = 0; i < thread->places; i++) {
		struct place *place = &thread->place[i], whole = *place;
		uint32_t before = lock->start - whole.start;
		if (lock->start < whole.start || before >= whole.length)
			continue;
		if (lock->length > whole.length - before)
			stop(3, "this is no guest");
		*place = (struct place){ lock->start, lock->length, lock->bytes, number, WRITABLE };
		add_place(thread, (struct place){ whole.start, before, whole.bytes, NOBODY, whole.flags });
		add_place(thread, (struct place){ lock->start + lock->length, whole.length - before - lock->length,
						  whole.bytes + before + lock->length, NOBODY, whole.flags });
		return;
	}
}

static int by_start(const void *a, const void *b)
{
	const struct place *one = a, *other = b;
	return (one->start > other->start) - (one->start < other->start);
}

/* Gives a thread its memory: a copy of each writable range, its stack, and what is shared. */
static void start_thread(struct thread *thread, uint32_t fuel)
{
	thread->fuel = fuel;
	for (int i = 0; i < range_count; i++) {
		struct range *range = &ranges[i];
		uint8_t *bytes = range->bytes;
		if (range->flags & WRITABLE)
			bytes = memcpy(memory(malloc(range->length)), bytes, range->length);
		add_place(thread, (struct place){ range->start, range->length, bytes, NOBODY, range->flags });
	}
	for (int number = 0; number < lock_count; number++)
		cut_out(thread, number);
	add_place(thread, (struct place){ STACK, STACK_BYTES, thread->stack, NOBODY, WRITABLE });
	qsort(thread->place, (size_t)thread->places, sizeof *thread->place, by_start);
	thread->code = thread->last = thread->place;
}

int main(int count, char **words)
{
	int with_history = count == 3 && strcmp(words[2], "history") == 0;
	if (count != 2 && !with_history)
		stop(1, "usage: peer FUEL [history] < GUEST");
	uint32_t fuel = (uint32_t)strtoul(words[1], NULL, 10);
	load_file();
	for (int number = 0; number < lock_count; number++)
		start_lock(&locks[number]);
	for (int number = 0; number < thread_count; number++)
		start_thread(threads[number], fuel);
	for (int number = 0; number < thread_count; number++)
		if (pthread_create(&threads[number]->host, NULL, run, threads[number]) != 0)
			stop(5, "a thread was refused");
	for (int number = 0; number < thread_count; number++)
		pthread_join(threads[number]->host, NULL);
	put_report(fuel, with_history);
	return fflush(stdout) == 0 ? 0 : 4;
}
