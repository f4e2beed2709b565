/*
 * Secure monitor calls, handed to the core by the conversation. The core has a RAM for each processor, the driver one for all: what
 * stands in it is written to the processor's RAM before each entry, and what an exit wrote there is taken into it.
 */
#include "tasks.h"
#include "ram.h"
#include <linux/arm-smccc.h>

#define CALL_RETURN_FROM_RPC 0x32000003u
#define YIELDING 0x32000000u
#define ANSWER_OK 0u
#define ANSWER_ALLOC 0xffff0000u
#define ANSWER_FREE 0xffff0002u
#define ANSWER_CMD 0xffff0005u
#define EXCHANGE 0xb2000009u

static const struct world *world;
static unsigned char *mirror[PROCESSORS];  /* what the core has in each RAM */
static unsigned int made;

/* ---- Counts */

enum { KINDS = 64 };
static struct kind { u32 number; unsigned int count; } functions[KINDS], answers[KINDS];

static void count_one(struct kind *kinds, u32 number)
{
	int i = 0;

	while (i < KINDS && kinds[i].count && kinds[i].number != number)
		i++;
	if (i == KINDS)
		stop("too many kinds of calls");
	kinds[i].number = number;
	kinds[i].count++;
}

static unsigned int count_of(const struct kind *kinds, u32 number)
{
	for (int i = 0; i < KINDS; i++)
		if (kinds[i].count && kinds[i].number == number)
			return kinds[i].count;
	return 0;
}

unsigned int calls_made(void)
{
	return made;
}

unsigned int calls_of(unsigned int function)
{
	return count_of(functions, function);
}

unsigned int calls_answered(unsigned int a0)
{
	return count_of(answers, a0);
}

/* ---- Lines */

static char line[100000];

static void say(const char *format, ...)
{
	va_list args;
	int size;

	va_start(args, format);
	size = vsnprintf(line, sizeof(line), format, args);
	va_end(args);
	talk_say(line, size);
}

static void hear_ok(void)
{
	const char *answer = talk_hear();

	if (strcmp(answer, "ok"))
		stop("the conversation answers: %s", answer);
}

static void tell(const char *format, ...)
{
	va_list args;
	int size;

	va_start(args, format);
	size = vsnprintf(line, sizeof(line), format, args);
	va_end(args);
	talk_say(line, size);
	hear_ok();
}

static int digit_of(char c)
{
	return c <= '9' ? c - '0' : c - 'a' + 10;
}

static u32 number_at(const char **text)
{
	u32 number = 0;

	while (**text == ' ')
		(*text)++;
	while (**text && **text != ' ')
		number = number << 4 | digit_of(*(*text)++);
	return number;
}

/* ---- RAM */

static void say_bytes(int cpu, unsigned long from, unsigned long to)
{
	static const char digits[] = "0123456789abcdef";
	const unsigned char *ram = (const unsigned char *)RAM_AT;
	int size = scnprintf(line, sizeof(line), "write %d %lx ", cpu, RAM_PHYSICAL + from);

	for (unsigned long i = from; i < to; i++) {
		line[size++] = digits[ram[i] >> 4];
		line[size++] = digits[ram[i] & 15];
	}
	talk_say(line, size);
}

/* The runs of bytes in which a page of RAM and of its mirror differ; runs with less than 16 bytes between them are one. */
static int send_page(int cpu, unsigned long page)
{
	const unsigned char *ram = (const unsigned char *)RAM_AT;
	unsigned long at = page, end = page + PAGE_SIZE;
	int said = 0;

	while (at < end) {
		unsigned long last, i;

		while (at < end && ram[at] == mirror[cpu][at])
			at++;
		if (at == end)
			break;
		last = at;
		for (i = at; i < end && i - last < 16; i++)
			if (ram[i] != mirror[cpu][i])
				last = i;
		say_bytes(cpu, at, last + 1);
		said++;
		at = last + 1;
	}
	if (said)
		memcpy(mirror[cpu] + page, ram + page, PAGE_SIZE);
	return said;
}

static void send_ram(int cpu)
{
	for (unsigned long page = 0; page < RAM_SIZE; page += PAGE_SIZE) {
		int said = 0;

		if (memcmp((void *)(RAM_AT + page), mirror[cpu] + page, PAGE_SIZE))
			said = send_page(cpu, page);
		while (said-- > 0)
			hear_ok();
	}
}

/* What is said behind `show`, into bytes. */
static void hear_page(unsigned char *bytes)
{
	const char *answer = talk_hear(), *at = answer;

	for (int blanks = 0; blanks < 3 && *at; at++)
		blanks += *at == ' ';
	if (memcmp(answer, "mem ", 4) || strlen(at) != 2 * PAGE_SIZE)
		stop("the conversation answers: %s", answer);
	for (unsigned long i = 0; i < PAGE_SIZE; i++)
		bytes[i] = digit_of(at[2 * i]) << 4 | digit_of(at[2 * i + 1]);
	hear_ok();
}

/* Takes over what an exit wrote into a page. */
static void take_page(int cpu, unsigned long page)
{
	unsigned char bytes[PAGE_SIZE], *ram = (unsigned char *)RAM_AT;

	hear_page(bytes);
	for (unsigned long i = 0; i < PAGE_SIZE; i++)
		if (bytes[i] != mirror[cpu][page + i])
			ram[page + i] = mirror[cpu][page + i] = bytes[i];
}

static void fetch_ram(int cpu)
{
	for (int frame = 0; frame < RAM_PAGES; frame++)
		if (page_table[frame].in_use)
			say("show %d %lx %lu", cpu, RAM_PHYSICAL + frame * PAGE_SIZE, PAGE_SIZE);
	for (int frame = 0; frame < RAM_PAGES; frame++)
		if (page_table[frame].in_use)
			take_page(cpu, frame * PAGE_SIZE);
}

/* The pages of a processor's RAM that aren't what was written to them and taken from them; they are taken over. */
static unsigned int pages_that_differ(int cpu)
{
	unsigned char bytes[PAGE_SIZE];
	unsigned int count = 0;

	for (unsigned long page = 0; page < RAM_SIZE; page += PAGE_SIZE) {
		say("show %d %lx %lu", cpu, RAM_PHYSICAL + page, PAGE_SIZE);
		hear_page(bytes);
		if (memcmp(bytes, mirror[cpu] + page, PAGE_SIZE)) {
			log_line(LEVEL_INFO, "the core has written to %lx of processor %d", RAM_PHYSICAL + page, cpu);
			memcpy(mirror[cpu] + page, bytes, PAGE_SIZE);
			count++;
		}
	}
	return count;
}

unsigned int stray_pages(void)
{
	unsigned int count = 0;

	for (int cpu = 0; cpu < PROCESSORS; cpu++)
		count += pages_that_differ(cpu);
	return count;
}

/* ---- Calls */

static void leave(int cpu, u32 *answer)
{
	const char *said = talk_hear(), *at = said + 6;

	if (memcmp(said, "ret ", 4) || said[4] != '0' + cpu)
		stop("the conversation answers: %s", said);
	for (int i = 0; i < 8; i++)
		answer[i] = number_at(&at);
	hear_ok();
}

static void enter_and_leave(const u32 *regs, u32 *answer)
{
	int cpu = this_task()->cpu;
	unsigned int steps = world->seed ? 1 + world_random(world->steps) : world->steps;

	send_ram(cpu);
	say("enter %d %u %x %x %x %x %x %x %x %x", cpu, steps, regs[0], regs[1], regs[2], regs[3], regs[4], regs[5],
	    regs[6], regs[7]);
	hear_ok();
	task_goes_inside();
	say("leave %d", cpu);
	leave(cpu, answer);
	if (answer[0] == ANSWER_CMD || (answer[0] == ANSWER_OK && (regs[0] & 0xff000000) == YIELDING))
		fetch_ram(cpu);
}

/* The buffer that a task's call was lent, from its ALLOC to its FREE. */
static void note_buffer(const u32 *regs, const u32 *answer, u32 answered_before)
{
	struct task *task = this_task();

	if (regs[0] == CALL_RETURN_FROM_RPC && answered_before == ANSWER_ALLOC)
		task->lent = (u64)regs[1] << 32 | regs[2];
	if (answer[0] == ANSWER_FREE)
		task->lent = 0;
	task->requests = NULL;
}

static void call_core(const u32 *regs, u32 *answer)
{
	u32 before = this_task()->answered;

	if (this_task()->spinning)
		stop("a secure monitor call while a spin lock is held");
	count_one(functions, regs[0]);
	enter_and_leave(regs, answer);
	made++;
	count_one(answers, answer[0]);
	this_task()->answered = answer[0];
	note_buffer(regs, answer, before);
	if (regs[0] == EXCHANGE)
		answer[1] &= ~world->hidden;
}

void __arm_smccc_smc(unsigned long a0, unsigned long a1, unsigned long a2, unsigned long a3, unsigned long a4,
		     unsigned long a5, unsigned long a6, unsigned long a7, struct arm_smccc_res *res,
		     struct arm_smccc_quirk *quirk)
{
	u32 regs[8] = { a0, a1, a2, a3, a4, a5, a6, a7 }, answer[8];

	if ((a0 | a1 | a2 | a3 | a4 | a5 | a6 | a7) >> 32)
		stop("a call by SMC32 has a register of more than 32 bits");
	if (quirk)
		stop("a call with a quirk");
	call_core(regs, answer);
	*res = (struct arm_smccc_res){ answer[0], answer[1], answer[2], answer[3] };
}

/* The conduit by a hypervisor, which hands each call on. */
void __arm_smccc_hvc(unsigned long a0, unsigned long a1, unsigned long a2, unsigned long a3, unsigned long a4,
		     unsigned long a5, unsigned long a6, unsigned long a7, struct arm_smccc_res *res,
		     struct arm_smccc_quirk *quirk)
{
	__arm_smccc_smc(a0, a1, a2, a3, a4, a5, a6, a7, res, quirk);
}

unsigned char *buffer_of_request(unsigned int id)
{
	struct task *task = task_of_request(id);

	if (!task || !task->lent)
		return NULL;
	return (unsigned char *)RAM_AT + (task->lent - RAM_PHYSICAL);
}

void raise_interrupt(unsigned int irq);

void hardware_signal(unsigned int value)
{
	tell("signal %u", value);
	raise_interrupt(1);
}

/* ---- Begin and end */

static void tell_application(const struct application *application)
{
	static char text[90000];
	char flags[9];

	file_text(application->file, text, sizeof(text));
	/* The flags are the second word of an image, the lowest byte first. */
	snprintf(flags, sizeof(flags), "%02x000000", application->flags);
	if (application->flags >= 0)
		memcpy(text + 8, flags, 8);
	tell("ta %s %s", application->uuid, text);
}

void finish_shared_work(void);
void tasks_begin(unsigned long seed);
void tasks_end(void);

void world_begin(const struct world *made_of)
{
	static char log_path[300], trace_path[300], out_path[300];

	world = made_of;
	if (world->logs) {
		snprintf(log_path, sizeof(log_path), "%s.log", world->logs);
		snprintf(trace_path, sizeof(trace_path), "%s.signals", world->logs);
		snprintf(out_path, sizeof(out_path), "%s.out", world->logs);
		machine_log_to(log_path);
	}
	memory_begin();
	for (int cpu = 0; cpu < PROCESSORS; cpu++)
		mirror[cpu] = memory_map(MIRRORS_AT + cpu * RAM_SIZE, RAM_SIZE);
	tasks_begin(world->seed);
	talk_start(world->program, world->logs ? trace_path : NULL, world->logs ? out_path : NULL);
	tell("boot %d %u %u", PROCESSORS, world->threads, world->frames);
	for (const struct application *application = world->applications; application->uuid; application++)
		tell_application(application);
}

void world_end(void)
{
	finish_shared_work();
	tasks_end();
	if (stray_pages())
		stop("the core has written to pages that nobody had");
	if (talk_end())
		stop("the program of the conversation has failed");
}
