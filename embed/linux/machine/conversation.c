/* Lines over two pipes to a program, and from it. */
#include "machine.h"
#include <errno.h>
#include <signal.h>
#include <stdio.h>
#include <stdlib.h>
#include <string.h>
#include <sys/wait.h>
#include <unistd.h>

static int to_program = -1, from_program = -1;
static pid_t program_id;
static FILE *trace_file, *out_file;

static char said[60000];
static size_t said_size;
static char heard[1 << 16];
static size_t heard_from, heard_to;
static char *line;
static size_t line_room;

static void start_in_child(const char *program, int input[2], int output[2])
{
	dup2(input[0], 0);
	dup2(output[1], 1);
	close(input[0]);
	close(input[1]);
	close(output[0]);
	close(output[1]);
	execl(program, program, (char *)NULL);
	_exit(127);
}

static FILE *file_to(const char *path)
{
	return path ? fopen(path, "w") : NULL;
}

void talk_start(const char *program, const char *trace, const char *out)
{
	int input[2], output[2];

	signal(SIGPIPE, SIG_IGN);
	if (pipe(input) || pipe(output))
		machine_stop("no pipe");
	program_id = fork();
	if (program_id < 0)
		machine_stop("no process");
	if (program_id == 0)
		start_in_child(program, input, output);
	close(input[0]);
	close(output[1]);
	to_program = input[1];
	from_program = output[0];
	trace_file = file_to(trace);
	out_file = file_to(out);
}

static void flush_said(void)
{
	size_t done = 0;

	while (done < said_size) {
		ssize_t n = write(to_program, said + done, said_size - done);

		if (n < 0 && errno == EINTR)
			continue;
		if (n <= 0)
			machine_stop("the program of the conversation has gone");
		done += (size_t)n;
	}
	said_size = 0;
}

static void add_said(const char *bytes, size_t size)
{
	while (size > 0) {
		size_t part = sizeof(said) - said_size;

		if (part > size)
			part = size;
		memcpy(said + said_size, bytes, part);
		said_size += part;
		bytes += part;
		size -= part;
		if (said_size == sizeof(said))
			flush_said();
	}
}

void talk_say(const char *text, unsigned long size)
{
	/* What is only looked at is left out of what is kept, and so are its answers. */
	if (trace_file && strncmp(text, "show ", 5)) {
		fwrite(text, 1, size, trace_file);
		fputc('\n', trace_file);
	}
	add_said(text, size);
	add_said("\n", 1);
}

static void hear_more(void)
{
	ssize_t n;

	do
		n = read(from_program, heard, sizeof(heard));
	while (n < 0 && errno == EINTR);
	if (n <= 0)
		machine_stop("the program of the conversation has ended");
	heard_from = 0;
	heard_to = (size_t)n;
}

static void keep(size_t size, const char *bytes, size_t count)
{
	if (size + count + 1 > line_room) {
		line_room = (size + count + 1) * 2;
		line = realloc(line, line_room);
		if (!line)
			machine_stop("no memory for a line");
	}
	memcpy(line + size, bytes, count);
}

const char *talk_hear(void)
{
	size_t size = 0;

	flush_said();
	for (;;) {
		char *end;
		size_t count;

		if (heard_from == heard_to)
			hear_more();
		end = memchr(heard + heard_from, '\n', heard_to - heard_from);
		count = (end ? (size_t)(end - heard) : heard_to) - heard_from;
		keep(size, heard + heard_from, count);
		size += count;
		heard_from += count + (end ? 1 : 0);
		if (end)
			break;
	}
	line[size] = 0;
	if (out_file && !strncmp(line, "ret ", 4))
		fprintf(out_file, "%s\n", line);
	return line;
}

int talk_end(void)
{
	int status;

	flush_said();
	close(to_program);
	while (waitpid(program_id, &status, 0) < 0)
		if (errno != EINTR)
			return -1;
	close(from_program);
	if (trace_file)
		fclose(trace_file);
	if (out_file)
		fclose(out_file);
	return WIFEXITED(status) ? WEXITSTATUS(status) : -1;
}
