/* The host below the shim: threads of which one runs at a time, memory at fixed addresses, and the conversation with the core. */
#ifndef MACHINE_H
#define MACHINE_H

/* ---- Threads. A thread runs only while it was switched to. */

struct thread;

/* The thread that calls first. */
struct thread *thread_adopt(void);
/* A thread that runs `run` once it is switched to. */
struct thread *thread_new(void (*run)(void *argument), void *argument);
void thread_switch(struct thread *from, struct thread *to);
/* Ends the calling thread, and runs another. */
void thread_end(struct thread *to) __attribute__((noreturn));

/* ---- Memory. */

/* Anonymous memory at this address. */
void *memory_map(unsigned long at, unsigned long size);
/* The same, of which pieces can be mapped a second time. There is one. */
void *ram_map(unsigned long at, unsigned long size);
void ram_map_again(unsigned long at, unsigned long offset, unsigned long size);
void ram_unmap_again(unsigned long at, unsigned long size);

/* ---- The conversation: lines to a program and back (docs/conversation.md). */

/* Starts the program. What is said goes to the file TRACE too, and what is heard to OUT, where they aren't null. */
void talk_start(const char *program, const char *trace, const char *out);
/* Says a line, its line feed left out. It may wait in a buffer until the next hearing. */
void talk_say(const char *line, unsigned long size);
/* Hears a line, and gives it without its line feed; it stands until the next one. */
const char *talk_hear(void);
/* Ends the input, and waits for the program: its status, or -1 where it was killed. */
int talk_end(void);

/* ---- The rest. */

/* The text of a file, without the line feeds at its end: its size. */
unsigned long file_text(const char *path, char *text, unsigned long room);
void machine_log(const char *line);
/* Writes the log to this file from now on. */
void machine_log_to(const char *path);
void machine_stop(const char *message) __attribute__((noreturn));

#endif
