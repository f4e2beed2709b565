/* What the kernel writes to its log, and where it stops. */
#ifndef KERNEL_LOG_H
#define KERNEL_LOG_H

/* Something that the shim can't be strict about: the message is printed, and the program ends. */
void stop(const char *format, ...) __attribute__((noreturn, format(printf, 1, 2)));

enum level { LEVEL_ERROR, LEVEL_WARNING, LEVEL_INFO, LEVEL_DEBUG };

void log_line(enum level level, const char *format, ...);

#ifndef pr_fmt
#define pr_fmt(format) format
#endif
#define pr_err(format, ...) log_line(LEVEL_ERROR, pr_fmt(format), ##__VA_ARGS__)
#define pr_warn(format, ...) log_line(LEVEL_WARNING, pr_fmt(format), ##__VA_ARGS__)
#define pr_info(format, ...) log_line(LEVEL_INFO, pr_fmt(format), ##__VA_ARGS__)
#define pr_debug(format, ...) log_line(LEVEL_DEBUG, pr_fmt(format), ##__VA_ARGS__)
#define dev_err(device, format, ...) ((void)(device), log_line(LEVEL_ERROR, format, ##__VA_ARGS__))

/* A condition that should not hold is an error of the log. */
#define WARN_ON(condition) ({ \
	bool _warned = !!(condition); \
	if (_warned) \
		log_line(LEVEL_ERROR, "WARNING: %s at %s:%d", #condition, __FILE__, __LINE__); \
	_warned; \
})

#endif
