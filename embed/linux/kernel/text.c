/* Text by a format, bits, and the log. */
#include "tasks.h"

struct text { char *at; size_t size, used; };

static void add_char(struct text *text, char c)
{
	if (text->used + 1 < text->size)
		text->at[text->used] = c;
	text->used++;
}

struct directive { bool left, zeros; int width, length, precision; };

static void add_padded(struct text *text, const struct directive *form, const char *digits, int count)
{
	int blanks = form->width > count ? form->width - count : 0;

	if (!form->left)
		for (int i = 0; i < blanks; i++)
			add_char(text, form->zeros ? '0' : ' ');
	for (int i = 0; i < count; i++)
		add_char(text, digits[i]);
	if (form->left)
		for (int i = 0; i < blanks; i++)
			add_char(text, ' ');
}

static void add_number(struct text *text, const struct directive *form, unsigned long long number, int base, bool minus)
{
	char digits[24];
	int count = 0, at = sizeof(digits);

	do
		digits[--at] = "0123456789abcdef"[number % base];
	while (number /= base);
	if (minus)
		digits[--at] = '-';
	count = sizeof(digits) - at;
	add_padded(text, form, digits + at, count);
}

static void add_uuid(struct text *text, const unsigned char *uuid)
{
	struct directive two = { .zeros = true, .width = 2 };

	for (int i = 0; i < 16; i++) {
		if (i == 4 || i == 6 || i == 8 || i == 10)
			add_char(text, '-');
		add_number(text, &two, uuid[i], 16, false);
	}
}

static unsigned long long next_unsigned(va_list *args, int length)
{
	return length > 0 ? va_arg(*args, unsigned long) : va_arg(*args, unsigned int);
}

static long long next_signed(va_list *args, int length)
{
	return length > 0 ? va_arg(*args, long) : va_arg(*args, int);
}

/* One directive behind its `%`; where the format goes on. */
static const char *add_directive(struct text *text, const char *format, va_list *args)
{
	struct directive form = { .precision = -1 };
	const char *string;
	long long number;
	int count = 0;

	for (; *format == '-' || *format == '0'; format++)
		*(*format == '-' ? &form.left : &form.zeros) = true;
	for (; *format >= '0' && *format <= '9'; format++)
		form.width = form.width * 10 + (*format - '0');
	if (*format == '.' && *++format == '*') {
		form.precision = va_arg(*args, int);
		format++;
	}
	for (; *format == 'l' || *format == 'z'; format++)
		form.length++;
	switch (*format) {
	case 'd':
	case 'i':
		number = next_signed(args, form.length);
		add_number(text, &form, number < 0 ? -number : number, 10, number < 0);
		break;
	case 'u':
		add_number(text, &form, next_unsigned(args, form.length), 10, false);
		break;
	case 'x':
		add_number(text, &form, next_unsigned(args, form.length), 16, false);
		break;
	case 'c':
		add_char(text, va_arg(*args, int));
		break;
	case 's':
		string = va_arg(*args, const char *);
		while (string[count] && count != form.precision)
			count++;
		add_padded(text, &form, string, count);
		break;
	case 'p':
		if (format[1] == 'U' && format[2] == 'b') {
			add_uuid(text, va_arg(*args, const unsigned char *));
			return format + 3;
		}
		add_number(text, &form, (unsigned long)va_arg(*args, void *), 16, false);
		break;
	case '%':
		add_char(text, '%');
		break;
	default:
		machine_stop("a format has a directive that isn't of this shim");
	}
	return format + 1;
}

int vsnprintf(char *at, size_t size, const char *format, va_list given)
{
	struct text text = { at, size, 0 };
	va_list args;

	va_copy(args, given);
	while (*format) {
		if (*format == '%')
			format = add_directive(&text, format + 1, &args);
		else
			add_char(&text, *format++);
	}
	va_end(args);
	if (size)
		at[text.used < size ? text.used : size - 1] = 0;
	return text.used;
}

int snprintf(char *text, size_t size, const char *format, ...)
{
	va_list args;
	int used;

	va_start(args, format);
	used = vsnprintf(text, size, format, args);
	va_end(args);
	return used;
}

int scnprintf(char *text, size_t size, const char *format, ...)
{
	va_list args;
	int used;

	va_start(args, format);
	used = vsnprintf(text, size, format, args);
	va_end(args);
	return used < (int)size ? used : (int)size - 1;
}

/* ---- Bits */

unsigned long find_next_bit(const unsigned long *map, unsigned long size, unsigned long from)
{
	while (from < size && !test_bit(from, map))
		from++;
	return from < size ? from : size;
}

unsigned long find_next_zero_bit(const unsigned long *map, unsigned long size, unsigned long from)
{
	while (from < size && test_bit(from, map))
		from++;
	return from < size ? from : size;
}

/* ---- The log */

static char log_text[1 << 16];
static size_t log_size;
static unsigned int errors, warnings;

void log_line(enum level level, const char *format, ...)
{
	static const char *const names[] = { "error: ", "warning: ", "info: ", "debug: " };
	char line[500];
	int size = scnprintf(line, sizeof(line), "%s", names[level]);
	va_list args;

	va_start(args, format);
	vsnprintf(line + size, sizeof(line) - size, format, args);
	va_end(args);
	size = strlen(line);
	if (size && line[size - 1] == '\n')
		line[--size] = 0;
	machine_log(line);
	errors += level == LEVEL_ERROR;
	warnings += level == LEVEL_WARNING;
	if (log_size + size + 1 < sizeof(log_text)) {
		memcpy(log_text + log_size, line, size);
		log_text[log_size + size] = '\n';
		log_size += size + 1;
	}
}

unsigned int log_lines(const char *text)
{
	size_t size = strlen(text), from = 0;
	unsigned int count = 0;

	while (from + size <= log_size) {
		if (memcmp(log_text + from, text, size)) {
			from++;
			continue;
		}
		count++;
		while (from < log_size && log_text[from] != '\n')
			from++;
	}
	return count;
}

unsigned int log_errors(void)
{
	return errors;
}

unsigned int log_warnings(void)
{
	return warnings;
}

void stop(const char *format, ...)
{
	char line[800];
	va_list args;

	va_start(args, format);
	vsnprintf(line, sizeof(line), format, args);
	va_end(args);
	machine_stop(line);
}
