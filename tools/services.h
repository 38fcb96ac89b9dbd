/* The library's services on files: each reads, calls, and writes the result or tells the refusal. */
#ifndef SERVICES_H
#define SERVICES_H

#include "arguments.h"

enum status run_plan(const struct arguments *arguments);
enum status run_check(const struct arguments *arguments);
enum status run_erase(const struct arguments *arguments);
enum status run_least_level(const struct arguments *arguments);
enum status run_quote(const struct arguments *arguments);
enum status run_from_rising(const struct arguments *arguments);
enum status run_to_rising(const struct arguments *arguments);
enum status run_picture(const struct arguments *arguments);
enum status run_may_drop(const struct arguments *arguments);
enum status run_live_after(const struct arguments *arguments);
enum status run_live_peak(const struct arguments *arguments);
enum status run_live(const struct arguments *arguments);

#endif
