/* SPDX-License-Identifier: MIT OR Apache-2.0 */
/* Random commands and changes of counter, which the model makes too. */
#include "compare_model.h"
#include "random.h"

#include <string.h>

void compare_words(const struct tkc_clock *clock, const struct model *model)
{
	uint64_t words[TKC_WORDS], expected[TKC_WORDS];
	int64_t frequency, tick;

	tkc_clock_words(words, &frequency, &tick, clock);
	model_words(model, expected);
	CHECK(!memcmp(words, expected, sizeof(words)));
	CHECK(frequency == model->frequency && tick == model->tick);
	CHECK(tkc_clock_frequency(clock) == frequency && tkc_clock_tick(clock) == tick);
}

uint64_t reading_near(const struct model *model)
{
	uint64_t reading = model->last + (any() >> below(64));

	return below(20) ? reading & model->mask : some();
}

void try_command(struct tkc_clock *clock, struct model *model)
{
	uint32_t command = (uint32_t)(below(30) ? below(9) : some());
	uint64_t reading = reading_near(model);
	uint32_t nsec = (uint32_t)(below(8) ? below(1000000001) : some());
	int64_t number = (int64_t)some();

	if (model->asleep && below(4))
		command = TKC_CMD_RESUME;
	if (command == TKC_CMD_TICK && below(8))
		number = (int64_t)(8999 + below(2003));
	if (command == TKC_CMD_FREQ && below(2))
		number = (int64_t)below(70000000) - 35000000;
	if ((command == TKC_CMD_SET_TIME || command == TKC_CMD_STEP) && below(2))
		number = (int64_t)below(8277292037);
	if (command == TKC_CMD_LEAP && below(8)) {
		number = (int64_t)below(4) - 2;
		nsec = (uint32_t)below(100003);
	}
	CHECK(tkc_clock_apply(clock, reading, command, number, nsec) ==
	      model_apply(model, reading, command, number, nsec));
	compare_words(clock, model);
}

void try_change(struct tkc_clock *clock, struct model *model, struct tkc_counter *counter)
{
	uint64_t reading = reading_near(model), first = some();
	struct tkc_clock before = *clock;
	struct tkc_counter other;
	struct numbers numbers;
	struct model over;
	uint32_t code;

	if (!make_counter(&other, &numbers, below(2)))
		return;
	model_open(&over, numbers.bits, numbers.mult, numbers.shift);
	first = below(8) ? first & over.mask : first;
	code = tkc_clock_change_counter(clock, reading, &other, first);
	CHECK(code == model_change_counter(model, reading, &over, first));
	if (code)
		CHECK(!memcmp(clock, &before, sizeof(before)));
	else
		*counter = other;
	compare_words(clock, model);
}
