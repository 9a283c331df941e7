/* SPDX-License-Identifier: MIT OR Apache-2.0 */
/* requests.c - what a request of adjtimex selects, and its row of the record. */
#include "requests.h"

#include "rows.h"

enum {
	ADJ_ADJTIME = 0x8000,	     /* of the kernel's timex.h */
	ADJ_OFFSET_READONLY = 0x2000, /* with ADJ_ADJTIME */
};

/* With ADJ_OFFSET_READONLY, the kernel ignores all other bits but that of a step. */
bool request_only_reads(const struct timex *request)
{
	const unsigned int reads = ADJ_ADJTIME | ADJ_OFFSET_READONLY;

	return !request->modes || ((request->modes & reads) == reads &&
				   !(request->modes & ADJ_SETOFFSET));
}

bool request_is_faulty(const struct timex *request)
{
	return request->modes & ADJ_ADJTIME && !(request->modes & ADJ_OFFSET);
}

/* Other fields of a request may be whatever was in the program's memory. A bad tick
 * or frequency is refused with any call that has its bit. */
struct timex request_selected(const struct timex *request)
{
	unsigned int modes = request->modes;
	struct timex selected = { .modes = modes };

	if (modes & ADJ_OFFSET && !request_only_reads(request))
		selected.offset = request->offset;
	if (modes & ADJ_FREQUENCY)
		selected.freq = request->freq;
	if (modes & ADJ_MAXERROR)
		selected.maxerror = request->maxerror;
	if (modes & ADJ_ESTERROR)
		selected.esterror = request->esterror;
	if (modes & ADJ_STATUS)
		selected.status = request->status;
	if (modes & (ADJ_TIMECONST | ADJ_TAI))
		selected.constant = request->constant;
	if (modes & ADJ_TICK)
		selected.tick = request->tick;
	if (modes & ADJ_SETOFFSET)
		selected.time = request->time;
	return selected;
}

struct asked_words request_words(const struct timex *request)
{
	struct timex in = request_selected(request);

	return (struct asked_words){
		.modes = in.modes, .offset = in.offset, .freq = in.freq,
		.maxerror = in.maxerror, .esterror = in.esterror,
		.status = in.status, .constant = in.constant,
		.tick = in.tick, .sec = in.time.tv_sec,
		.sub = in.time.tv_usec,
	};
}

/* One that only reads has no separate number. */
void rows_add_request(struct machine *machine, const struct record_row *row,
		      const struct timex *in, const struct timex *out,
		      uint32_t state)
{
	struct asked_words asked = request_words(in);

	if (!machine->control->rows.every)
		return;
	if (row->kind == ROW_REQUEST && !row->code)
		rows_steer(&machine->control->rows);
	if (!row->code) {
		asked.reply.state = state;
		asked.reply.sec = out->time.tv_sec;
		asked.reply.sub = out->time.tv_usec;
		asked.reply.offset = out->offset;
		asked.reply.freq = out->freq;
		asked.reply.maxerror = out->maxerror;
		asked.reply.esterror = out->esterror;
		asked.reply.status = out->status;
		asked.reply.constant = out->constant;
		asked.reply.tick = out->tick;
		asked.reply.tai = out->tai;
	}
	rows_add_asked(machine, row, &asked);
}
