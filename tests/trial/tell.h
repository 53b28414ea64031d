/* What a call was made with, and what it was answered, in words. */
#ifndef TRIAL_TELL_H
#define TRIAL_TELL_H

#include "compare.h"
#include "shrink.h"

/* The draft and the room, and of a check the table; or the draft and the place. */
void tell_call(const char *what, const call *c);

void tell_answer(const char *who, enum sort sort, const any_answer *a);

/* The call, both answers, and the difference. */
void tell_mismatch(const char *what, const mismatch *m);

#endif
