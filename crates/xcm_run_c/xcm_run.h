#ifndef XCM_RUN_H
#define XCM_RUN_H
#include <stdbool.h>
#include <stddef.h>
#include <stdint.h>

/* Both calls write a text to the beginning of a buffer of `room` bytes, as far as it fits, leave what comes after it as it was, and put
   the length of the whole text into `*needed`. No pointer may be null, also not one to no bytes, and nothing else may touch the memory
   during a call. */

/* Runs the program over an input: a network document, a line "---", and lines of steps; with the audit after each step, or without.
   The text is its report. Answers what the program ends with: 0 done, 3 the network is refused, 4 a line is refused, 7 a limit is
   passed; or 6 where the report doesn't fit; or 8 where there is no memory, and then the text is a prefix of the report. */
uint8_t xcm_run(bool audit, const uint8_t *input, size_t length, uint8_t *report, size_t room, size_t *needed);

/* Tells the message of these bytes (XCM, version 3 or 4) as an indented tree, and answers 0; or why they are no message, and answers 4;
   or answers 6 where the text doesn't fit, or 8 where there is no memory, and then the text is empty. */
uint8_t xcm_message_text(const uint8_t *message, size_t length, uint8_t *text, size_t room, size_t *needed);
#endif
