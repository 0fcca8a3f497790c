/* A C program that embeds the monitor: document 01's example, printed as the list program prints it, and what a refusal leaves. */
#include "aldwomp.h"

#include <stdio.h>
#include <string.h>

static const uint8_t example[] = {
    0x00, 0x00, 0x00, 0x5c, 0x01, 0xff, 0xff, 0xff, 0xfa,                                     /* the register starts at fffffffa */
    0x00, 0x0d, 0x01, ' ', ' ', ' ', ' ', ' ', ' ', ' ', ' ', 'S', 'P', 'E', 'D',             /* define program SPED */
    0x00, 0x1d, 0x06, ' ', ' ', ' ', ' ', ' ', ' ', ' ', ' ',                                 /* start R0000001 .. */
    'R', '0', '0', '0', '0', '0', '0', '1', 'S', 'P', 'E', 'D', ' ', ' ', ' ', ' ', 0, 0, 0, 10, /* .. SPED, no terminal, in 10 ticks */
    0x00, 0x0d, 0x03, ' ', ' ', ' ', ' ', ' ', ' ', ' ', ' ', 0x00, 0x00, 0x00, 0x09,         /* advance by 9 */
    0x00, 0x0d, 0x03, ' ', ' ', ' ', ' ', ' ', ' ', ' ', ' ', 0x00, 0x00, 0x00, 0x01,         /* advance by 1: the register has wrapped */
    0x00, 0x09, 0x04, ' ', ' ', ' ', ' ', ' ', ' ', ' ', ' '                                  /* ask ticks */
};

enum { RECORDS = 5, FILL = 0xee };

static uint8_t out[ALDWOMP_OUT_ENOUGH];

/* Whether the buffer holds the fill, and nothing else, from a place on. */
static int filled_from(size_t place) {
  for (size_t i = place; i < sizeof out; i++)
    if (out[i] != FILL) return 0;
  return 1;
}

static unsigned long number(const uint8_t *bytes, size_t count) {
  unsigned long n = 0;
  for (size_t i = 0; i < count; i++) n = n * 256 + bytes[i];
  return n;
}

/* A line an answer: place, condition, action, label, number, and the bytes in hex or "-". */
static void print_answers(size_t written) {
  unsigned place = 0;
  for (size_t at = 0; at < written;) {
    const uint8_t *answer = out + at;
    size_t length = number(answer, 2);
    printf("%u %u %u %lu %lu ", ++place, answer[2], answer[3], number(answer + 4, 2), number(answer + 6, 4));
    if (length == 8) printf("-");
    for (size_t i = 8; i < length; i++) printf("%02x", answer[2 + i]);
    printf("\n");
    at += 2 + length;
  }
}

/* Runs a list that must be refused with a code, and says whether it left all as it was. */
static int refused(const char *what, const uint8_t *list, size_t length, size_t room, uint32_t code) {
  size_t written = 99;
  memset(out, FILL, sizeof out);
  uint32_t got = aldwomp_run(list, length, out, room, &written);
  int as_told = got == code && written == 0 && filled_from(0);
  printf("%s: %u, %s\n", what, (unsigned)got, as_told ? "nothing written" : "WRONG");
  return as_told;
}

int main(void) {
  size_t written = 99;
  memset(out, FILL, sizeof out);
  uint32_t code = aldwomp_run(example, sizeof example, out, sizeof out, &written);
  int fine = code == ALDWOMP_RAN && filled_from(written);
  print_answers(written);
  printf("code %u, %zu bytes written, those behind them %s\n", (unsigned)code, written, fine ? "kept" : "WRONG");

  uint8_t other_version[sizeof example];
  memcpy(other_version, example, sizeof example);
  other_version[4] = 2;
  fine &= refused("a list cut short", example, sizeof example - 1, sizeof out, ALDWOMP_LIST_REFUSED);
  fine &= refused("no list at all", example, 0, sizeof out, ALDWOMP_LIST_REFUSED);
  fine &= refused("another version", other_version, sizeof other_version, sizeof out, ALDWOMP_LIST_REFUSED);
  fine &= refused("a byte of room too few", example, sizeof example, RECORDS * ALDWOMP_ANSWER_MOST - 1, ALDWOMP_NO_ROOM);
  fine &= refused("both at once", other_version, sizeof other_version, 0, ALDWOMP_LIST_REFUSED);
  return fine ? 0 : 1;
}
