// A seven-state machine that reads a text: the state after each character, and the numbers of words and signs.
#include "cells.h"

CELL(state);
CELL(words);
CELL(signs);
static const char text[] = "ab12 c3.4+x//comment\n7e9";
enum { BLANK, NAME, NUMBER, POINT, SLASH, COMMENT, SIGN };

static int is_letter(char c) { return c >= 'a' && c <= 'z'; }
static int is_digit(char c) { return c >= '0' && c <= '9'; }

static int after(int now, char c) {
  switch (now) {
    case COMMENT: return c == '\n' ? BLANK : COMMENT;
    case SLASH: if (c == '/') return COMMENT; break;
    case NAME: if (is_letter(c) || is_digit(c)) return NAME; break;
    case NUMBER: if (c == 'e') return NUMBER; break;
    default: break;
  }
  switch (c) {
    case '+': case '-': return SIGN;
    case '/': return SLASH;
    case '.': return POINT;
    case ' ': case '\n': return BLANK;
    default: return is_letter(c) ? NAME : NUMBER;
  }
}

ENTRY {
  int now = BLANK, named = 0, signed_ones = 0;
  for (const char *letter = text; *letter; letter++) {
    int next = after(now, *letter);
    named += next == NAME && now != NAME;
    signed_ones += next == SIGN;
    now = next;
    PUT(state, now);
  }
  PUT(words, named);
  PUT(signs, signed_ones);
}
