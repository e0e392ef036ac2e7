/* Hands policy texts over, and prints what is answered. */
#include <stdio.h>
#include <string.h>

#include "policy.h"

/* The most bytes that a text may have. */
#define MOST_BYTES 8192

static const char *meaning(uint8_t number)
{
    switch (number) {
    case 0: return "a policy";
    case 1: return "over 8,192 bytes";
    case 2: return "no sign begins here";
    case 3: return "sign or end does not fit";
    case 4: return "name over 16 bytes";
    case 5: return "atom declared before";
    case 6: return "name not declared";
    case 7: return "33rd atom";
    case 8: return "33rd bracket or prefix open at once";
    case 9: return "over 128 lines";
    default: return "no such number";
    }
}

static void show(const char *what, const char *text, size_t length)
{
    uint8_t number = policy_refusal((const uint8_t *)text, length);
    printf("%u %-36s %s\n", number, meaning(number), what);
}

static void show_text(const char *text)
{
    show(text, text, strlen(text));
}

/* A policy, with blanks behind it up to this length. */
static void show_padded(const char *what, size_t length)
{
    static char room[MOST_BYTES + 1];
    static const char text[] = "atoms a; rule a.";

    memset(room, ' ', sizeof room);
    memcpy(room, text, sizeof text - 1);
    show(what, room, length);
}

/* A rule that says the part `count` times and then ends. */
static void show_repeated(const char *what, const char *part, size_t count, const char *end)
{
    char room[1024] = "atoms a; rule ";

    for (size_t i = 0; i < count; i++)
        strcat(room, part);
    strcat(room, end);
    show(what, room, strlen(room));
}

int main(void)
{
    show_text("atoms door, warm; rule HG (door -> ~ OL warm).");
    show_text("atoms p; rule YL YG p.");
    show_padded("a policy and blanks, 8,192 bytes", MOST_BYTES);
    show_padded("a policy and blanks, 8,193 bytes", MOST_BYTES + 1);
    show_text("atoms a; rule a -b.");
    show("a byte 0 in the rule", "atoms a; rule \0.", 16);
    show("the empty text", "", 0);
    show_text("atoms a; rule a) #.");
    show_text("atoms abcdefghijklmnopq; rule a.");
    show_text("atoms a, a; rule a.");
    show_text("atoms a; rule b.");
    show_text("atoms a,b,c,d,e,f,g,h,i,j,k,l,m,n,o,p,q,r,s,t,u,v,w,x,y,z,a1,b1,c1,d1,e1,f1,g1; rule a.");
    show_repeated("32 signs ~", "~", 32, "a.");
    show_repeated("33 signs ~", "~", 33, "a.");
    show_repeated("64 names a joined by |", "a|", 63, "a.");
    show_repeated("65 names a joined by |", "a|", 64, "a.");
    return 0;
}
