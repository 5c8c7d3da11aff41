/* The index of a mail reader: senders and subjects in several scripts, threads drawn by lines, a bar that is moved over
   them, new mails, and mails that are read. */
#include "wide.h"

#define MOST_MAILS 300

struct mail {
    const wchar_t *sender;
    wchar_t subject[48];
    int depth, day;
    bool is_new;
};

static struct mail mails[MOST_MAILS];
static int count, top, chosen;

static void make_mail(struct mail *mail)
{
    static const wchar_t *const senders[] = {
        L"Zoë Müller", L"José Núñez", L"Søren Ångström", L"Łukasz Żak", L"Ελένη Παππά", L"Дмитрий Орлов",
        L"Anna Smith", L"Renée Dubois", L"Jürgen Groß", L"Ján Kováč", L"İpek Çelik", L"Paul Jones",
    };
    wchar_t *subject = mail->subject;

    mail->sender = senders[below(12)];
    mail->depth = is_one_of(3) ? 1 + below(3) : 0;
    mail->day = 1 + below(30);
    mail->is_new = is_one_of(3);
    subject[0] = L'\0';
    while (wcslen(subject) < 25) {
        wcscat(subject, is_one_of(3) ? random_russian() : is_one_of(2) ? random_greek() : random_french());
        wcscat(subject, L" ");
    }
}

void begin_index(void)
{
    for (count = 0; count < 150; count++)
        make_mail(mails + count);
    top = chosen = 0;
}

static void change(void)
{
    int room = LINES - 2;

    if (is_one_of(20) && count < MOST_MAILS)
        make_mail(mails + count++);
    if (is_one_of(30)) {
        memmove(mails + chosen, mails + chosen + 1, (size_t)(count - chosen - 1) * sizeof *mails);
        count--;
    }
    mails[chosen].is_new = false;
    chosen += is_one_of(8) ? room : is_one_of(5) ? -1 : 1;
    if (chosen < 0 || chosen > count - 1)
        chosen = below(count);
    if (chosen < top || chosen >= top + room)
        top = chosen / room * room;
}

static void draw_mail(int row, int number)
{
    static const wchar_t *const threads[] = {L"", L"└─>", L"  └─>", L"    └─>"};
    const struct mail *mail = mails + number;
    wchar_t text[LONGEST], whole[LONGEST];

    swprintf(text, LONGEST, L"%ls%ls", threads[mail->depth], mail->subject);
    swprintf(whole, LONGEST, L"%4d %lc %2d août  %-16.16ls │ %-.44ls", number + 1, (wint_t)(mail->is_new ? L'•' : L' '),
             mail->day, mail->sender, text);
    if (number == chosen)
        draw_wide_bar(row, A_REVERSE, whole);
    else
        draw_wide(row, 0, mail->is_new ? A_BOLD : A_NORMAL, whole);
}

void step_index(void)
{
    wchar_t text[LONGEST];
    int row;

    change();
    erase();
    draw_wide_bar(0, A_REVERSE, L"q:Quitter  d:Détruire  r:Répondre  ?:Aide");
    for (row = 1; row < LINES - 1 && top + row - 1 < count; row++)
        draw_mail(row, top + row - 1);
    swprintf(text, LONGEST, L"── Boîte aux lettres: %d messages ── (%d/%d) ", count, chosen + 1, count);
    draw_wide_bar(LINES - 1, A_BOLD, text);
    move(chosen - top + 1, 0);
    wnoutrefresh(stdscr);
}
