/* The programs in UTF-8, and what they share. */
#include "wide.h"

#include <locale.h>

const struct program programs[] = {
    {"borders", begin_borders, step_borders, 200}, {"table", begin_table, step_table, 250},
    {"chart", begin_chart, step_chart, 200},       {"french", begin_french, step_french, 300},
    {"index", begin_index, step_index, 250},       {"acs", begin_acs, step_acs, 200},
    {NULL, NULL, NULL, 0},
};

void begin_locale(void)
{
    if (!setlocale(LC_ALL, "C.UTF-8")) {
        fprintf(stderr, "programs: no locale C.UTF-8\n");
        exit(1);
    }
}

void draw_wide(int row, int column, chtype attrs, const wchar_t *text)
{
    attrset((int)attrs);
    mvaddnwstr(row, column, text, COLS - column);
    attrset((int)A_NORMAL);
}

void draw_wide_bar(int row, chtype attrs, const wchar_t *text)
{
    wchar_t whole[LONGEST];

    swprintf(whole, LONGEST, L"%-*.*ls", COLS, COLS, text);
    draw_wide(row, 0, attrs, whole);
}

cchar_t single(wchar_t character)
{
    wchar_t text[2] = {character, L'\0'};
    cchar_t made;

    setcchar(&made, text, A_NORMAL, 0, NULL);
    return made;
}

const wchar_t *random_french(void)
{
    static const wchar_t *const all[] = {
        L"le",     L"la",      L"été",    L"où",      L"à",       L"déjà",   L"être",     L"garçon", L"forêt",  L"château",
        L"avec",   L"dans",    L"très",   L"après",   L"façade",  L"maître", L"noël",     L"cœur",   L"élève",  L"père",
        L"qu’il",  L"d’abord", L"mère",   L"âge",     L"île",     L"goût",   L"français", L"lumière", L"hôtel", L"soirée",
        L"maison", L"chemin",  L"jour",   L"nuit",    L"regarde", L"parle",  L"écrit",    L"livre",  L"fenêtre", L"présent",
    };

    return all[below(40)];
}

const wchar_t *random_greek(void)
{
    static const wchar_t *const all[] = {
        L"Αθήνα", L"θάλασσα", L"νησί", L"ήλιος", L"δρόμος", L"σπίτι", L"βιβλίο", L"φως", L"λόγος", L"ψυχή",
        L"Μαρία", L"Γιώργος", L"Ελένη", L"καλημέρα", L"αγορά", L"ουρανός", L"πόλη", L"χρόνος", L"ζωή", L"έργο",
    };

    return all[below(20)];
}

const wchar_t *random_russian(void)
{
    static const wchar_t *const all[] = {
        L"Москва", L"река", L"город", L"книга", L"письмо", L"окно", L"зима", L"весна", L"дорога", L"слово",
        L"Иван", L"Анна", L"Ольга", L"Дмитрий", L"утро", L"вечер", L"ёлка", L"жизнь", L"объект", L"день",
    };

    return all[below(20)];
}
