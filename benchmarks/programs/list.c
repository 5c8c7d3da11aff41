/* The programs in ASCII. */
#include "programs.h"

const struct program programs[] = {
    {"editor", begin_editor, step_editor, 300},          {"pager", begin_pager, step_pager, 250},
    {"mail", begin_mail, step_mail, 250},                {"log", begin_log, step_log, 250},
    {"installer", begin_installer, step_installer, 250}, {"monitor", begin_monitor, step_monitor, 150},
    {NULL, NULL, NULL, 0},
};

void begin_locale(void)
{
}
