/* What follows a change of a window by itself: immedok(), syncok(). */

static void show_change(WINDOW *window)
{
    if (is_shown(window))
        return;
    if (window->is_synced)
        wsyncup(window);
    if (window->is_immediate && !window->is_pad)
        wrefresh(window);
}

/* Comes after a call that changed cells of a window which are marked, and gives the call's answer. */
static inline int changed_marked(WINDOW *window, int done)
{
    if (window && (window->is_synced || window->is_immediate))
        show_change(window);
    return done;
}

/* Comes after each other call that changes cells of a window, and gives the call's answer. */
static int changed(WINDOW *window, int done)
{
    if (window)
        mark_all(window);
    return changed_marked(window, done);
}

void immedok(WINDOW *window, bool on)
{
    if (handle_of(window))
        window->is_immediate = on;
}

int syncok(WINDOW *window, bool on)
{
    if (!handle_of(window))
        return ERR;
    window->is_synced = on;
    return OK;
}
