/* Calls that erase, delete, insert lines and scroll. */

/* Erases a window by one of two calls, which move its cursor to the first place. */
static int erase_by(uint32_t (*call)(huttavel *, uint32_t), WINDOW *window)
{
    if (call(handle_of(window), number_of(window)) != HUTTAVEL_OK)
        return ERR;
    window->front.cursor.row = window->front.cursor.column = 0;
    window->has_moved = true;
    return changed(window, OK);
}

int werase(WINDOW *window)
{
    return erase_by(huttavel_erase, window);
}

int wclear(WINDOW *window)
{
    return erase_by(huttavel_clear, window);
}

int wclrtoeol(WINDOW *window)
{
    if (window)
        mark(window, window->front.cursor.row, window->front.cursor.column, window->columns - 1);
    return changed_marked(window, answer(huttavel_clear_to_eol(handle_of(window), number_of(window))));
}

int wclrtobot(WINDOW *window)
{
    if (window) {
        mark(window, window->front.cursor.row, window->front.cursor.column, window->columns - 1);
        mark_lines(window, window->front.cursor.row + 1, window->rows - 1);
    }
    return changed_marked(window, answer(huttavel_clear_to_bottom(handle_of(window), number_of(window))));
}

int wdelch(WINDOW *window)
{
    if (window)
        mark(window, window->front.cursor.row, window->front.cursor.column, window->columns - 1);
    return changed_marked(window, answer(huttavel_delete_byte(handle_of(window), number_of(window))));
}

int winsdelln(WINDOW *window, int count)
{
    return changed(window, answer(huttavel_insert_delete_lines(handle_of(window), number_of(window), count)));
}

int winsertln(WINDOW *window)
{
    return winsdelln(window, 1);
}

int wdeleteln(WINDOW *window)
{
    return winsdelln(window, -1);
}

int wscrl(WINDOW *window, int count)
{
    return changed(window, answer(huttavel_scroll(handle_of(window), number_of(window), count)));
}

int scroll(WINDOW *window)
{
    return wscrl(window, 1);
}
