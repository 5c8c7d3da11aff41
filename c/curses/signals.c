/* Signals that end, stop or continue the program, and those of a new size. A handler makes no call on a handle: it
   writes texts that were made before, and leaves a mark for the next call. */

/* The signals that end a program, and the others that are caught. */
static const int ending[] = {SIGHUP, SIGINT, SIGQUIT, SIGTERM};

#define COUNT(array) (sizeof(array) / sizeof *(array))

/* Whether stop_program() is under way, so that SIGCONT is no news. */
static volatile sig_atomic_t is_stopping;

/* Writes bytes from a handler. What a terminal does not accept is lost. */
static void write_marked(int descriptor, const uint8_t *bytes, size_t count)
{
    while (count > 0) {
        ssize_t taken = write(descriptor, bytes, count);

        if (taken < 0 && errno != EINTR)
            return;
        if (taken > 0) {
            bytes += taken;
            count -= (size_t)taken;
        }
    }
}

/* Writes the text that makes the cursor that visible. */
static void write_visibility(const SCREEN *screen, int visibility)
{
    const char *text = visibility_string(screen, visibility);

    if (text)
        write_marked(screen->output, (const uint8_t *)text, strlen(text));
}

/* Gives the terminal back as the shell had it. */
static void leave_terminal(const SCREEN *screen)
{
    if (screen->visibility != 1)
        write_visibility(screen, 1);
    write_marked(screen->output, screen->plain.bytes, screen->plain.length);
    if (screen->is_transmitting)
        write_marked(screen->output, screen->local.bytes, screen->local.length);
    if (screen->is_reporting)
        write_marked(screen->output, (const uint8_t *)reports_off, strlen(reports_off));
    write_marked(screen->output, screen->leave.bytes, screen->leave.length);
    if (screen->line.is_terminal)
        tcsetattr(screen->line.input, TCSADRAIN, &screen->line.shell);
}

/* Takes over the terminal again. What it shows is repainted by the next update, or by a call that waits for a key. */
static void enter_terminal(SCREEN *screen)
{
    if (screen->line.is_terminal)
        tcsetattr(screen->line.input, TCSADRAIN, &screen->line.program);
    write_marked(screen->output, screen->enter.bytes, screen->enter.length);
    if (screen->is_transmitting)
        write_marked(screen->output, screen->transmit.bytes, screen->transmit.length);
    if (screen->is_reporting)
        write_marked(screen->output, (const uint8_t *)reports_on, strlen(reports_on));
    if (screen->visibility != 1)
        write_visibility(screen, screen->visibility);
    screen->is_disturbed = 1;
    screen->is_resized = 1;
}

/* Leaves all terminals that are in use. */
static void leave_terminals(void)
{
    SCREEN *screen;

    for (screen = screens; screen; screen = screen->next)
        if (!screen->has_ended)
            leave_terminal(screen);
}

/* Takes over again all terminals that are in use. */
static void enter_terminals(void)
{
    SCREEN *screen;

    for (screen = screens; screen; screen = screen->next)
        if (!screen->has_ended)
            enter_terminal(screen);
}

/* Leaves the terminals, and lets the signal do what it does without a handler. */
static void end_program(int number)
{
    leave_terminals();
    signal(number, SIG_DFL);
    raise(number);
}

static void stop_program(int number)
{
    int error = errno;
    struct sigaction action, ours;
    sigset_t stops, before;

    leave_terminals();
    is_stopping = 1;
    memset(&action, 0, sizeof action);
    action.sa_handler = SIG_DFL;
    sigaction(number, &action, &ours);
    raise(number);
    sigemptyset(&stops);
    sigaddset(&stops, number);
    pthread_sigmask(SIG_UNBLOCK, &stops, &before);
    pthread_sigmask(SIG_SETMASK, &before, NULL);
    sigaction(number, &ours, NULL);
    is_stopping = 0;
    enter_terminals();
    errno = error;
}

static void continue_program(int number)
{
    int error = errno;

    (void)number;
    if (!is_stopping)
        enter_terminals();
    errno = error;
}

static void change_size(int number)
{
    SCREEN *screen;

    (void)number;
    for (screen = screens; screen; screen = screen->next)
        screen->is_resized = 1;
}

/* Handles a signal, unless the program does already or ignores it. A getch() that waits has to go on from there, so
   that its read ends (no SA_RESTART). */
static void handle(int number, void (*handler)(int))
{
    struct sigaction action;

    if (sigaction(number, NULL, &action) < 0 || action.sa_handler != SIG_DFL)
        return;
    memset(&action, 0, sizeof action);
    action.sa_handler = handler;
    sigaction(number, &action, NULL);
}

/* Handles the signals that a screen has to know of. */
static void handle_signals(void)
{
    size_t n;

    for (n = 0; n < COUNT(ending); n++)
        handle(ending[n], end_program);
    handle(SIGTSTP, stop_program);
    handle(SIGCONT, continue_program);
    handle(SIGWINCH, change_size);
}
