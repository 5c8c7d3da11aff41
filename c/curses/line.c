/* The modes of the terminal's line (POSIX, 'General Terminal Interface'). */

/* Takes the modes that a line has as those of the shell, and of the program until it changes them. */
static void open_line(struct line *line, int input)
{
    line->input = input;
    line->is_terminal = tcgetattr(input, &line->shell) == 0;
    line->program = line->shell;
}

/* The line of the screen in use, or else of cur_term; NULL without both. */
static struct line *line_in_use(void)
{
    if (current)
        return &current->line;
    return cur_term ? &whole_of(cur_term)->line : NULL;
}

/* Sets the line to modes, and keeps them as those of the program if they were accepted. */
static int set_program(struct line *line, const struct termios *modes)
{
    if (line->is_terminal && tcsetattr(line->input, TCSADRAIN, modes) < 0)
        return ERR;
    line->program = *modes;
    return OK;
}

/* Sets and clears local modes, and input modes, of the program's line. Where it is read line by line, a return ends a
   line; otherwise getch() gives it as nl() says. */
static int change_modes(tcflag_t on, tcflag_t off, tcflag_t input_on, tcflag_t input_off)
{
    struct termios modes;

    if (!current)
        return ERR;
    modes = current->line.program;
    modes.c_lflag = (modes.c_lflag | on) & ~off;
    modes.c_iflag = (modes.c_iflag | input_on) & ~(input_off | ICRNL);
    if (modes.c_lflag & ICANON)
        modes.c_iflag |= ICRNL;
    modes.c_cc[VMIN] = 1;
    modes.c_cc[VTIME] = 0;
    return set_program(&current->line, &modes);
}

/* The modes that a program begins with: bytes come one by one, it echoes by itself, and a line feed is what it sends. */
static int begin_modes(SCREEN *screen)
{
    struct termios modes = screen->line.shell;

    modes.c_lflag &= ~(tcflag_t)(ICANON | ECHO | ECHONL);
    modes.c_iflag &= ~(tcflag_t)(ICRNL | INLCR | IGNCR);
    modes.c_oflag &= ~(tcflag_t)ONLCR;
    modes.c_cc[VMIN] = 1;
    modes.c_cc[VTIME] = 0;
    screen->is_echo = true;
    screen->is_newline = true;
    return set_program(&screen->line, &modes);
}

/* Changes how input is read, which ends what halfdelay() began. */
static int change_input(tcflag_t on, tcflag_t off, tcflag_t input_on, tcflag_t input_off)
{
    if (current)
        current->half_delay = 0;
    return change_modes(on, off, input_on, input_off);
}

int cbreak(void)
{
    return change_input(ISIG, ICANON, 0, 0);
}

int nocbreak(void)
{
    return change_input(ICANON, 0, 0, 0);
}

int raw(void)
{
    return change_input(0, ICANON | ISIG | IEXTEN, 0, IXON | BRKINT | PARMRK);
}

int noraw(void)
{
    return change_input(ICANON | ISIG | IEXTEN, 0, IXON | BRKINT, 0);
}

int halfdelay(int tenths)
{
    if (tenths < 1 || tenths > 255 || cbreak() == ERR)
        return ERR;
    current->half_delay = tenths;
    return OK;
}

/* Whether interrupts drop what waits in the line. */
int intrflush(WINDOW *window, bool on)
{
    (void)window;
    return on ? change_modes(0, NOFLSH, 0, 0) : change_modes(NOFLSH, 0, 0, 0);
}

void qiflush(void)
{
    intrflush(NULL, true);
}

void noqiflush(void)
{
    intrflush(NULL, false);
}

/* Whether bytes have eight bits. */
int meta(WINDOW *window, bool on)
{
    (void)window;
    return on ? change_modes(0, 0, 0, ISTRIP) : change_modes(0, 0, ISTRIP, 0);
}

/* Has no effect: no update is delayed by what is typed. */
int typeahead(int descriptor)
{
    (void)descriptor;
    return current ? OK : ERR;
}

int echo(void)
{
    if (!current)
        return ERR;
    current->is_echo = true;
    return OK;
}

int noecho(void)
{
    if (!current)
        return ERR;
    current->is_echo = false;
    return OK;
}

/* Whether getch() gives a return as a line feed. */
int nl(void)
{
    if (!current)
        return ERR;
    current->is_newline = true;
    return OK;
}

int nonl(void)
{
    if (!current)
        return ERR;
    current->is_newline = false;
    return OK;
}

int def_prog_mode(void)
{
    struct line *line = line_in_use();

    return line && tcgetattr(line->input, &line->program) == 0 ? OK : ERR;
}

int def_shell_mode(void)
{
    struct line *line = line_in_use();

    return line && tcgetattr(line->input, &line->shell) == 0 ? OK : ERR;
}

int reset_prog_mode(void)
{
    const struct line *line = line_in_use();

    return line && tcsetattr(line->input, TCSADRAIN, &line->program) == 0 ? OK : ERR;
}

int reset_shell_mode(void)
{
    const struct line *line = line_in_use();

    return line && tcsetattr(line->input, TCSADRAIN, &line->shell) == 0 ? OK : ERR;
}

int savetty(void)
{
    struct line *line = line_in_use();

    return line && tcgetattr(line->input, &line->saved) == 0 ? OK : ERR;
}

int resetty(void)
{
    struct line *line = line_in_use();

    return line && line->saved.c_cflag ? set_program(line, &line->saved) : ERR;
}

char erasechar(void)
{
    const struct line *line = line_in_use();

    return line ? (char)line->shell.c_cc[VERASE] : ERR;
}

char killchar(void)
{
    const struct line *line = line_in_use();

    return line ? (char)line->shell.c_cc[VKILL] : ERR;
}

/* The speeds of lines, in the order of their codes in ospeed, which begin at 1. */
static const struct {
    speed_t speed;
    int bauds;
} speeds[] = {{B50, 50},       {B75, 75},       {B110, 110},     {B134, 134},     {B150, 150},
              {B200, 200},     {B300, 300},     {B600, 600},     {B1200, 1200},   {B1800, 1800},
              {B2400, 2400},   {B4800, 4800},   {B9600, 9600},   {B19200, 19200}, {B38400, 38400},
              {B57600, 57600}, {B115200, 115200}};

/* The speed that a line has, in bits each second; ERR if it is that of no terminal. */
static int bauds_of(const struct line *line)
{
    size_t n;

    if (!line->is_terminal)
        return ERR;
    for (n = 0; n < sizeof speeds / sizeof *speeds; n++)
        if (speeds[n].speed == cfgetospeed(&line->shell))
            return speeds[n].bauds;
    return 115200;
}

int baudrate(void)
{
    return line_in_use() ? bauds_of(line_in_use()) : ERR;
}
