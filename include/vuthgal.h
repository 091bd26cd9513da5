/*
 * libvuthgal: the commands of Vuthgal as calls in your own process.
 *
 *   cc example.c $(pkg-config --cflags --libs vuthgal)
 *
 * Inputs. An input is bytes and their count. PROGRAM holds a program text or an image, which begins with "PBW1" or "PBW2"; the
 * other inputs are texts. LANGUAGE.md, TRACES.md and FORMATS.md describe them; bin/install puts them into share/doc/vuthgal/docs.
 * A program that is played again and again is best assembled once: a call with its image takes some two thirds of the time.
 *
 * Bounds. A call returns 5 if an input has more bytes than this:
 *   a program, a text, a plan, and what vuthgal_draw and vuthgal_mistake get    16,777,216
 *   the words that vuthgal_explain gets                                         65,536
 *   the commands of vuthgal_debug, and what vuthgal_session_go_to gets          1,000,000,000
 * A trace, a schedule that is run, and a command of a session have no bound that memory reaches.
 *
 * Output. A call writes to your memory as snprintf does: it writes as many bytes as fit ROOM, and sets *LENGTH to the count of
 * all. If *LENGTH is more than ROOM, the bytes end at ROOM, and the rest is as usual: call again with more room.
 * Nothing is written after the bytes. No zero byte ends them. LINE gets, in the same way, the one line that the program
 * `vuthgal` writes to standard error, with its line feed; it is empty if the status is 0, and for nearly all calls if it is 1.
 * VUTHGAL_LINE bytes are enough for every line.
 *
 * Status. Each call returns the exit status of the program, which has a constant VUTHGAL_.. below.
 *
 * Pointers. An input or an output that has no bytes may be (NULL, 0). No other pointer is NULL. What a call writes to overlaps
 * nothing else that the call gets. Inputs may overlap.
 *
 * Memory. A call frees all that it allocated before it returns. Only a session holds memory from call to call. All is allocated by
 * malloc and realloc, and freed by free. A call needs at most 64 KiB of stack.
 *
 * Threads. Calls share nothing. Any number may run at once, each with outputs of its own. One thread at a time may use a session.
 * Another may go on with it, if a lock, or the start or the end of a thread, lies between.
 *
 * Signals and fork. A call blocks no signal and handles none. As malloc, no call may be made in a handler of a signal, nor in a
 * forked child of a process that has threads. Otherwise a forked child has a copy of each session, and closes it for itself.
 *
 * Machine. x86-64 Linux, and a processor of level x86-64-v2 (SSE4.2, POPCNT; from about 2009 on). libvuthgal.so.2 needs glibc 2.14 or
 * later. Where it is loaded on an older processor, it writes a line to standard error and ends the process with status 1; the archive
 * libvuthgal.a has no such check.
 *
 * Time. A call ends. A schedule such as `t0*1000000000` can take a minute and more. If you play the schedules of others, use a
 * session: count what you play, and stop.
 */
#ifndef VUTHGAL_H
#define VUTHGAL_H

#include <stddef.h>
#include <stdint.h>

#ifdef __cplusplus
extern "C" {
#endif

/* The version of this header, as 10000 * major + 100 * minor + patch. vuthgal_version_number returns that of the library. */
#define VUTHGAL_VERSION 20000

/* What a call returns. */
#define VUTHGAL_DONE 0
/* compare: the trace differs, or isn't one; choices: it isn't one; plan: it needs more choices; back: none is kept; go_to: fewer were
   played */
#define VUTHGAL_UNLIKE 1
/* explain: no line has these words */
#define VUTHGAL_NO_LINE 2
/* An input is refused: LINE begins with "refused". */
#define VUTHGAL_REFUSED 3
/* Out of memory: LINE is "memory". The output is a beginning of the whole, or nothing. */
#define VUTHGAL_MEMORY 4
/* An input is longer than it may be: LINE is "read". */
#define VUTHGAL_TOO_LONG 5
/* A session is closed. */
#define VUTHGAL_CLOSED 6
/* A session has no such thread. */
#define VUTHGAL_NO_THREAD 7
/* A session has done all its steps: 1,000,000,000 steps, or 1,000,000,000,000 choices. */
#define VUTHGAL_LIMIT 8

/* The most bytes of a program, a text, a plan, and what vuthgal_draw and vuthgal_mistake get; of the words of vuthgal_explain; and of the
   commands of vuthgal_debug and what vuthgal_session_go_to gets. How many choices a session can take back. */
#define VUTHGAL_MOST_BYTES 16777216
#define VUTHGAL_MOST_WORDS 65536
#define VUTHGAL_MOST_COMMANDS 1000000000
#define VUTHGAL_KEPT 4096

/* Room for the line of every call. */
#define VUTHGAL_LINE 96
/* Room for the reply of a session to each command but `p`. */
#define VUTHGAL_REPLY 192

/* A part of a line of an input. */
typedef struct {
  uint64_t line;   /* the number of the line, from 1; 0 if no line is to blame, as in an image */
  uint64_t column; /* the first byte of the part, from 1; 0 if the whole line is meant */
  uint64_t length; /* how many bytes the part has */
  uint8_t input;   /* VUTHGAL_PROGRAM if it is in the program, or else VUTHGAL_PLAN or VUTHGAL_SCHEDULE */
} vuthgal_place;

/* What vuthgal_mistake looks at. */
#define VUTHGAL_PROGRAM 0
#define VUTHGAL_PLAN 1
#define VUTHGAL_SCHEDULE 2
#define VUTHGAL_TEXT 3

/* Plays a program under a schedule, as `vuthgal run FILE SCHEDULE`. The output is the trace. */
uint8_t vuthgal_run(const uint8_t *program, size_t program_length,
                    const uint8_t *schedule, size_t schedule_length,
                    uint8_t *output, size_t output_room, size_t *output_length,
                    uint8_t *line, size_t line_room, size_t *line_length);

/* Plays a program text under the schedule that stands behind its line `.run`, as `vuthgal < TEXT`. The output is the trace. */
uint8_t vuthgal_both(const uint8_t *text, size_t text_length,
                     uint8_t *output, size_t output_room, size_t *output_length,
                     uint8_t *line, size_t line_room, size_t *line_length);

/* Assembles a program text, as `vuthgal asm`. The output is the image. */
uint8_t vuthgal_asm(const uint8_t *text, size_t text_length,
                    uint8_t *output, size_t output_room, size_t *output_length,
                    uint8_t *line, size_t line_room, size_t *line_length);

/* Lists a program, as `vuthgal list FILE`. The output is its canonical text. */
uint8_t vuthgal_list(const uint8_t *program, size_t program_length,
                     uint8_t *output, size_t output_room, size_t *output_length,
                     uint8_t *line, size_t line_room, size_t *line_length);

/* Compares a trace with the run that it names, as `vuthgal compare FILE TRACE`. The output is `same`, `differs N` or
   `not a trace N`, with its line feed. */
uint8_t vuthgal_compare(const uint8_t *program, size_t program_length,
                        const uint8_t *trace, size_t trace_length,
                        uint8_t *output, size_t output_room, size_t *output_length,
                        uint8_t *line, size_t line_room, size_t *line_length);

/* Writes the schedule of a trace, as `vuthgal choices TRACE`. */
uint8_t vuthgal_choices(const uint8_t *trace, size_t trace_length,
                        uint8_t *output, size_t output_room, size_t *output_length,
                        uint8_t *line, size_t line_room, size_t *line_length);

/* Writes the schedule that a plan stands for, as `vuthgal plan FILE PLAN`. If NAMES isn't 0, threads have their names, as
   `--names` writes them: then the schedule is a plan, too. A schedule is a plan, so this also writes a schedule by names. A plan makes
   at most MOST choices, and at most 1,000,000. If it needs more, the status is 1, and the output has the first ones. */
uint8_t vuthgal_plan(const uint8_t *program, size_t program_length,
                     const uint8_t *plan, size_t plan_length, uint32_t most, uint8_t names,
                     uint8_t *output, size_t output_room, size_t *output_length,
                     uint8_t *line, size_t line_room, size_t *line_length);

/* Plays a plan, and then an order by each of COUNT seeds from FIRST on, as `vuthgal plan FILE PLAN --seeds FROM..TO`: at most 100,000
   seeds. An order has at most LIMIT choices, or 1,000,000 if LIMIT is 0. The output has a line for each state in which a run ended,
   the most frequent first: how often; `all`, `stuck` or `live`; and the seed and the schedule of the first such run, by names if NAMES
   isn't 0. */
uint8_t vuthgal_seeds(const uint8_t *program, size_t program_length,
                      const uint8_t *plan, size_t plan_length,
                      uint32_t first, uint32_t count, uint32_t limit, uint8_t names,
                      uint8_t *output, size_t output_room, size_t *output_length,
                      uint8_t *line, size_t line_room, size_t *line_length);

/* Draws a run, as `vuthgal draw FILE SCHEDULE --width WIDTH`. The output is text, in lines of at most WIDTH bytes. The program
   takes a WIDTH from 60 to 1000. The call takes any, and cuts what has no room, so that less leaves little to read. */
uint8_t vuthgal_draw(const uint8_t *program, size_t program_length,
                     const uint8_t *schedule, size_t schedule_length, uint16_t width,
                     uint8_t *output, size_t output_room, size_t *output_length,
                     uint8_t *line, size_t line_room, size_t *line_length);

/* Says where a program, a plan or a schedule is refused, and what helps, as the program shows it at a terminal. INPUT is a plan or a
   schedule of this program, by KIND. With VUTHGAL_PROGRAM only the program is looked at; with VUTHGAL_TEXT it is a text with its schedule
   behind its line `.run`. The program comes first. With 3, LINE is the line of the refusal, *PLACE gets the word that makes it, and the
   output is the line `near: ..` or `help: ..` with its line feed, or empty if nothing is known to help. If memory is refused for it, it
   says less. With any other status each field of *PLACE is 0, and the output is empty. */
uint8_t vuthgal_mistake(const uint8_t *program, size_t program_length,
                        uint8_t kind, const uint8_t *input, size_t input_length,
                        vuthgal_place *place,
                        uint8_t *output, size_t output_room, size_t *output_length,
                        uint8_t *line, size_t line_room, size_t *line_length);

/* Carries out lines of commands on a program, as `vuthgal debug FILE < COMMANDS`. The output is the replies. */
uint8_t vuthgal_debug(const uint8_t *program, size_t program_length,
                      const uint8_t *commands, size_t commands_length,
                      uint8_t *output, size_t output_room, size_t *output_length,
                      uint8_t *line, size_t line_room, size_t *line_length);

/* Says what words of a line mean, as `vuthgal explain WORDS`. The words are in one text, with blanks between them. They are
   those of the line: only the program takes other names, too, such as Java's. */
uint8_t vuthgal_explain(const uint8_t *words, size_t words_length,
                        uint8_t *output, size_t output_room, size_t *output_length,
                        uint8_t *line, size_t line_room, size_t *line_length);

/* Says whether a state is as an expectation says, as `vuthgal run --expect` decides it of a run without a refused choice. STATE is the
   text of a state, as the command `p` replies it and a trace ends with it. EXPECTATION is `all`, `ended`, `stuck`, `live`, or words of
   a line of the state, as `t0 waits`. Returns 0, or 1 if the state isn't so, or 3 if that is no expectation. It allocates nothing. */
uint8_t vuthgal_expect(const uint8_t *state, size_t state_length,
                       const uint8_t *expectation, size_t expectation_length);

/* A session: a program that is played command by command, as `vuthgal debug` plays it. Each step takes as long as the first. It
   begins as VUTHGAL_SESSION, which is closed. Only the calls look into it. It may be moved. The bytes of a handle are no copy of its
   session: of two handles with the same bytes only one may be used. */
typedef struct {
  void *at;
  uint64_t is_open;
} vuthgal_session;

#if defined(__cplusplus) && __cplusplus >= 201103L
#define VUTHGAL_SESSION { nullptr, 0 }
#else
#define VUTHGAL_SESSION { 0, 0 }
#endif

/* A state: how many choices were made, and how many of them were steps; how many threads, phasers and barriers there are; and
   VUTHGAL_LIVE, VUTHGAL_STUCK or VUTHGAL_ALL. */
typedef struct {
  uint64_t choices;
  uint32_t steps;
  uint8_t threads;
  uint8_t phasers;
  uint8_t barriers;
  uint8_t standing;
} vuthgal_state;

/* What vuthgal_state says of a run: some choice can still do something; or none can, and some thread hasn't ended; or all threads have
   ended or died. */
#define VUTHGAL_LIVE 0
#define VUTHGAL_STUCK 1
#define VUTHGAL_ALL 2

/* No phaser, barrier or thread. */
#define VUTHGAL_NONE 65535

/* A thread. */
typedef struct {
  int32_t registers[8];
  int32_t value;       /* the exception that it throws or died of; the phase that it awaits; the index of its arrival at a barrier */
  uint16_t row;        /* the row that it is at */
  uint16_t object;     /* the phaser or barrier at which it waits, or VUTHGAL_NONE */
  uint16_t outputs;    /* how many values it put out */
  uint8_t entries;     /* how many entries its stack has */
  uint8_t status;      /* VUTHGAL_RUNS .. VUTHGAL_DIED */
  uint8_t interrupted; /* 1 or 0 */
} vuthgal_thread;

#define VUTHGAL_RUNS 0
#define VUTHGAL_THROWS 1
#define VUTHGAL_AWAITS_PHASE 2
#define VUTHGAL_AWAITS_BARRIER 3
#define VUTHGAL_ENDED 4
#define VUTHGAL_DIED 5

/* A phaser. */
typedef struct {
  int32_t phase;      /* getPhase: negative once it is terminated */
  uint16_t parties;   /* getRegisteredParties */
  uint16_t arrived;   /* getArrivedParties */
  uint16_t unarrived; /* getUnarrivedParties */
  uint16_t parent;    /* the number of its parent, or VUTHGAL_NONE */
} vuthgal_phaser;

/* A barrier. */
typedef struct {
  uint16_t parties; /* getParties */
  uint16_t waiting; /* getNumberWaiting */
  uint16_t runner;  /* the thread that runs its action, or VUTHGAL_NONE */
  uint8_t broken;   /* isBroken: 1 or 0 */
} vuthgal_barrier;

/* An entry of a thread's stack. */
typedef struct {
  uint16_t number; /* the row to return to, or of the handler; the root of a routine; the barrier of an action */
  uint8_t kind;    /* VUTHGAL_CALL .. VUTHGAL_ACTION */
} vuthgal_entry;

#define VUTHGAL_CALL 0
#define VUTHGAL_HANDLER 1
#define VUTHGAL_ROUTINE 2
#define VUTHGAL_ACTION 3

/* What a choice did: the line of a trace. */
typedef struct {
  uint64_t number; /* the number of the choice, from 1 */
  int32_t value;   /* the result, the value put out, or the exception, by WHAT */
  int32_t view;    /* the phase of the root after VUTHGAL_PHASE_ENDED, negative once it is terminated */
  uint16_t row;    /* the row that its thread was at */
  uint16_t object; /* the root or the barrier of MARK, or VUTHGAL_NONE */
  uint8_t what;    /* VUTHGAL_IDLE .. VUTHGAL_ENDS */
  uint8_t mark;    /* VUTHGAL_NO_MARK .. VUTHGAL_BROKE */
} vuthgal_event;

#define VUTHGAL_IDLE 0
#define VUTHGAL_OK 1
#define VUTHGAL_RESULT 2
#define VUTHGAL_OUT 3
#define VUTHGAL_WAITS 4
#define VUTHGAL_THROW 5
#define VUTHGAL_ENTERS 6
#define VUTHGAL_UNWINDS 7
#define VUTHGAL_CATCHES 8
#define VUTHGAL_DIES 9
#define VUTHGAL_ENDS 10

#define VUTHGAL_NO_MARK 0
#define VUTHGAL_PHASE_ENDED 1
#define VUTHGAL_TRIPPED 2
#define VUTHGAL_BROKE 3

/* Opens a session of a program. If one was open there, it is closed first. The session is open if and only if this returns 0. */
uint8_t vuthgal_session_open(vuthgal_session *session, const uint8_t *program, size_t program_length,
                             uint8_t *line, size_t line_room, size_t *line_length);

/* Carries out a command, a line of `vuthgal debug` without its line feed. The output is the reply. If *OUTPUT_LENGTH is more than
   OUTPUT_ROOM, ask for the reply by vuthgal_session_reply: the same command again would do more. With 4 the output is empty, and
   the session is as before; or it is closed, if memory for a long reply of `p` was refused. With 6 it is closed. The command `q`
   does nothing. */
uint8_t vuthgal_session_command(vuthgal_session *session, const uint8_t *command, size_t command_length,
                                uint8_t *output, size_t output_room, size_t *output_length);

/* Writes the reply to the last command again. After a command that returned 4 this is still the reply to the one before. The calls
   without a text, such as vuthgal_session_step, keep the reply. It allocates nothing, and changes nothing. */
uint8_t vuthgal_session_reply(vuthgal_session *session, uint8_t *output, size_t output_room, size_t *output_length);

/* Plays a choice: the turn of THREAD, or, where EXPIRY isn't 0, the time-out of its wait. *EVENT gets what it did, as the line of
   a trace says it. This is the command `s` without a text. With 4, 6, 7 and 8 nothing has changed, and *EVENT hasn't either. */
uint8_t vuthgal_session_step(vuthgal_session *session, uint8_t thread, uint8_t expiry, vuthgal_event *event);

/* Takes back the last choice: the command `b`. Returns 0, or 1 if none is kept: a session keeps 4,096. It allocates nothing. */
uint8_t vuthgal_session_back(vuthgal_session *session);

/* Goes to the state after the first NUMBER choices of PLAYED, the schedule of what was played from the beginning on. The state is made
   anew: the program begins again, and plays these choices without a stop at breakpoints. So it may be more than 4,096 choices back, and
   it takes as long as these choices. Breakpoints and reply stay. With 1 PLAYED has fewer choices, with 3 it is no schedule, with 5 it
   is too long, and with 7 or 8 one of these choices is refused. With any status but 0 nothing changes. */
uint8_t vuthgal_session_go_to(vuthgal_session *session, const uint8_t *played, size_t played_length, uint64_t number);

/* Says who may go. Bit t of *TURNS is set if the turn of thread t would do something now, and bit t of *EXPIRIES if the time-out of
   its wait would. Every other choice would be idle. At the limit of steps, a choice whose bit is set is refused with 8. It allocates
   nothing, and changes nothing but the two words, which are 0 if the session is closed. */
uint8_t vuthgal_session_enabled(vuthgal_session *session, uint64_t *turns, uint64_t *expiries);

/* Looks at the state: *STATE gets the counts, and each array the things of its kind in order of their numbers, as many as fit. What
   is behind them isn't written. ROOM is counted in elements: 64 threads, 64 phasers, 64 barriers and 32 cells are always enough. It
   allocates nothing. With 6 nothing is written. */
uint8_t vuthgal_session_look(vuthgal_session *session, vuthgal_state *state,
                             vuthgal_thread *threads, size_t threads_room,
                             vuthgal_phaser *phasers, size_t phasers_room,
                             vuthgal_barrier *barriers, size_t barriers_room,
                             int32_t *cells, size_t cells_room);

/* Writes the entries of a thread's stack, the lowest first, as many as fit, and sets *COUNT to the count of all: at most 64. It
   allocates nothing. With 6 and 7 nothing is written. */
uint8_t vuthgal_session_stack(vuthgal_session *session, uint8_t thread,
                              vuthgal_entry *entries, size_t entries_room, size_t *count);

/* Writes the values that a thread put out, the first one first, as many as fit, and sets *COUNT to the count of all: at most 4,096.
   It allocates nothing. With 6 and 7 nothing is written. */
uint8_t vuthgal_session_outputs(vuthgal_session *session, uint8_t thread,
                                int32_t *values, size_t values_room, size_t *count);

/* Makes TO a session in the state of FROM, with its breakpoints, which goes on alone. A session that was open at TO is closed. The
   copy has no reply, and none of the past: it can take back only what is played in it. With 4 and 6 TO is as before. FROM and TO are
   two different handles. */
uint8_t vuthgal_session_copy(vuthgal_session *from, vuthgal_session *to);

/* Writes the schedule of another run, which makes this choice in the present state: its thread goes on until it waits or ends, for at
   most 100 turns. Then those choices of REST follow that still do something: REST is the schedule with which the run itself would go
   on, at most 2,000 choices. Then all threads take turns. There are at most MOST choices, and at most 1,000,000. The session doesn't
   change. With 3 REST is refused. With any status but 0 the output is empty. */
uint8_t vuthgal_session_other(vuthgal_session *session, uint8_t thread, uint8_t expiry, uint32_t most,
                              const uint8_t *rest, size_t rest_length,
                              uint8_t *output, size_t output_room, size_t *output_length);

/* Closes a session, and frees what it holds. One that is closed stays so. */
void vuthgal_session_close(vuthgal_session *session);

/* Writes two lines: the version, and the sum of the sources. lib/vuthgal.sums has the same sum, and the kit that proved them. */
void vuthgal_version(uint8_t *output, size_t output_room, size_t *output_length);

/* Returns the version of the library as VUTHGAL_VERSION has it. */
uint32_t vuthgal_version_number(void);

#ifdef __cplusplus
}
#endif

/*
 * An example, which prints the trace of two threads that meet:
 *
 *   #include <stdio.h>
 *   #include <string.h>
 *   #include <vuthgal.h>
 *
 *   int main(void) {
 *     const char *program = ".phaser p 2\n.thread a main\n.thread b main\nmain: paaa r0 p\nout r0\nhalt\n";
 *     const char *schedule = "t0 t1 t0*3 t1*2";
 *     uint8_t trace[4096], line[VUTHGAL_LINE];
 *     size_t length, line_length;
 *     uint8_t status = vuthgal_run((const uint8_t *)program, strlen(program), (const uint8_t *)schedule, strlen(schedule),
 *                                  trace, sizeof trace, &length, line, sizeof line, &line_length);
 *     fwrite(trace, 1, length < sizeof trace ? length : sizeof trace, stdout);
 *     fwrite(line, 1, line_length < sizeof line ? line_length : sizeof line, stderr);
 *     return status;
 *   }
 */

#endif
