// A session of libvuthgal by JNA, and where an input is refused: the calls and structs of vuthgal.h that the other examples here use. From
// the top of a clone:
//   javac -cp /usr/share/java/jna.jar -d classes examples/embedding/java/*.java
import com.sun.jna.Memory;
import com.sun.jna.Native;
import com.sun.jna.Pointer;
import com.sun.jna.ptr.LongByReference;
import java.nio.ByteBuffer;
import java.nio.ByteOrder;
import java.util.ArrayList;
import java.util.List;
import java.util.NoSuchElementException;
import java.util.Optional;
import java.util.function.IntFunction;

/** A program that is played choice by choice. One thread at a time may use it. `close` frees what it holds. */
public final class Session implements AutoCloseable {
  /** The turn of a thread, or the time-out of its wait. */
  public record Choice(int thread, boolean expires) {
    @Override
    public String toString() {
      return (expires ? "x" : "t") + thread;
    }
  }

  /** What a choice did: the line of a trace, by the numbers of vuthgal.h. */
  public record Event(long number, int value, int view, int row, int object, int what, int mark) {}

  public record Entry(int number, int kind) {}

  public record ThreadLook(List<Integer> registers, int value, int row, int object, int status, boolean interrupted, List<Entry> stack,
      List<Integer> outputs) {}

  public record PhaserLook(int phase, int parties, int arrived, int unarrived, int parent) {}

  public record BarrierLook(int parties, int waiting, int runner, boolean broken) {}

  /** A state, by the numbers of vuthgal.h. */
  public record Look(long choices, int steps, int standing, List<ThreadLook> threads, List<PhaserLook> phasers, List<BarrierLook> barriers,
      List<Integer> cells) {
    /** The same state, however many choices lead to it. */
    public Look withoutCounts() {
      return new Look(0, 0, standing, threads, phasers, barriers, cells);
    }
  }

  /** Where an input is refused, and what helps. The line and the column are from 1, and 0 where there is none. */
  public record Mistake(String told, boolean isInProgram, long line, long column, long length, String hint) {}

  public static final int OK = 1, RESULT = 2, THROW = 5; // what an event has: VUTHGAL_OK, VUTHGAL_RESULT, VUTHGAL_THROW
  public static final int RUNS = 0; // the status of a thread: VUTHGAL_RUNS
  public static final int PROGRAM = 0, PLAN = 1, SCHEDULE = 2, TEXT = 3; // what `mistake` looks at
  private static final int THREAD = 48, PHASER = 12, BARRIER = 8, ENTRY = 4; // how many bytes a struct has
  private static final int MOST = 64, CELLS = 32, OUTPUTS = 4096; // how many there can be

  static {
    Native.register(Session.class, "libvuthgal.so.2");
  }

  private static native byte vuthgal_session_open(Pointer session, byte[] program, long length, byte[] line, long room, LongByReference told);

  private static native byte vuthgal_session_command(Pointer session, byte[] command, long length, byte[] reply, long room, LongByReference told);

  private static native byte vuthgal_session_reply(Pointer session, byte[] reply, long room, LongByReference told);

  private static native byte vuthgal_session_step(Pointer session, byte thread, byte expiry, Pointer event);

  private static native byte vuthgal_session_back(Pointer session);

  private static native byte vuthgal_session_go_to(Pointer session, byte[] played, long length, long number);

  private static native byte vuthgal_session_enabled(Pointer session, Pointer turns, Pointer expiries);

  private static native byte vuthgal_session_look(Pointer session, Pointer state, Pointer threads, long threadsRoom, Pointer phasers,
      long phasersRoom, Pointer barriers, long barriersRoom, Pointer cells, long cellsRoom);

  private static native byte vuthgal_session_stack(Pointer session, byte thread, Pointer entries, long room, Pointer count);

  private static native byte vuthgal_session_outputs(Pointer session, byte thread, Pointer values, long room, Pointer count);

  private static native byte vuthgal_session_copy(Pointer from, Pointer to);

  private static native void vuthgal_session_close(Pointer session);

  private static native byte vuthgal_mistake(byte[] program, long programLength, byte kind, byte[] input, long inputLength, Pointer place,
      byte[] hint, long hintRoom, LongByReference hintLength, byte[] line, long lineRoom, LongByReference lineLength);

  private final Memory handle = new Memory(16);

  /** What calls of this thread write to: a struct or a count, and then an array of each kind. */
  private static final class Room {
    final Memory memory = new Memory(32 + MOST * (THREAD + PHASER + BARRIER) + 4 * CELLS + 4 * OUTPUTS);
    final ByteBuffer bytes = memory.getByteBuffer(0, memory.size()).order(ByteOrder.nativeOrder());
    final int threads = 32, phasers = threads + MOST * THREAD, barriers = phasers + MOST * PHASER, cells = barriers + MOST * BARRIER;
    final int list = cells + 4 * CELLS;
    final Pointer atSecond = memory.share(8), atThreads = memory.share(threads), atPhasers = memory.share(phasers);
    final Pointer atBarriers = memory.share(barriers), atCells = memory.share(cells), atList = memory.share(list);

    int number(int at) {
      return Short.toUnsignedInt(bytes.getShort(at));
    }

    <T> List<T> listed(int count, IntFunction<T> read) {
      List<T> list = new ArrayList<>(count);
      for (int n = 0; n < count; n++) list.add(read.apply(n));
      return list;
    }
  }

  private static final ThreadLocal<Room> ROOM = ThreadLocal.withInitial(Room::new);

  private Session() {
    handle.clear();
  }

  /** Opens a session of a program, a text or an image. */
  public static Session open(byte[] program) {
    Session session = new Session();
    byte[] line = new byte[96];
    LongByReference length = new LongByReference();
    byte status = vuthgal_session_open(session.handle, program, program.length, line, line.length, length);
    if (status == 3) throw new IllegalArgumentException(text(line, length));
    done(status);
    return session;
  }

  private static String text(byte[] bytes, LongByReference length) {
    return new String(bytes, 0, (int) Math.min(bytes.length, length.getValue())).stripTrailing();
  }

  private static void done(byte status) {
    switch (status) {
      case 0: return;
      case 4: throw new OutOfMemoryError("libvuthgal has no memory for a call");
      case 5: throw new IllegalArgumentException("an input has more bytes than it may have");
      case 6: throw new IllegalStateException("the session is closed");
      case 7: throw new NoSuchElementException("there is no such thread");
      case 8: throw new IllegalStateException("the session has done all its steps");
      default: throw new AssertionError("status " + status);
    }
  }

  /** Plays a choice. One that is refused changes nothing. */
  public Event play(Choice choice) {
    if (choice.thread < 0 || choice.thread >= MOST) done((byte) 7);
    Room room = ROOM.get();
    done(vuthgal_session_step(handle, (byte) choice.thread, (byte) (choice.expires ? 1 : 0), room.memory));
    ByteBuffer it = room.bytes;
    return new Event(it.getLong(0), it.getInt(8), it.getInt(12), room.number(16), room.number(18), it.get(20), it.get(21));
  }

  /** Takes back the last choice. The newest 4,096 are kept. */
  public void back() {
    byte status = vuthgal_session_back(handle);
    if (status == 1) throw new NoSuchElementException("no choice is kept that could be taken back");
    done(status);
  }

  /** Goes to the state after so many choices of a schedule, which is played from the beginning on. */
  public void goTo(String played, long number) {
    byte[] schedule = played.getBytes();
    byte status = vuthgal_session_go_to(handle, schedule, schedule.length, number);
    if (status == 1 || status == 3) throw new IllegalArgumentException("no schedule of " + number + " choices: " + played);
    done(status);
  }

  /** The choices that would do something now. Every other one would be idle. */
  public List<Choice> enabled() {
    Room room = ROOM.get();
    done(vuthgal_session_enabled(handle, room.memory, room.atSecond));
    List<Choice> choices = new ArrayList<>();
    for (int word = 0; word < 2; word++)
      for (long bits = room.bytes.getLong(8 * word); bits != 0; bits &= bits - 1)
        choices.add(new Choice(Long.numberOfTrailingZeros(bits), word == 1));
    return choices;
  }

  /** How all stand now. */
  public Look look() {
    Room room = ROOM.get();
    ByteBuffer it = room.bytes;
    done(vuthgal_session_look(handle, room.memory, room.atThreads, MOST, room.atPhasers, MOST, room.atBarriers, MOST, room.atCells, CELLS));
    long choices = it.getLong(0);
    int steps = it.getInt(8), threads = it.get(12), phasers = it.get(13), barriers = it.get(14), standing = it.get(15);
    return new Look(choices, steps, standing, room.listed(threads, this::thread),
        room.listed(phasers, n -> phaser(room, room.phasers + n * PHASER)), room.listed(barriers, n -> barrier(room, room.barriers + n * BARRIER)),
        room.listed(CELLS, n -> it.getInt(room.cells + 4 * n)));
  }

  private ThreadLook thread(int number) {
    Room room = ROOM.get();
    ByteBuffer it = room.bytes;
    int at = room.threads + number * THREAD;
    List<Integer> registers = room.listed(8, n -> it.getInt(at + 4 * n));
    List<Entry> stack = List.of();
    if (it.get(at + 42) != 0) {
      done(vuthgal_session_stack(handle, (byte) number, room.atList, MOST, room.memory));
      stack = room.listed((int) it.getLong(0), n -> new Entry(room.number(room.list + n * ENTRY), it.get(room.list + n * ENTRY + 2)));
    }
    List<Integer> outputs = List.of();
    if (room.number(at + 40) != 0) {
      done(vuthgal_session_outputs(handle, (byte) number, room.atList, OUTPUTS, room.memory));
      outputs = room.listed((int) it.getLong(0), n -> it.getInt(room.list + 4 * n));
    }
    return new ThreadLook(registers, it.getInt(at + 32), room.number(at + 36), room.number(at + 38), it.get(at + 43), it.get(at + 44) != 0,
        stack, outputs);
  }

  /** A value for a set of the states that were seen: what a look shows but the counts, and who may go. */
  public Object fingerprint() {
    return List.of(look().withoutCounts(), enabled());
  }

  private static PhaserLook phaser(Room room, int at) {
    return new PhaserLook(room.bytes.getInt(at), room.number(at + 4), room.number(at + 6), room.number(at + 8), room.number(at + 10));
  }

  private static BarrierLook barrier(Room room, int at) {
    return new BarrierLook(room.number(at), room.number(at + 2), room.number(at + 4), room.bytes.get(at + 6) != 0);
  }

  /** How all stand now, as a trace ends with it. */
  public String state() {
    byte[] command = {'p'}, reply = new byte[4096];
    LongByReference length = new LongByReference();
    done(vuthgal_session_command(handle, command, 1, reply, reply.length, length));
    if (length.getValue() > reply.length) {
      reply = new byte[(int) length.getValue()];
      done(vuthgal_session_reply(handle, reply, reply.length, length));
    }
    return text(reply, length);
  }

  /** A second session in this state, which goes on alone. It can take back only what is played in it. */
  public Session copy() {
    Session copy = new Session();
    done(vuthgal_session_copy(handle, copy.handle));
    return copy;
  }

  /** Where a program is refused, or a plan or a schedule of it, and what helps. */
  public static Optional<Mistake> mistake(byte[] program, int kind, byte[] input) {
    Room room = ROOM.get();
    byte[] hint = new byte[4096], line = new byte[96];
    LongByReference hintLength = new LongByReference(), lineLength = new LongByReference();
    byte status = vuthgal_mistake(program, program.length, (byte) kind, input, input.length, room.memory, hint, hint.length, hintLength, line,
        line.length, lineLength);
    if (status != 3) {
      done(status);
      return Optional.empty();
    }
    ByteBuffer it = room.bytes;
    return Optional.of(
        new Mistake(text(line, lineLength), it.get(24) == PROGRAM, it.getLong(0), it.getLong(8), it.getLong(16), text(hint, hintLength)));
  }

  @Override
  public void close() {
    vuthgal_session_close(handle);
  }
}
