/**
 * Plays programs on real synchronizers, the JDK's or those of a port, one real thread for each of a program's, in lock-step,
 * and writes the trace of what they did. {@code docs/ARCHITECTURE.md}, "The porters' kit", says what each part does.
 */
package kit.player;
