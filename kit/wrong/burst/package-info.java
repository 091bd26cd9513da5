/**
 * Wrong adapters whose faults lock-step can't see: what goes wrong between two steps, in races, or by a clock. Each is
 * one of a few small classes over a lock, with one misunderstanding put into it. A class for each subject has those of
 * it. {@code kit/run} asks that bursts find each, and find nothing in {@link kit.wrong.burst.UnderOneLock}, which is
 * right.
 */
package kit.wrong.burst;
