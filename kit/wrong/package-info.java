/**
 * Wrong adapters: the JDK's classes with one misunderstanding each put before them. A class for each subject has those
 * of it. {@code kit/run} asks that each be found, by a case of the set, or, where it is nearly a documented
 * difference, by the program of one.
 */
package kit.wrong;
