package kit.player;

/** What a burst claims beside that its history is legal, in words of its own; it follows from that, and reads better. */
enum BurstClaim {
    /** Nothing. */
    NONE,
    /** Each thread meets the others so often: all get the same number in each meeting. */
    MEETS,
    /** Each thread comes to the barrier so often, and none leaves: each index of a trip is there once. */
    TRIPS
}
