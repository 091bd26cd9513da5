package kit.player;

/** A call of a burst that fails, and the one answer of it with which there would be an order. */
record BurstRemedy(BurstEntry entry, Answer answer) {
}
