/** A client of a Tillermoss cell, in Java alone: sessions, files, locks, events, and reads out of a cache as fresh as the master's. */
module tillermoss {
    exports tillermoss;
}
