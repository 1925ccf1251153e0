package tillermoss;

/** Why something is refused, as it stands in a message. */
record Refusal(int number, long argument, String word) {
    String text() {
        String name = Refused.NAMES[number - 1];
        return word == null ? name : name + " " + word;
    }
}
