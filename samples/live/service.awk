# Random requests of guests/service, `many` of them, into the file `words`, and its answers to them, each as a client prints it, into `answers`.
BEGIN {
    srand(seed)
    for (number = 0; number < many; number++) {
        asked = substr("11123", int(rand() * 5) + 1, 1)
        seat = int(rand() * 42)
        client = int(rand() * 7) + 1
        printf "%02x%02x%04x\n", asked, seat, client > words
        is_free = book[seat] == 0
        is_own = book[seat] == client
        if (asked == 1 && is_free) book[seat] = client
        if (asked == 2 && is_own) book[seat] = 0
        head = asked == 3 || is_own || (asked == 1 && is_free) ? "a0" : "b0"
        if (seat >= 40) printf "number %d word e0%02x%04x\n", number, seat, client > answers
        else printf "number %d word %s%02x%04x\n", number, head, seat, book[seat] > answers
    }
}
