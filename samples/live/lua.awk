# Random lines of Lua as words, `many` of them, into the file `words`, and what Lua answers to each word, as a client prints it, into `answers`. Four bytes make
# a word, the first of them its lowest; behind a line come words of 0 until the rest of its answer was fetched (guests/lua).
function letters_of(text,    at, word) {
    word = ""
    for (at = 4; at >= 1; at--) word = word sprintf("%02x", code[substr(text, at, 1)])
    return word
}

# Four bytes go in, and the next four of what was printed come out.
function send(text) {
    if (number == many) exit
    print letters_of(text) > words
    printf "number %d word %s\n", number++, letters_of(substr(printed, 1, 4)) > answers
    printed = substr(printed, 5)
}

function say(line, answer) {
    for (line = line "\n"; length(line) > 4; line = substr(line, 5)) send(substr(line, 1, 4))
    printed = printed answer "\n"
    send(line)
    while (printed != "") send("")
}

BEGIN {
    srand(seed)
    code[""] = 0
    for (byte = 1; byte < 127; byte++) code[sprintf("%c", byte)] = byte
    for (value = places = 0;;) {
        chosen = int(rand() * 4)
        if (chosen < 2) {
            addend = int(rand() * 1000)
            value = (value * 31 + addend) % 1000003
            say("v=((v or 0)*31+" addend ")%1000003 return v", value)
        } else if (chosen == 2) {
            say("t=t or {} t[#t+1]=v or 0 return #t", ++places)
        } else {
            say("string.format('%05x',v or 0)", sprintf("%05x", value))
        }
    }
}
